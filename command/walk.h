/* The files that words of the command line ask for: themselves, and all plans of folders and below them. */
#ifndef WALK_H
#define WALK_H

#include <sys/types.h>

#include "command.h"

/* A file: its path, the part of it that a folder to be written to has too, why it can't be read, or null, and which file it is.
   `word` is the word that it came from. */
struct found {
    char *path;
    const char *below, *why;
    int word;
    dev_t device;
    ino_t inode;
};

/* In the order of the words, and of a folder in the order of names by bytes. Files of folders with other names are counted. */
struct finds {
    struct found *at;
    size_t number, room, passed_over;
};

/* `cards`: those of plan cards too. The folder that is written to, if there is one, is not gone through, and is none of the
   words. The status; what was found is to be given back either way. */
int find_files(const struct request *request, int cards, struct finds *finds);
void free_finds(struct finds *finds);

/* Ends the last line of a count with what was passed over. */
void print_passed_over(const struct finds *finds);

int is_a_folder(const char *name);

/* How much of a name stays without the ending that plans and cards have, and the ending. */
size_t stem_of(const char *name);
int has_ending(const char *name, const char *ending);

#endif
