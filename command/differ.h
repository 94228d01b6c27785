/* How two plans in binary order differ. */
#ifndef DIFFER_H
#define DIFFER_H

#include "symbols.h"

/* A plan in binary order with its names, the file that it comes from, and the bytes that it converts to. */
struct side {
    struct source file;
    struct plan plan;
    struct names names;
    struct plan_bytes made;
};

/* An entry of a list that differs, and which list that is. */
struct place {
    const struct kind *list;
    uint64_t entry;
};

/* All that differs: the counts, entries, in the order of a file, gates that only one plan has, their number and the first of
   them, and whether names or comments do. Entries are compared by the gates that they take, whatever these are numbered; that
   is done only if both plans have as many inputs and latches. */
struct differences {
    int counts[PLAN_COUNTS], compared, tail;
    struct place *at;
    size_t number;
    uint64_t own[2], first[2];
};

/* The status; what is found is to be given back either way. */
int find_differences(const struct side *sides, struct differences *found);
void free_differences(struct differences *found);

/* As lines, as one line without its end, as parts of an object. */
void print_differences(const struct side *sides, const struct differences *found, FILE *to);
void print_summary(const struct differences *found, FILE *to);
void json_differences(struct json *json, const struct side *sides, const struct differences *found);

#endif
