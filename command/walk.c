#define _GNU_SOURCE
#include "walk.h"

#include <errno.h>
#include <fts.h>
#include <stdlib.h>
#include <string.h>
#include <sys/stat.h>

int is_a_folder(const char *name) {
    struct stat about;
    return strcmp(name, "-") != 0 && stat(name, &about) == 0 && S_ISDIR(about.st_mode);
}

int has_ending(const char *name, const char *ending) {
    size_t length = strlen(name), of = strlen(ending);
    return length > of && strcmp(name + length - of, ending) == 0;
}

size_t stem_of(const char *name) {
    static const char *const endings[] = {".aag", ".aig", ".cards"};
    for (size_t k = 0; k < sizeof endings / sizeof endings[0]; k++)
        if (has_ending(name, endings[k]))
            return strlen(name) - strlen(endings[k]);
    return strlen(name);
}

/* Keeps a path; 0 without memory. */
static int keep(struct finds *finds, const char *path, const char *below, const char *why, int word,
                const struct stat *about) {
    if (finds->number == finds->room) {
        size_t room = 2 * finds->room + 64;
        struct found *more = realloc(finds->at, room * sizeof *more);
        if (more == NULL)
            return 0;
        finds->at = more;
        finds->room = room;
    }
    char *copy = strdup(path);
    if (copy == NULL)
        return 0;
    finds->at[finds->number++] = (struct found){copy, copy + (below - path), why, word, about->st_dev, about->st_ino};
    return 1;
}

/* Where the last part of a word starts, which is its name in the folder that is written to; the end if that is no name. */
static size_t last_part(const char *word) {
    size_t end = strlen(word), start;
    while (end > 0 && word[end - 1] == '/')
        end--;
    for (start = end; start > 0 && word[start - 1] != '/';)
        start--;
    size_t length = end - start;
    int is_name = length > 0 && memcmp(word + start, "..", length < 2 ? length : 2) != 0;
    return is_name || length > 2 ? start : strlen(word);
}

/* A walk through one word: what it adds to, and what is asked. */
struct walk {
    struct finds *finds;
    int word, cards;
    size_t below;
    const struct stat *out;
};

static int by_name(const FTSENT **a, const FTSENT **b) { return strcmp((*a)->fts_name, (*b)->fts_name); }

/* Why an entry can't be read, or null. */
static const char *wrong_with(const FTSENT *entry) {
    switch (entry->fts_info) {
    case FTS_DC:
        return "it leads back to a folder above it";
    case FTS_DNR:
    case FTS_ERR:
    case FTS_NS:
        return strerror(entry->fts_errno);
    case FTS_DEFAULT:
        return "it is no file";
    default:
        return NULL;
    }
}

/* Whether it is the folder that is written to. */
static int is_out(const struct walk *walk, const FTSENT *entry) {
    const struct stat *about = entry->fts_statp;
    return walk->out != NULL && about->st_dev == walk->out->st_dev && about->st_ino == walk->out->st_ino;
}

static int is_plan(const struct walk *walk, const char *name) {
    return has_ending(name, ".aag") || has_ending(name, ".aig") || (walk->cards && has_ending(name, ".cards"));
}

/* What is hidden, by a dot before its name, is left alone. */
static int take(const struct walk *walk, FTS *folder, FTSENT *entry) {
    const char *why = wrong_with(entry), *below = entry->fts_path + walk->below;
    if (entry->fts_level > 0 && entry->fts_name[0] == '.') {
        fts_set(folder, entry, FTS_SKIP);
        return 1;
    }
    if (entry->fts_info == FTS_D) {
        if (entry->fts_level > 0 && is_out(walk, entry))
            fts_set(folder, entry, FTS_SKIP);
        return 1;
    }
    if (entry->fts_info == FTS_DP)
        return 1;
    int folder_fails = entry->fts_info == FTS_DC || entry->fts_info == FTS_DNR;
    if (!folder_fails && !is_plan(walk, entry->fts_name)) {
        walk->finds->passed_over++;
        return 1;
    }
    return keep(walk->finds, entry->fts_path, below + strspn(below, "/"), why, walk->word, entry->fts_statp);
}

/* Links are followed, as by every other command here. */
static int walk_folder(const struct walk *walk, char *name) {
    char *const roots[] = {name, NULL};
    FTS *folder = fts_open(roots, FTS_LOGICAL | FTS_NOCHDIR, by_name);
    if (folder == NULL)
        return no_memory();
    FTSENT *entry;
    int good = 1;
    while (good && (errno = 0, entry = fts_read(folder)) != NULL)
        good = take(walk, folder, entry);
    int why = entry == NULL ? errno : 0;
    fts_close(folder);
    return !good ? no_memory() : why != 0 ? fail("%s: %s", name, strerror(why)) : DONE;
}

/* One folder alone is mirrored as it is; of several words each has its own name in the folder that is written to. */
static int find_word(const struct request *request, int word, int cards, const struct stat *out, struct finds *finds) {
    char *name = request->words[word];
    size_t last = request->number == 1 ? strlen(name) : last_part(name);
    const struct walk walk = {finds, word, cards, last, out};
    struct stat about = {.st_dev = 0};
    int known = stat(name, &about) == 0;
    if (!known || !S_ISDIR(about.st_mode))
        return keep(finds, name, name + last_part(name), NULL, word, &about) ? DONE : no_memory();
    if (out != NULL && about.st_dev == out->st_dev && about.st_ino == out->st_ino)
        return fail("%s: -o must name another folder than one that is read", request->out);
    return walk_folder(&walk, name);
}

int find_files(const struct request *request, int cards, struct finds *finds) {
    struct stat out;
    int has_out = request->out != NULL && stat(request->out, &out) == 0, status = DONE;
    *finds = (struct finds){NULL, 0, 0, 0};
    for (int k = 0; k < request->number && status == DONE; k++)
        status = find_word(request, k, cards, has_out ? &out : NULL, finds);
    return status;
}

void free_finds(struct finds *finds) {
    for (size_t k = 0; k < finds->number; k++)
        free(finds->at[k].path);
    free(finds->at);
}

void print_passed_over(const struct finds *finds) {
    if (finds->passed_over > 0)
        printf("; %zu other %s passed over", finds->passed_over, finds->passed_over == 1 ? "file" : "files");
    putchar('\n');
}
