/* Many files: each has one line, whatever becomes of it, and leaves the others alone. */
#define _GNU_SOURCE
#include <errno.h>
#include <search.h>
#include <stdlib.h>
#include <string.h>
#include <sys/stat.h>

#include "card_refusals.h"
#include "commands.h"
#include "progress.h"
#include "say.h"
#include "walk.h"

int is_many(const struct command *command, const struct request *request) {
    int plain = command->takes & NEEDS_SECOND ? 2 : 1;
    if (!(command->takes & TAKES_MANY))
        return 0;
    for (int k = 0; k < request->number; k++)
        if (is_a_folder(request->words[k]))
            return 1;
    return request->number > plain;
}

/* A run over many files: what is asked, the files, those that were written, and the inodes of all that are read. */
struct many {
    const struct command *command;
    const struct request *request;
    struct finds finds;
    struct found *by_inode;
    void *written;
    size_t good;
};

static int compare_inodes(const void *a, const void *b) {
    const struct found *x = a, *y = b;
    if (x->device != y->device)
        return x->device < y->device ? -1 : 1;
    return x->inode < y->inode ? -1 : x->inode > y->inode;
}

static int compare_paths(const void *a, const void *b) { return strcmp(a, b); }

/* Whether a file is one of those that are read: what is written must not take its place. */
static int is_read(const struct many *many, const char *path) {
    struct stat about;
    if (stat(path, &about) != 0)
        return 0;
    const struct found key = {.device = about.st_dev, .inode = about.st_ino};
    return bsearch(&key, many->by_inode, many->finds.number, sizeof key, compare_inodes) != NULL;
}

/* Makes the folders above a path. */
static int make_folders(char *path) {
    for (char *at = strchr(path + 1, '/'); at != NULL; at = strchr(at + 1, '/')) {
        *at = '\0';
        int good = mkdir(path, 0777) == 0 || errno == EEXIST || errno == EISDIR;
        int status = good ? DONE : fail("%s: %s", path, strerror(errno));
        *at = '/';
        if (status != DONE)
            return status;
    }
    return DONE;
}

/* The name that what is made of a plan gets. */
static char *out_name(const struct many *many, const struct found *found, const struct plan *plan) {
    enum makes makes = many->command->makes;
    int binary = makes == MAKES_BINARY || (makes == MAKES_OTHER_FORM) != (plan->binary != 0);
    char *path;
    int length = (int)stem_of(found->below);
    if (asprintf(&path, "%s/%.*s%s", many->request->out, length, found->below, binary ? ".aig" : ".aag") < 0)
        return NULL;
    return path;
}

/* Of two that would be written under one name the first that is written stays. */
static int write_one(struct many *many, const struct found *found, const struct source *file, struct plan *plan) {
    struct request one = *many->request;
    char *out = out_name(many, found, plan);
    if (out == NULL)
        return no_memory();
    int status = DONE;
    if (tfind(out, &many->written, compare_paths) != NULL)
        status = fail("another file was written to %s before", out);
    else if (is_read(many, out))
        status = fail("%s is one of the files that are read", out);
    if (status == DONE)
        status = make_folders(out);
    one.file = found->path;
    one.out = out;
    if (status == DONE)
        status = many->command->on_plan(&one, file, plan);
    if (status == DONE && !one.quiet)
        say_written(found->path, out);
    if (status == DONE && tsearch(out, &many->written, compare_paths) != NULL)
        return DONE;
    free(out);
    return status;
}

/* Whether a file is read as plan cards. */
static int is_cards(const struct many *many, const struct found *found) {
    return many->command->takes & TAKES_CARDS && has_ending(found->path, ".cards");
}

static int on_one(struct many *many, const struct found *found, const struct source *file) {
    struct request one = *many->request;
    struct plan plan;
    one.file = found->path;
    one.many = 1;
    one.cards = is_cards(many, found);
    int status = one.cards ? cards_ended(plan_read_cards(&plan, file->at, file->length), file)
                           : ended(plan_read(&plan, file->at, file->length), file);
    if (status == DONE && many->command->makes != MAKES_NOTHING)
        status = write_one(many, found, file, &plan);
    else if (status == DONE)
        status = many->command->on_plan(&one, file, &plan);
    plan_free(&plan);
    return status;
}

/* One line for the file. */
static int run_one(struct many *many, const struct found *found) {
    struct source file = {NULL, NULL, 0};
    int status = REFUSED;
    say_in_one_line(found->path);
    if (found->why != NULL)
        say_unreadable(found->path, found->why);
    else
        status = is_cards(many, found) ? read_cards(found->path, &file) : read_source(found->path, &file);
    if (found->why == NULL && status == DONE)
        status = on_one(many, found, &file);
    free_source(&file);
    say_in_one_line(NULL);
    many->good += status == DONE;
    return status;
}

static void print_count(const struct many *many) {
    printf("%zu of %zu %s", many->good, many->finds.number,
           many->command->makes == MAKES_NOTHING ? "accepted" : "written");
    print_passed_over(&many->finds);
}

/* Each line is there when its file is done, whatever ends the command. */
static int run_all(struct many *many) {
    const struct finds *finds = &many->finds;
    struct output lines;
    int status = open_output(&lines, NULL);
    setvbuf(lines.to, NULL, _IOLBF, BUFSIZ);
    progress_begin(finds->number);
    for (size_t k = 0; k < finds->number && !ferror(lines.to); k++) {
        progress_at(k, finds->at[k].path);
        int end = run_one(many, &finds->at[k]);
        status = end > status ? end : status;
    }
    progress_clear();
    if (!many->request->quiet && !many->request->json)
        print_count(many);
    return close_output(&lines) == DONE ? status : FAILED;
}

/* Of the folder that is written to the last part may not be there. */
static int make_out(const struct request *request) {
    if (request->out == NULL)
        return DONE;
    if (mkdir(request->out, 0777) != 0 && errno != EEXIST)
        return fail("%s: %s", request->out, strerror(errno));
    return is_a_folder(request->out) ? DONE : fail("%s: %s", request->out, strerror(ENOTDIR));
}

static int sort_inodes(struct many *many) {
    size_t bytes = many->finds.number * sizeof *many->by_inode;
    many->by_inode = malloc(bytes + 1);
    if (many->by_inode == NULL)
        return no_memory();
    if (bytes == 0)
        return DONE;
    memcpy(many->by_inode, many->finds.at, bytes);
    qsort(many->by_inode, many->finds.number, sizeof *many->by_inode, compare_inodes);
    return DONE;
}

int run_many(const struct command *command, const struct request *request) {
    struct many many = {.command = command, .request = request};
    if (command->on_many != NULL)
        return command->on_many(request);
    int status = find_files(request, command->takes & TAKES_CARDS, &many.finds);
    if (status == DONE)
        status = make_out(request);
    if (status == DONE)
        status = sort_inodes(&many);
    if (status == DONE)
        status = run_all(&many);
    tdestroy(many.written, free);
    free(many.by_inode);
    free_finds(&many.finds);
    return status;
}
