/* The verbs that move plan cards: file, from cards to AIGER, and card, back; a file, or all files of a folder. */
#define _GNU_SOURCE
#include <dirent.h>
#include <errno.h>
#include <search.h>
#include <stdlib.h>
#include <string.h>
#include <sys/stat.h>

#include "card_refusals.h"
#include "command.h"
#include "say.h"
#include "symbols.h"

/* Both directions: the bytes of the moved plan, or what is said of why there are none. */
static int to_aiger(const struct source *cards, struct plan_bytes *made) {
    struct plan plan;
    struct plan_end end = plan_read_cards(&plan, cards->at, cards->length);
    if (end.number == 0) {
        end = plan_write_binary(&plan, made);
        plan_free(&plan);
    }
    return cards_ended(end, cards);
}

/* What cards can't hold: the two of the tail first, which can be taken off. */
enum { HAS_SYMBOLS, HAS_COMMENT, HAS_RESETS, HAS_BADS, HAS_CONSTRAINTS, KINDS };

static void find_kinds(const struct plan *plan, int has[KINDS]) {
    size_t comment = symbols_end(plan);
    has[HAS_SYMBOLS] = comment > 0;
    has[HAS_COMMENT] = comment < plan->tail_length;
    has[HAS_RESETS] = 0;
    for (uint64_t k = 0; k < plan->counts[PLAN_L]; k++)
        has[HAS_RESETS] |= plan->table[PLAN_RESETS][k] != 0;
    has[HAS_BADS] = plan->counts[PLAN_B] > 0;
    has[HAS_CONSTRAINTS] = plan->counts[PLAN_C] > 0;
}

/* Which of the five it is, and what to do. */
static int not_on_cards(struct plan_end end, const struct source *file, const struct plan *plan) {
    static const char *const kinds[KINDS] = {"no symbols", "no comment", "no resets that are not 0", "no bad states",
                                             "no constraints"};
    char all[120] = "";
    int has[KINDS], left = 0;
    find_kinds(plan, has);
    for (int k = 0; k < KINDS; k++)
        left += has[k];
    for (int k = 0, said = 0; k < KINDS; k++)
        if (has[k]) {
            strcat(all, said == 0 ? "" : said + 1 == left ? " and " : ", ");
            strcat(all, kinds[k]);
            said++;
        }
    if (has[HAS_RESETS] || has[HAS_BADS] || has[HAS_CONSTRAINTS])
        say_refused_of(file->name, end, "cards hold %s, which the plan has: it can't be put on cards as it is", all);
    else
        say_refused_of(file->name, end, "cards hold %s, which the plan has: \"plan strip %s\" takes %s off", all,
                       typed_name(file), has[HAS_SYMBOLS] ? "them" : "it");
    return REFUSED;
}

/* What cards can't hold is 19; all other refusals are those of a plan. */
static int write_cards(const struct source *file, struct plan *plan, struct plan_bytes *made) {
    struct plan_end end = plan_write_cards(plan, made);
    if (end.number == GOLVANZO_NOT_ON_CARDS)
        return not_on_cards(end, file, plan);
    if (end.number != GOLVANZO_NOT_IN_ORDER)
        return ended(end, file);
    say_refused_of(file->name, end, "the plan is not in binary order: convert it first");
    return REFUSED;
}

static int to_cards(const struct source *file, struct plan_bytes *made) {
    struct plan plan;
    int status = ended(plan_read(&plan, file->at, file->length), file);
    if (status == DONE)
        status = write_cards(file, &plan, made);
    plan_free(&plan);
    return status;
}

/* A direction: what it does, and the ending that a file's name gets; known endings go. */
struct move {
    int (*read)(const char *, struct source *);
    int (*make)(const struct source *, struct plan_bytes *);
    const char *ending;
};

static const struct move moves[] = {{read_cards, to_aiger, ".aig"}, {read_source, to_cards, ".cards"}};

static int move_file(const struct move *move, const char *from, const char *out) {
    struct source file;
    struct plan_bytes made = {NULL, 0};
    int status = move->read(from, &file);
    if (status != DONE)
        return status;
    status = move->make(&file, &made);
    if (status == DONE)
        status = write_output(out, made.at, made.length);
    free(made.at);
    free_source(&file);
    return status;
}

/* The first bytes of a name with another ending, in a folder. */
static char *joined_path(const char *folder, const char *name, size_t length, const char *ending) {
    size_t before = strlen(folder) + 1;
    char *path = malloc(before + length + strlen(ending) + 1);
    if (path == NULL)
        return NULL;
    strcat(strcpy(path, folder), "/");
    memcpy(path + before, name, length);
    strcpy(path + before + length, ending);
    return path;
}

/* How much of a name stays when its ending is one of those that plans and cards have. */
static size_t stem(const char *name) {
    static const char *const endings[] = {".cards", ".card", ".aig", ".aag"};
    size_t length = strlen(name);
    for (size_t k = 0; k < sizeof endings / sizeof endings[0]; k++) {
        size_t ending = strlen(endings[k]);
        if (length > ending && strcmp(name + length - ending, endings[k]) == 0)
            return length - ending;
    }
    return length;
}

/* Files of a folder that were moved, in a tree by their names but for the endings. */
static int by_stem(const void *a, const void *b) {
    size_t m = stem(a), n = stem(b);
    int order = memcmp(a, b, m < n ? m : n);
    return order != 0 ? order : (m > n) - (m < n);
}

/* Nothing of the tree is its own. */
static void leave(void *name) { (void)name; }

/* Why an entry of the folder is no file, or null: nobody would write to a pipe that is waited for. */
static const char *no_file(const char *name) {
    struct stat about;
    if (stat(name, &about) != 0 || S_ISREG(about.st_mode))
        return NULL;
    return S_ISDIR(about.st_mode) ? "it is a folder, which is given by itself" : "it is no file";
}

/* One line for the file, whatever becomes of it. Only a file that is moved takes the name. */
static int move_entry(const struct move *move, const struct request *request, const char *name, void **moved) {
    char *const *first = tfind(name, moved, by_stem);
    const char *why;
    char *from = joined_path(request->file, name, strlen(name), "");
    char *out = joined_path(request->out, name, stem(name), move->ending);
    int status = REFUSED;
    say_in_one_line(from == NULL ? name : from);
    if (from == NULL || out == NULL)
        status = no_memory();
    else if ((why = no_file(from)) != NULL)
        say_unreadable(from, why);
    else if (first != NULL)
        status = fail("%s comes first, with the same name but for the ending", *first);
    else
        status = move_file(move, from, out);
    if (status == DONE && tsearch(name, moved, by_stem) == NULL)
        status = no_memory();
    if (status == DONE)
        say_written(from, out);
    say_in_one_line(NULL);
    free(from);
    free(out);
    return status;
}

static int is_visible(const struct dirent *entry) { return entry->d_name[0] != '.'; }

/* In the order of names; a file that is refused leaves the others alone. Each line is there when its file is done, whatever
   ends the command. */
static int move_entries(const struct move *move, const struct request *request, struct dirent *const *entries,
                        int number) {
    struct output lines;
    void *moved = NULL;
    int count = 0, status = open_output(&lines, NULL);
    setvbuf(lines.to, NULL, _IOLBF, BUFSIZ);
    for (int k = 0; k < number; k++) {
        int end = move_entry(move, request, entries[k]->d_name, &moved);
        count += end == DONE;
        status = end > status ? end : status;
    }
    tdestroy(moved, leave);
    fprintf(lines.to, "%d of %d written\n", count, number);
    return close_output(&lines) == DONE ? status : FAILED;
}

static int is_folder(const char *name, struct stat *about) {
    return strcmp(name, "-") != 0 && stat(name, about) == 0 && S_ISDIR(about->st_mode);
}

/* The folder that is written to is made if it isn't there. It is another one, so that no file that was made is moved
   again. */
static int make_folder(const char *name, const struct stat *from) {
    struct stat to;
    if (mkdir(name, 0777) != 0 && errno != EEXIST)
        return fail("%s: %s", name, strerror(errno));
    if (!is_folder(name, &to))
        return fail("%s: %s", name, strerror(ENOTDIR));
    if (to.st_dev == from->st_dev && to.st_ino == from->st_ino)
        return fail("%s: -o must name another folder than the one that is read", name);
    return DONE;
}

static int move_folder(const struct move *move, const struct request *request, const struct stat *from) {
    struct dirent **entries;
    int number = scandir(request->file, &entries, is_visible, alphasort);
    if (number < 0)
        return fail("%s: %s", request->file, strerror(errno));
    int status = make_folder(request->out, from);
    if (status == DONE) {
        begin_folder();
        status = move_entries(move, request, entries, number);
        int end = end_folder(request->out);
        status = end > status ? end : status;
    }
    for (int k = 0; k < number; k++)
        free(entries[k]);
    free(entries);
    return status;
}

static int run_move(const struct move *move, const struct request *request) {
    struct stat from;
    if (!is_folder(request->file, &from))
        return move_file(move, request->file, request->out);
    if (request->out == NULL || strcmp(request->out, "-") == 0)
        return fail("%s is a folder: -o must name the folder to write to", request->file);
    return move_folder(move, request, &from);
}

int run_file(const struct request *request) { return run_move(&moves[0], request); }

int run_card(const struct request *request) { return run_move(&moves[1], request); }
