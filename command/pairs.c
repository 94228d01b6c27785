/* The verb same on folders and many files: each plan with its partner, one line a pair. */
#define _GNU_SOURCE
#include <search.h>
#include <stdlib.h>
#include <string.h>

#include "progress.h"
#include "same.h"
#include "say.h"
#include "walk.h"

/* A file, its name among those that a partner is looked for by, and whether it is one. */
struct member {
    const struct found *found;
    const char *name;
    int taken;
};

/* What is counted: pairs, and files without a partner. */
struct pairs {
    const struct request *request;
    struct finds finds;
    struct member *members;
    void *tree;
    int two_folders, status;
    size_t same, different, unread, alone;
};

static int by_name(const void *a, const void *b) {
    return strcmp(((const struct member *)a)->name, ((const struct member *)b)->name);
}

/* Of two folders files have their names below these, else their paths. */
static const char *name_of(const struct pairs *pairs, const struct found *found) {
    const char *below = found->path + strlen(pairs->request->words[found->word]);
    return pairs->two_folders ? below + strspn(below, "/") : found->path;
}

/* Partners are looked for among the files of the second folder, or among those of binary form. */
static int may_be_partner(const struct pairs *pairs, const struct found *found) {
    return pairs->two_folders ? found->word == 1 : has_ending(found->path, ".aig");
}

static int list_members(struct pairs *pairs) {
    pairs->members = calloc(pairs->finds.number + 1, sizeof *pairs->members);
    for (size_t k = 0; pairs->members != NULL && k < pairs->finds.number; k++) {
        struct member *member = &pairs->members[k];
        *member = (struct member){&pairs->finds.at[k], name_of(pairs, &pairs->finds.at[k]), 0};
        if (may_be_partner(pairs, member->found) && tsearch(member, &pairs->tree, by_name) == NULL)
            return no_memory();
    }
    return pairs->members == NULL ? no_memory() : DONE;
}

/* The partner with this ending, or null. */
static struct member *partner_ending(const struct pairs *pairs, const char *name, const char *ending) {
    size_t stem = stem_of(name);
    char *wanted = malloc(stem + strlen(ending) + 1);
    if (wanted == NULL)
        return NULL;
    memcpy(wanted, name, stem);
    strcpy(wanted + stem, ending);
    struct member key = {NULL, wanted, 0}, **found = tfind(&key, &pairs->tree, by_name);
    free(wanted);
    return found == NULL ? NULL : *found;
}

/* In the other folder the same name comes before the other form of it; elsewhere text has its binary form beside it. */
static struct member *partner_of(const struct pairs *pairs, const struct member *member) {
    const char *same = has_ending(member->name, ".aig") ? ".aig" : ".aag";
    const char *other = has_ending(member->name, ".aig") ? ".aag" : ".aig";
    if (!pairs->two_folders)
        return has_ending(member->name, ".aag") ? partner_ending(pairs, member->name, ".aig") : NULL;
    struct member *partner = partner_ending(pairs, member->name, same);
    return partner != NULL ? partner : partner_ending(pairs, member->name, other);
}

static void print_pair(const struct comparison *c) {
    progress_clear();
    put_text(stdout, c->sides[0].file.name);
    fputs(", ", stdout);
    put_text(stdout, c->sides[1].file.name);
    fputs(c->same ? ": same" : ": different: ", stdout);
    if (!c->same)
        print_summary(&c->differences, stdout);
    putchar('\n');
}

static int compare_pair(struct pairs *pairs, const struct found *first, const struct found *second) {
    struct comparison comparison;
    int status = FAILED;
    say_in_one_line(first->path);
    if (first->why != NULL || second->why != NULL) {
        const struct found *wrong = first->why != NULL ? first : second;
        say_unreadable(wrong->path, wrong->why);
        memset(&comparison, 0, sizeof comparison);
    } else {
        status = compare(pairs->request, first->path, second->path, &comparison);
    }
    say_in_one_line(NULL);
    pairs->unread += status != DONE;
    if (status == DONE) {
        *(comparison.same ? &pairs->same : &pairs->different) += 1;
        if (pairs->request->json)
            print_compared(&comparison, stdout);
        else if (!comparison.same || !pairs->request->quiet)
            print_pair(&comparison);
        status = comparison.same ? DONE : DIFFERENT;
    }
    free_comparison(&comparison);
    return status;
}

static int tell_alone(struct pairs *pairs, const struct found *found) {
    pairs->alone++;
    if (pairs->request->json) {
        struct json json = json_line(stdout);
        json_text(&json, "file", found->path);
        json_text(&json, "status", "no partner");
        json_end(&json);
        return DIFFERENT;
    }
    progress_clear();
    put_text(stdout, found->path);
    puts(": it has no partner");
    return DIFFERENT;
}

/* A file that is no other's partner, with its own. */
static int compare_member(struct pairs *pairs, struct member *member) {
    if (member->taken)
        return DONE;
    struct member *partner = pairs->two_folders && member->found->word == 1 ? NULL : partner_of(pairs, member);
    if (partner == NULL)
        return tell_alone(pairs, member->found);
    partner->taken = 1;
    return compare_pair(pairs, member->found, partner->found);
}

static void print_count(const struct pairs *pairs) {
    size_t all = pairs->same + pairs->different + pairs->unread;
    printf("%zu of %zu %s the same", pairs->same, all, all == 1 ? "pair is" : "pairs are");
    if (pairs->different > 0)
        printf(", %zu different", pairs->different);
    if (pairs->unread > 0)
        printf(", %zu not read", pairs->unread);
    if (pairs->alone > 0)
        printf("; %zu %s no partner", pairs->alone, pairs->alone == 1 ? "file has" : "files have");
    print_passed_over(&pairs->finds);
}

static int compare_all(struct pairs *pairs) {
    struct output lines;
    int status = open_output(&lines, NULL);
    setvbuf(lines.to, NULL, _IOLBF, BUFSIZ);
    progress_begin(pairs->finds.number);
    for (size_t k = 0; k < pairs->finds.number && !ferror(lines.to); k++) {
        progress_at(k, pairs->finds.at[k].path);
        int end = compare_member(pairs, &pairs->members[k]);
        status = end > status ? end : status;
    }
    progress_clear();
    if (!pairs->request->quiet && !pairs->request->json)
        print_count(pairs);
    return close_output(&lines) == DONE ? status : FAILED;
}

/* Nothing of the tree is its own. */
static void leave(void *member) { (void)member; }

int run_pairs(const struct request *request) {
    struct pairs pairs = {.request = request};
    pairs.two_folders = request->number == 2 && is_a_folder(request->words[0]) && is_a_folder(request->words[1]);
    int status = find_files(request, 0, &pairs.finds);
    if (status == DONE)
        status = list_members(&pairs);
    if (status == DONE)
        status = compare_all(&pairs);
    tdestroy(pairs.tree, leave);
    free(pairs.members);
    free_finds(&pairs.finds);
    return status;
}
