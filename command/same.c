/* The verb same: whether two plans are the same but for their numbers. The bytes that they convert to decide; where those differ,
   the tables and the tails say how. */
#include "same.h"

#include <stdlib.h>
#include <string.h>

/* With --plan no plan has a tail; the names are kept to tell of. */
static int read_side(const struct request *request, const char *name, struct side *side) {
    int status = read_source(name, &side->file);
    if (status == DONE)
        status = ended(plan_read(&side->plan, side->file.at, side->file.length), &side->file);
    if (status == DONE)
        status = read_names(&side->plan, &side->names);
    if (status == DONE)
        status = put_in_order(&side->plan, &side->file);
    if (status == DONE && request->plan)
        side->plan.tail_length = 0;
    return status == DONE ? ended(plan_write_binary(&side->plan, &side->made), &side->file) : status;
}

/* All refusals of the first plan come before the second file is read. */
int compare(const struct request *request, const char *first, const char *second, struct comparison *c) {
    memset(c, 0, sizeof *c);
    int status = read_side(request, first, &c->sides[0]);
    if (status == DONE)
        status = read_side(request, second, &c->sides[1]);
    if (status != DONE)
        return FAILED;
    const struct plan_bytes *a = &c->sides[0].made, *b = &c->sides[1].made;
    c->same = a->length == b->length && memcmp(a->at, b->at, a->length) == 0;
    return c->same ? DONE : find_differences(c->sides, &c->differences);
}

void free_comparison(struct comparison *c) {
    free_differences(&c->differences);
    for (int k = 0; k < 2; k++) {
        free(c->sides[k].made.at);
        free_names(&c->sides[k].names);
        plan_free(&c->sides[k].plan);
        free_source(&c->sides[k].file);
    }
}

void print_compared(const struct comparison *c, FILE *to) {
    struct json json = json_line(to);
    json_open(&json, "files", '[');
    json_text(&json, NULL, c->sides[0].file.name);
    json_text(&json, NULL, c->sides[1].file.name);
    json_close(&json, ']');
    json_text(&json, "status", c->same ? "same" : "different");
    if (!c->same)
        json_differences(&json, c->sides, &c->differences);
    json_end(&json);
}

static int tell(const struct request *request, const struct comparison *c) {
    struct output output;
    int status = open_output(&output, request->out);
    if (status != DONE)
        return status;
    if (request->json) {
        print_compared(c, output.to);
    } else if (!c->same) {
        fputs("different\n", output.to);
        print_differences(c->sides, &c->differences, output.to);
    } else if (!request->quiet) {
        fputs("same\n", output.to);
    }
    status = close_output(&output);
    return status != DONE || c->same ? status : DIFFERENT;
}

int run_same(const struct request *request) {
    struct comparison comparison;
    int status = compare(request, request->file, request->second, &comparison);
    if (status == DONE)
        status = tell(request, &comparison);
    free_comparison(&comparison);
    return status;
}
