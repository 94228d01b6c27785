/* The verb that steps rows, each by itself: rows. */
#include <stdlib.h>
#include <string.h>

#include "command.h"
#include "symbols.h"

/* The rows that the library steps at once. */
enum { BLOCK = 64 };

/* The rows of a block: their inputs, the first state of all, and what each leaves. */
struct rows {
    uint8_t *inputs, *first, *nexts, *outputs;
};

static int lend_rows(const struct plan *plan, struct rows *rows) {
    const uint64_t *n = plan->counts;
    rows->inputs = malloc(BLOCK * n[PLAN_I] + 1);
    rows->first = malloc(n[PLAN_L] + 1);
    rows->nexts = malloc(BLOCK * n[PLAN_L] + 1);
    rows->outputs = malloc(BLOCK * n[PLAN_O] + 1);
    return rows->inputs != NULL && rows->first != NULL && rows->nexts != NULL && rows->outputs != NULL;
}

static void free_rows(struct rows *rows) {
    free(rows->inputs);
    free(rows->first);
    free(rows->nexts);
    free(rows->outputs);
}

/* As many rows as are there, at most a block; one is waited for. */
static uint64_t next_rows(const struct plan *plan, struct feed *feed, const struct rows *rows, FILE *to) {
    uint64_t number = 0, inputs = plan->counts[PLAN_I];
    const uint8_t *vector;
    while (number < BLOCK && (number == 0 || !must_wait(feed)) && (vector = next_vector(feed, inputs, to)) != NULL)
        memcpy(rows->inputs + inputs * number++, vector, inputs);
    return number;
}

/* Steps so many rows, at most a block, and writes their lines. */
static struct plan_end step_block(struct plan *plan, uint64_t number, const struct rows *rows, FILE *to) {
    const uint64_t *n = plan->counts;
    struct plan_end end = plan_rows(plan, number, rows->inputs, rows->nexts, rows->outputs);
    for (uint64_t k = 0; end.number == 0 && k < number && !ferror(to); k++)
        print_line(to, plan, rows->first, rows->inputs + k * n[PLAN_I], rows->outputs + k * n[PLAN_O],
                   rows->nexts + k * n[PLAN_L]);
    return end;
}

/* Block after block, so that no more is held. No rows are a block too, so that the plan is judged. */
static struct plan_end step_blocks(struct plan *plan, struct feed *feed, const struct rows *rows, FILE *to) {
    struct plan_end end;
    uint64_t number;
    plan_first(plan, rows->first);
    do {
        number = next_rows(plan, feed, rows, to);
        end = step_block(plan, number, rows, to);
    } while (end.number == 0 && number > 0 && feed->status == DONE && !ferror(to));
    return end;
}

static int step_to(struct output *output, const struct source *file, struct plan *plan, struct feed *feed) {
    struct rows rows;
    int status = lend_rows(plan, &rows) ? DONE : no_memory();
    if (output->people)
        fputs("state inputs outputs next\n", output->to);
    if (status == DONE)
        status = ended(step_blocks(plan, feed, &rows, output->to), file);
    free_rows(&rows);
    return status == DONE ? feed->status : status;
}

/* All refusals of a file of vectors come before the first line is written. */
static int step_rows(const struct request *request, const struct source *file, struct plan *plan) {
    struct feed feed;
    struct output output;
    int status = put_in_order(plan, file);
    if (status == DONE)
        status = open_feed(request, plan->counts[PLAN_I], &feed);
    if (status != DONE)
        return status;
    status = open_output(&output, request->out);
    if (status == DONE) {
        status = step_to(&output, file, plan, &feed);
        if (status == DONE)
            status = close_output(&output);
        else
            drop_output(&output);
    }
    close_feed(&feed);
    return status;
}

static void print_object(FILE *to, const struct source *file, const struct names *names, uint64_t k,
                         const uint64_t *row) {
    struct json json = json_line(to);
    json_text(&json, "file", file->name);
    json_entry(&json, names, NAMED_OUTPUTS, k);
    json_number(&json, "zeros", row[0]);
    json_number(&json, "ones", row[1]);
    json_number(&json, "unknown", row[2]);
    json_end(&json);
}

static int print_objects(const struct request *request, const struct source *file, const struct plan *plan,
                         const uint64_t *report) {
    struct names names;
    struct output output;
    int status = read_names(plan, &names);
    if (status == DONE)
        status = open_output(&output, request->out);
    for (uint64_t k = 0; status == DONE && k < plan->counts[PLAN_O]; k++)
        print_object(output.to, file, &names, k, report + 3 * k);
    free_names(&names);
    return status == DONE ? close_output(&output) : status;
}

static int print_counts(const struct request *request, const struct plan *plan, const uint64_t *report) {
    struct output output;
    int status = open_output(&output, request->out);
    if (status != DONE)
        return status;
    if (output.people)
        fputs("which 0 1 x\n", output.to);
    for (uint64_t k = 0; k < plan->counts[PLAN_O]; k++, report += 3)
        fprintf(output.to, "o%llu %llu %llu %llu\n", (unsigned long long)k, (unsigned long long)report[0],
                (unsigned long long)report[1], (unsigned long long)report[2]);
    return close_output(&output);
}

static int count_rows(const struct request *request, const struct source *file, struct plan *plan,
                      const struct list *list) {
    uint64_t *report = malloc(3 * plan->counts[PLAN_O] * sizeof *report + 1);
    int status = report == NULL ? no_memory() : ended(plan_report_rows(plan, list->number, list->at, report), file);
    if (status == DONE)
        status = request->json ? print_objects(request, file, plan, report) : print_counts(request, plan, report);
    free(report);
    return status;
}

int run_rows(const struct request *request, const struct source *file, struct plan *plan) {
    if (request->json && !request->count)
        return fail("--json is for rows that are counted, by --count");
    return request->count ? with_list(request, file, plan, count_rows) : step_rows(request, file, plan);
}
