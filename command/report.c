/* The verb report: for each output and latch, and with --all for bad states and constraints, its steps at 0, at 1, at x, and its
   changes. */
#include <stdlib.h>

#include "command.h"
#include "run.h"
#include "say.h"

/* The counted lists: outputs with the latches after them, then views, each with latches of its own that are left out. */
struct counted {
    uint32_t *outputs, *views[VIEWS];
};

/* A letter, a position and the words of one row; and the name, where names are asked and the entry has one. */
static void print_row(FILE *to, const struct names *names, int list, uint64_t k, const uint32_t *row) {
    fprintf(to, "%c%llu %u %u %u %u", letters[list], (unsigned long long)k, row[0], row[1], row[2], row[3]);
    if (names != NULL && names->of[list][k].name != NULL) {
        fputc(' ', to);
        put_name(&names->of[list][k], to);
    }
    fputc('\n', to);
}

static void print_object(FILE *to, const struct source *file, const struct names *names, int list, uint64_t k,
                         const uint32_t *row) {
    static const char *const keys[] = {"zeros", "ones", "unknown", "changes"};
    struct json json = json_line(to);
    json_text(&json, "file", file->name);
    json_entry(&json, names, list, k);
    for (int j = 0; j < 4; j++)
        json_number(&json, keys[j], row[j]);
    json_end(&json);
}

static void print_list(FILE *to, const struct request *request, const struct source *file, const struct plan *plan,
                       const struct names *names, int list, const uint32_t *rows) {
    for (uint64_t k = 0; k < entries(plan, list); k++)
        if (request->json)
            print_object(to, file, names, list, k, rows + 4 * k);
        else
            print_row(to, request->names ? names : NULL, list, k, rows + 4 * k);
}

static int print_report(const struct request *request, const struct source *file, const struct plan *plan,
                        const struct counted *counted) {
    struct names names;
    struct output output;
    int status = read_names(plan, &names);
    if (status == DONE)
        status = open_output(&output, request->out);
    if (status == DONE) {
        const uint32_t *latches = counted->outputs + 4 * plan->counts[PLAN_O];
        if (output.people && !request->json)
            fprintf(output.to, "which 0 1 x changes%s\n", request->names ? " name" : "");
        print_list(output.to, request, file, plan, &names, NAMED_OUTPUTS, counted->outputs);
        print_list(output.to, request, file, plan, &names, NAMED_LATCHES, latches);
        for (int k = 0; request->all && k < VIEWS; k++)
            print_list(output.to, request, file, plan, &names, view_list(k), counted->views[k]);
        status = close_output(&output);
    }
    free_names(&names);
    return status;
}

static int report_ended(struct plan_end end, const struct source *file, const struct list *list) {
    if (end.number != GOLVANZO_LONG_INPUT)
        return ended(end, file);
    say_refused_of(list->file, end, "there are %llu vectors, and a report takes %llu at most",
                   (unsigned long long)list->number, (unsigned long long)end.place);
    return REFUSED;
}

/* Counts a plan, or a view of one, into room of its own. */
static int count_steps(struct plan *plan, const struct source *file, const struct list *list, uint32_t **report) {
    *report = malloc(4 * (plan->counts[PLAN_O] + plan->counts[PLAN_L]) * sizeof **report + 1);
    if (*report == NULL)
        return no_memory();
    return report_ended(plan_report(plan, list->number, list->at, list->length, *report), file, list);
}

static int tell_report(const struct request *request, const struct source *file, struct plan *plan,
                       const struct list *list) {
    struct counted counted = {.outputs = NULL};
    int status = count_steps(plan, file, list, &counted.outputs);
    for (int k = 0; status == DONE && request->all && k < VIEWS; k++) {
        if (view_entries(plan, k) == 0)
            continue;
        struct plan view = view_of(plan, view_list(k));
        status = count_steps(&view, file, list, &counted.views[k]);
        free_view(&view);
    }
    if (status == DONE)
        status = print_report(request, file, plan, &counted);
    free(counted.outputs);
    for (int k = 0; k < VIEWS; k++)
        free(counted.views[k]);
    return status;
}

int run_report(const struct request *request, const struct source *file, struct plan *plan) {
    return with_list(request, file, plan, tell_report);
}
