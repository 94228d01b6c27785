#include "run.h"

#include <stdlib.h>
#include <string.h>

/* The list moves: it is no longer bad states or constraints there, so that no table is lent twice. */
struct plan view_of(const struct plan *plan, int list) {
    struct plan of = *plan;
    int table = list == NAMED_BADS ? PLAN_BADS : PLAN_CONSTRAINTS, count = list_counts[list];
    of.scratch = NULL;
    of.scratch_words = 0;
    if (list == NAMED_OUTPUTS)
        return of;
    of.table[PLAN_OUTPUTS] = plan->table[table];
    of.words[PLAN_OUTPUTS] = plan->words[table];
    of.counts[PLAN_O] = plan->counts[count];
    of.table[table] = NULL;
    of.words[table] = 0;
    of.counts[count] = 0;
    return of;
}

void free_view(struct plan *view) {
    free(view->scratch);
    view->scratch = NULL;
}

int begin_run(const struct plan *plan, struct run *run) {
    const uint64_t *n = plan->counts;
    run->state = malloc(n[PLAN_L] + 1);
    run->next = malloc(n[PLAN_L] + 1);
    run->outputs = malloc(n[PLAN_O] + 1);
    int all = run->state != NULL && run->next != NULL && run->outputs != NULL;
    for (int k = 0; k < VIEWS; k++) {
        run->views[k] = view_of(plan, view_list(k));
        run->seen[k] = malloc(view_entries(plan, k) + 1);
        all = all && run->seen[k] != NULL;
    }
    if (all)
        plan_first(plan, run->next);
    return all;
}

void end_run(struct run *run) {
    free(run->state);
    free(run->next);
    free(run->outputs);
    for (int k = 0; k < VIEWS; k++) {
        free(run->seen[k]);
        free_view(&run->views[k]);
    }
}

/* A view is stepped from the same state, before the plan is. One without entries is not. */
struct plan_end next_step(struct plan *plan, struct run *run, const uint8_t *inputs) {
    size_t latches = (size_t)plan->counts[PLAN_L];
    struct plan_end end = {0, 0};
    memcpy(run->state, run->next, latches);
    run->inputs = inputs;
    for (int k = 0; run->all && k < VIEWS && end.number == 0; k++)
        if (view_entries(plan, k) > 0) {
            end = plan_step(&run->views[k], run->next, inputs, run->seen[k]);
            memcpy(run->next, run->state, latches);
        }
    return end.number == 0 ? plan_step(plan, run->next, inputs, run->outputs) : end;
}
