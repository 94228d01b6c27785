/* The verb plain: a trace with the plain engine beside it, which goes by the rules alone. */
#include <stdlib.h>
#include <string.h>

#include "command.h"
#include "run.h"

/* The plain engine's own bytes. */
struct plain {
    uint8_t *next, *outputs;
};

/* Whether the plain engine gives another answer, next state or outputs than the stepper gave. */
static int parts(struct plan *plan, const struct run *run, struct plan_end end) {
    const uint64_t *n = plan->counts;
    struct plain *plain = run->beside;
    memcpy(plain->next, run->state, n[PLAN_L]);
    struct plan_end other = plan_step_plain(plan, plain->next, run->inputs, plain->outputs);
    if (other.number != end.number || other.place != end.place)
        return 1;
    return end.number == 0 &&
           (memcmp(plain->next, run->next, n[PLAN_L]) != 0 || memcmp(plain->outputs, run->outputs, n[PLAN_O]) != 0);
}

static int trace_beside(const struct request *request, const struct source *file, struct plan *plan) {
    struct plain plain = {malloc(plan->counts[PLAN_L] + 1), malloc(plan->counts[PLAN_O] + 1)};
    struct run run = {.parts = parts, .beside = &plain};
    int lent = plain.next != NULL && plain.outputs != NULL;
    int status = lent ? trace(request, file, plan, &run) : no_memory();
    free(plain.next);
    free(plain.outputs);
    return status == DONE && run.parted ? DIFFERENT : status;
}

/* As trace, and 24 is the plan's last refusal. Where the engines part that is told on the output, as any difference is. */
int run_plain(const struct request *request, const struct source *file, struct plan *plan) {
    int status = put_in_order(plan, file);
    if (status == DONE)
        status = ended(plan_check_plain(plan), file);
    return status == DONE ? trace_beside(request, file, plan) : status;
}
