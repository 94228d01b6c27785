/* The verb strip: a plan without its names, its comment, or both. */
#include "command.h"
#include "symbols.h"

/* Its form, its numbers and the order of its gates stay. */
int run_strip(const struct request *request, const struct source *file, struct plan *plan) {
    struct plan_bytes made;
    size_t comment = symbols_end(plan);
    int both = !request->names && !request->comments;
    plan_keep_tail(plan, request->names || both ? comment : 0, request->comments || both ? comment : plan->tail_length);
    return deliver(request, file, plan->binary ? plan_write_binary(plan, &made) : plan_write_text(plan, &made), &made);
}
