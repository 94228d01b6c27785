/* The verb convert, and what the verbs that write a plan share. */
#include <stdlib.h>

#include "command.h"

int deliver(const struct request *request, const struct source *file, struct plan_end end,
            const struct plan_bytes *made) {
    int status = ended(end, file);
    if (status == DONE)
        status = write_output(request->out, made->at, made->length);
    free(made->at);
    return status;
}

/* A file in binary form holds its plan in binary order, so that converting it changes nothing. */
int put_in_order(struct plan *plan, const struct source *file) {
    return plan->binary ? DONE : ended(plan_convert(plan), file);
}

/* The other form. A plan in binary form keeps its order and numbers. */
int run_convert(const struct request *request, const struct source *file, struct plan *plan) {
    struct plan_bytes made;
    int status = put_in_order(plan, file);
    if (status != DONE)
        return status;
    return deliver(request, file, plan->binary ? plan_write_text(plan, &made) : plan_write_binary(plan, &made), &made);
}
