/* The verb drop: the reduced plan without the gates that nothing asks for. */
#include "command.h"

int run_drop(const struct request *request, const struct source *file, struct plan *plan) {
    struct plan_bytes made;
    int status = put_reduced(plan, file);
    if (status == DONE)
        status = ended(plan_drop(plan), file);
    return status == DONE ? deliver(request, file, plan_write_binary(plan, &made), &made) : status;
}
