/* The verb reduce: the reduced plan, as the program of the paper writes it. */
#include "command.h"

int put_reduced(struct plan *plan, const struct source *file) {
    int status = put_in_order(plan, file);
    return status == DONE ? ended(plan_reduce(plan), file) : status;
}

int run_reduce(const struct request *request, const struct source *file, struct plan *plan) {
    struct plan_bytes made;
    int status = put_reduced(plan, file);
    return status == DONE ? deliver(request, file, plan_write_binary(plan, &made), &made) : status;
}
