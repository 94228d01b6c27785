/* The verb trace: steps a plan from its resets and writes each step, as a line or in a waveform. */
#include <stdlib.h>

#include "command.h"
#include "run.h"
#include "vcd.h"

/* State, inputs, outputs, next state, one space between (docs/PAPER.md, "Programs and their output"). */
static void print_step(FILE *to, const struct plan *plan, const uint8_t *state, const uint8_t *inputs,
                       const uint8_t *outputs, const uint8_t *next) {
    const uint64_t *n = plan->counts;
    fwrite(state, 1, n[PLAN_L], to);
    fputc(' ', to);
    fwrite(inputs, 1, n[PLAN_I], to);
    fputc(' ', to);
    fwrite(outputs, 1, n[PLAN_O], to);
    fputc(' ', to);
    fwrite(next, 1, n[PLAN_L], to);
}

void print_line(FILE *to, const struct plan *plan, const uint8_t *state, const uint8_t *inputs, const uint8_t *outputs,
                const uint8_t *next) {
    print_step(to, plan, state, inputs, outputs, next);
    fputc('\n', to);
}

/* The same, and with all the bad states and the constraints after it. */
static void print_run(FILE *to, const struct plan *plan, const struct run *run) {
    print_step(to, plan, run->state, run->inputs, run->outputs, run->next);
    for (int k = 0; run->all && k < VIEWS; k++) {
        fputc(' ', to);
        fwrite(run->seen[k], 1, view_entries(plan, k), to);
    }
    fputc('\n', to);
}

/* Steps with every vector, each step being written; stops where it can't be, or where what is beside parts. */
static struct plan_end step_all(struct plan *plan, struct feed *feed, struct run *run, const struct wave *wave,
                                FILE *to) {
    struct plan_end end = {0, 0};
    const uint8_t *inputs;
    for (run->step = 0; end.number == 0 && !ferror(to); run->step++) {
        inputs = next_vector(feed, plan->counts[PLAN_I], to);
        if (inputs == NULL)
            break;
        end = next_step(plan, run, inputs);
        if (run->parts != NULL && run->parts(plan, run, end)) {
            run->parted = 1;
            fputs("differ\n", to);
            return (struct plan_end){0, 0};
        }
        if (end.number == 0 && wave != NULL)
            print_changes(wave, plan, run, to);
        else if (end.number == 0)
            print_run(to, plan, run);
    }
    if (wave != NULL)
        print_wave_end(wave, plan, run, to);
    return end;
}

static int trace_to(FILE *to, const struct request *request, const struct source *file, struct plan *plan,
                    struct feed *feed, struct run *run) {
    struct wave wave;
    int status = begin_run(plan, run) ? DONE : no_memory();
    if (status == DONE && request->vcd)
        status = begin_wave(&wave, plan, run->all, to);
    if (status == DONE) {
        status = ended(step_all(plan, feed, run, request->vcd ? &wave : NULL, to), file);
        status = status == DONE ? feed->status : status;
        if (request->vcd)
            free_wave(&wave);
    }
    end_run(run);
    return status;
}

/* Of a plan in binary order: all refusals of a file of vectors come before the first line is written. */
int trace(const struct request *request, const struct source *file, struct plan *plan, struct run *run) {
    struct feed feed;
    struct output output;
    int status = open_feed(request, plan->counts[PLAN_I], &feed);
    if (status != DONE)
        return status;
    status = open_output(&output, request->out);
    if (status == DONE) {
        status = trace_to(output.to, request, file, plan, &feed, run);
        if (status == DONE)
            status = close_output(&output);
        else
            drop_output(&output);
    }
    close_feed(&feed);
    return status;
}

/* All refusals of the plan come before the vectors are read. */
int run_trace(const struct request *request, const struct source *file, struct plan *plan) {
    struct run run = {.all = request->all};
    int status = put_in_order(plan, file);
    return status == DONE ? trace(request, file, plan, &run) : status;
}
