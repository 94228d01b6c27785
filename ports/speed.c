/* How long a step takes: a plan of 10,000 gates, whose right sides are any earlier variables, stepped for half a
   second. Prints nanoseconds for a gate, with one digit after the point. Written for any processor: nothing is
   allocated. */
#define _POSIX_C_SOURCE 199309L
#include <stdio.h>
#include <time.h>

#include "plan.h"

enum { INPUTS = 100, LATCHES = 100, GATES = 10000, VARIABLES = INPUTS + LATCHES + GATES };

static uint32_t inputs[INPUTS], latches[2 * LATCHES], outputs[1], gates[3 * GATES], resets[LATCHES];
static uint32_t scratch[4 * (VARIABLES + 1) + 1];
static uint8_t state[LATCHES], ins[INPUTS], outs[1];

static uint32_t below(uint32_t bound) {
    static uint64_t seed = 20071012;
    seed = seed * 6364136223846793005u + 1442695040888963407u;
    return (uint32_t)((seed >> 33) % bound);
}

/* Binary order: every right side is below its gate, the larger first. */
static void make_gates(void) {
    for (uint32_t k = 0; k < GATES; k++) {
        uint32_t lhs = 2 * (INPUTS + LATCHES + k + 1), a = 2 + below(lhs - 2), b = 2 + below(lhs - 2);
        gates[3 * k] = lhs;
        gates[3 * k + 1] = a > b ? a : b;
        gates[3 * k + 2] = a > b ? b : a;
    }
}

static struct plan_tables make_plan(void) {
    struct plan_tables plan = {.counts = {VARIABLES, INPUTS, LATCHES, 1, GATES, 0, 0},
                               .table = {inputs, latches, outputs, gates, resets, NULL, NULL},
                               .words = {INPUTS, 2 * LATCHES, 1, 3 * GATES, LATCHES, 0, 0},
                               .scratch = scratch,
                               .scratch_words = sizeof scratch / sizeof scratch[0]};
    for (uint32_t k = 0; k < INPUTS; k++)
        inputs[k] = 2 * (k + 1), ins[k] = (uint8_t) "01x"[below(3)];
    for (uint32_t k = 0; k < LATCHES; k++) {
        latches[2 * k] = 2 * (INPUTS + k + 1);
        latches[2 * k + 1] = 2 + below(2 * VARIABLES);
        state[k] = '0';
    }
    outputs[0] = 2 * VARIABLES;
    make_gates();
    return plan;
}

static double seconds(void) {
    struct timespec now;
    clock_gettime(CLOCK_MONOTONIC, &now);
    return (double)now.tv_sec + 1e-9 * (double)now.tv_nsec;
}

int main(void) {
    struct plan_tables plan = make_plan();
    double began = seconds(), now = began;
    long steps = 0;
    for (; now - began < 0.5; steps++, now = seconds()) {
        struct plan_end end = plan_tables_step(&plan, state, ins, outs);
        if (end.number != 0) {
            printf("refused %d at %d\n", (int)end.number, (int)end.place);
            return 1;
        }
    }
    printf("%.1f\n", 1e9 * (now - began) / (double)steps / GATES);
    return 0;
}
