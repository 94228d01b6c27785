/* A plan from C without any memory but what is set aside here, as a board would: reads the file that is named into
   tables, puts it in binary order, and steps it from its resets with the vectors that follow on the command line. A
   line for each step: state, inputs, outputs, next state. A refusal is said in words. */
#include <stdio.h>
#include <string.h>

#include "plan.h"

enum { FILE_ROOM = 1 << 16, WORDS = 1 << 12, SCRATCH_WORDS = 1 << 14 };

static uint8_t file[FILE_ROOM], state[WORDS], next[WORDS], outputs[WORDS];
static uint32_t words[2][PLAN_TABLES][WORDS], scratch[SCRATCH_WORDS];

static struct plan_tables lent(int which) {
    struct plan_tables tables;
    memset(&tables, 0, sizeof tables);
    for (int t = 0; t < PLAN_TABLES; t++) {
        tables.table[t] = words[which][t];
        tables.words[t] = WORDS;
    }
    tables.scratch = scratch;
    tables.scratch_words = SCRATCH_WORDS;
    return tables;
}

static int refused(struct plan_end end) {
    fprintf(stderr, "refused %llu at %llu: %s\n", (unsigned long long)end.number, (unsigned long long)end.place,
            plan_sentence(end.number));
    return 1;
}

/* A reset is 0, 1 or the latch's own literal, which is x. */
static void start(const struct plan_tables *plan) {
    for (uint64_t l = 0; l < plan->counts[PLAN_L]; l++) {
        uint32_t reset = plan->table[PLAN_RESETS][l];
        next[l] = reset == 0 ? '0' : reset == 1 ? '1' : 'x';
    }
}

static struct plan_end step(const struct plan_tables *plan, const char *inputs) {
    const uint64_t *n = plan->counts;
    struct plan_end end = {GOLVANZO_BAD_VECTOR, 2};
    if (strlen(inputs) != n[PLAN_I])
        return end;
    memcpy(state, next, n[PLAN_L]);
    end = plan_tables_step(plan, next, (const uint8_t *)inputs, outputs);
    if (end.number == 0)
        printf("%.*s %s %.*s %.*s\n", (int)n[PLAN_L], (char *)state, inputs, (int)n[PLAN_O], (char *)outputs,
               (int)n[PLAN_L], (char *)next);
    return end;
}

int main(int argc, char **argv) {
    struct plan_tables read = lent(0), plan = lent(1);
    FILE *from = argc >= 2 ? fopen(argv[1], "rb") : NULL;
    golvanzo_size length, tail;
    if (from == NULL)
        return 2;
    length = fread(file, 1, sizeof file, from);
    fclose(from);
    struct plan_end end = plan_tables_read(&read, file, length, &tail);
    if (end.number == 0)
        end = plan_tables_convert(&read, &plan);
    if (end.number == 0)
        start(&plan);
    for (int k = 2; k < argc && end.number == 0; k++)
        end = step(&plan, argv[k]);
    return end.number != 0 ? refused(end) : 0;
}
