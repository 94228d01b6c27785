/* rewire: a gate of a plan in binary order gets other right sides. Which values are on the screen does not matter, since they
   are not shown: those of the first step with every input 0. */
#include <errno.h>
#include <stdlib.h>
#include <string.h>

#include "command.h"
#include "entry.h"
#include "say.h"

typedef unsigned long long ull;

/* A gate's number from 0, and its right sides. */
struct edit {
    uint64_t gate;
    uint32_t rhs[2];
};

/* Digits alone, at most `most`; a larger number says nothing else than `most`, which is above every literal. */
static int number_in(const char *word, uint64_t most, uint64_t *number) {
    if (word[0] == '\0' || word[strspn(word, "0123456789")] != '\0')
        return 0;
    errno = 0;
    *number = strtoull(word, NULL, 10);
    if (errno != 0 || *number > most)
        *number = most;
    return 1;
}

/* A gate is named by its position or, as v7, by its variable, which need not be a gate's. */
static int gate_of(const char *word, const struct plan *plan, uint64_t *gate) {
    uint64_t given = plan->counts[PLAN_I] + plan->counts[PLAN_L];
    if (word[0] != 'v')
        return number_in(word, UINT64_MAX, gate);
    if (!number_in(word + 1, UINT64_MAX, gate))
        return 0;
    *gate = *gate > given ? *gate - given - 1 : UINT64_MAX;
    return 1;
}

static int edit_of(const struct request *request, const struct plan *plan, struct edit *edit) {
    struct names names;
    int status = read_names(plan, &names);
    if (status == DONE && !gate_of(request->edit[0], plan, &edit->gate))
        status = fail("\"%s\" is no number of a gate, and no variable as v7", request->edit[0]);
    for (int k = 1; status == DONE && k < EDIT_WORDS; k++)
        if (!find_literal(plan, &names, request->edit[k], &edit->rhs[k - 1]))
            status = fail("\"%s\" is no number, input, latch or variable", request->edit[k]);
    free_names(&names);
    return status;
}

/* Why an edit is refused, of the right side that is at fault, as it was given. */
static int edit_ended(const struct request *request, const struct edit *edit, struct plan_end end,
                      const struct source *file, const struct plan *plan) {
    uint64_t left = 2 * (1 + plan->counts[PLAN_I] + plan->counts[PLAN_L] + edit->gate),
             most = 2 * plan->counts[PLAN_M] + 1;
    uint64_t above = end.number == GOLVANZO_OUT_OF_RANGE ? most : left - 1;
    const char *side = request->edit[edit->rhs[0] > above ? 1 : 2];
    if (end.number == GOLVANZO_NO_GATE)
        say_refused_of(file->name, end, "there is no gate %s: gates count from 0, and A is %llu", request->edit[0],
                       (ull)plan->counts[PLAN_A]);
    else if (end.number == GOLVANZO_OUT_OF_RANGE)
        say_refused_of(file->name, end, "right side %s is above 2M + 1 = %llu", side, (ull)most);
    else if (end.number == GOLVANZO_NOT_IN_ORDER)
        say_refused_of(file->name, end, "right side %s is not below %llu, the left side of gate %llu (variable %llu)",
                       side, (ull)left, (ull)edit->gate, (ull)left / 2);
    else
        return ended(end, file);
    return REFUSED;
}

/* The plan in binary order with the values of a step; its text form need not be in order. */
static int values_of(const struct source *file, struct plan *plan, uint8_t *state, uint8_t *inputs, uint8_t *values) {
    plan_first(plan, state);
    memset(inputs, '0', (size_t)plan->counts[PLAN_I]);
    struct plan_end end = plan_values(plan, state, inputs, values);
    if (end.number != GOLVANZO_NOT_IN_ORDER)
        return ended(end, file);
    say_refused_of(file->name, end, "the plan is not in binary order: convert it first");
    return REFUSED;
}

static int rewired(const struct request *request, const struct source *file, struct plan *plan, uint8_t *room) {
    const uint64_t *n = plan->counts;
    uint8_t *inputs = room + n[PLAN_L], *values = inputs + n[PLAN_I];
    struct plan_bytes made;
    struct edit edit = {.gate = 0};
    int status = edit_of(request, plan, &edit);
    if (status == DONE)
        status = values_of(file, plan, room, inputs, values);
    if (status == DONE)
        status = edit_ended(request, &edit, plan_rewire(plan, edit.gate, edit.rhs[0], edit.rhs[1], values), file, plan);
    if (status != DONE)
        return status;
    return deliver(request, file, plan->binary ? plan_write_binary(plan, &made) : plan_write_text(plan, &made), &made);
}

int run_rewire(const struct request *request, const struct source *file, struct plan *plan) {
    const uint64_t *n = plan->counts;
    uint8_t *room = malloc((size_t)(n[PLAN_L] + n[PLAN_I] + n[PLAN_M] + 1));
    if (room == NULL)
        return no_memory();
    int status = rewired(request, file, plan, room);
    free(room);
    return status;
}
