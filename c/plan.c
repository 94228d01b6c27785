#include "plan.h"

#include <stdlib.h>
#include <string.h>

/* The numbers of the tables, and of scratch. */
static const uint64_t numbers[PLAN_TABLES + 1] = {
    GOLVANZO_TABLE_INPUTS, GOLVANZO_TABLE_LATCHES, GOLVANZO_TABLE_OUTPUTS,     GOLVANZO_TABLE_GATES,
    GOLVANZO_TABLE_RESETS, GOLVANZO_TABLE_BADS,    GOLVANZO_TABLE_CONSTRAINTS, GOLVANZO_TABLE_SCRATCH};

_Static_assert(PLAN_COUNTS == 7 && PLAN_TABLES == 7, "as many as golvanzo.h takes");
_Static_assert(sizeof(golvanzo_size) == 8 && sizeof(size_t) <= 8, "every length of memory is one of the library's");

static const struct plan_end done = {0, 0}, no_memory = {PLAN_NO_MEMORY, 0};

/* Never null for a length of 0, so that null is a lack of memory. */
static void *lent(size_t bytes) { return malloc(bytes + (bytes == 0)); }

/* Words of table 5 for every call but a read (docs/PAPER.md, "Tables and bytes"). The desk question is about reading
   alone, which may ask for fewer. */
static size_t scratch_for(const uint64_t *counts) {
    return (size_t)(4 * (counts[PLAN_M] + 1) + counts[PLAN_O] + counts[PLAN_B] + counts[PLAN_C]);
}

/* Scratch of at least so many words; what stood in it is lost. */
static int lend_scratch(struct plan *plan, size_t words) {
    if (plan->scratch != NULL && words <= plan->scratch_words)
        return 1;
    free(plan->scratch);
    plan->scratch = lent(4 * words);
    plan->scratch_words = plan->scratch == NULL ? 0 : words;
    return plan->scratch != NULL;
}

/* The plan's tables, lent to a call with scratch of at least so many words as any call on tables asks. */
static int ready(struct plan *plan, struct plan_tables *of) {
    int lent_all = lend_scratch(plan, scratch_for(plan->counts));
    *of = plan_tables_of(plan);
    return lent_all;
}

/* Tables of these lengths; those that can't be had are null. */
static int lend_tables(struct plan *plan, const size_t *words) {
    int all = 1;
    for (int t = 0; t < PLAN_TABLES; t++) {
        plan->words[t] = words[t];
        plan->table[t] = lent(4 * words[t]);
        all = all && plan->table[t] != NULL;
    }
    return all;
}

static void free_tables(struct plan *plan) {
    for (int t = 0; t < PLAN_TABLES; t++)
        free(plan->table[t]);
}

void plan_free(struct plan *plan) {
    free_tables(plan);
    free(plan->scratch);
    free(plan->tail);
    memset(plan, 0, sizeof *plan);
}

void plan_free_bytes(struct plan_bytes *bytes) {
    free(bytes->at);
    *bytes = (struct plan_bytes){NULL, 0};
}

/* A read that is lent no table has the number and the place of a refused header, which the desk question has not. */
struct plan_end plan_words(const uint8_t *file, size_t length, uint64_t words[PLAN_TABLES + 1]) {
    struct plan_tables none = {.scratch = NULL};
    golvanzo_size tail;
    for (int t = 0; t <= PLAN_TABLES; t++)
        words[t] = golvanzo_words(file, length, numbers[t]);
    return words[0] != UINT64_MAX ? done : plan_tables_read(&none, file, length, &tail);
}

/* The tables that the file's header asks for, and the scratch to read it. */
static int lend_for(struct plan *plan, const uint64_t *asked) {
    size_t words[PLAN_TABLES];
    for (int t = 0; t < PLAN_TABLES; t++)
        words[t] = (size_t)asked[t];
    return lend_tables(plan, words) && lend_scratch(plan, (size_t)asked[PLAN_TABLES]);
}

static struct plan_end fill(struct plan *plan, const uint8_t *file, size_t length) {
    struct plan_tables to = plan_tables_of(plan);
    golvanzo_size start;
    struct plan_end end = plan_tables_read(&to, file, length, &start);
    if (end.number != 0)
        return end;
    memcpy(plan->counts, to.counts, sizeof plan->counts);
    plan->binary = file[1] == 'i';
    plan->tail_length = length - (size_t)start;
    plan->tail = lent(plan->tail_length);
    if (plan->tail == NULL)
        return no_memory;
    memcpy(plan->tail, file + start, plan->tail_length);
    return done;
}

struct plan_end plan_read(struct plan *plan, const uint8_t *file, size_t length) {
    uint64_t words[PLAN_TABLES + 1];
    memset(plan, 0, sizeof *plan);
    struct plan_end end = plan_words(file, length, words);
    if (end.number != 0)
        return end;
    end = lend_for(plan, words) ? fill(plan, file, length) : no_memory;
    if (end.number != 0)
        plan_free(plan);
    return end;
}

/* The words that a card file's counts ask for. None where the counts are not all there or one is above the limits:
   that is refused before any table is looked at. */
static void card_words(const uint8_t *file, size_t length, uint64_t asked[PLAN_TABLES + 1]) {
    enum { HEADER = 22, NUMBERS = 5, MOST = 1048575 };
    uint64_t n[PLAN_COUNTS] = {0};
    memset(asked, 0, (PLAN_TABLES + 1) * sizeof *asked);
    if (length < HEADER)
        return;
    for (int k = 0; k < NUMBERS; k++) {
        const uint8_t *at = file + 2 + 4 * k;
        n[k] = at[0] | (uint64_t)at[1] << 8 | (uint64_t)at[2] << 16 | (uint64_t)at[3] << 24;
        if (n[k] > MOST)
            return;
    }
    asked[PLAN_INPUTS] = n[PLAN_I];
    asked[PLAN_LATCHES] = 2 * n[PLAN_L];
    asked[PLAN_OUTPUTS] = n[PLAN_O];
    asked[PLAN_GATES] = 3 * n[PLAN_A];
    asked[PLAN_RESETS] = n[PLAN_L];
    asked[PLAN_TABLES] = scratch_for(n);
}

struct plan_end plan_read_cards(struct plan *plan, const uint8_t *file, size_t length) {
    uint64_t words[PLAN_TABLES + 1];
    struct plan_end end = no_memory;
    memset(plan, 0, sizeof *plan);
    card_words(file, length, words);
    plan->tail = lent(0);
    plan->binary = 1;
    if (lend_for(plan, words) && plan->tail != NULL) {
        struct plan_tables to = plan_tables_of(plan);
        end = plan_tables_read_cards(&to, file, length);
        memcpy(plan->counts, to.counts, sizeof plan->counts);
    }
    if (end.number != 0)
        plan_free(plan);
    return end;
}

struct plan_end plan_check(struct plan *plan) {
    struct plan_tables of;
    return ready(plan, &of) ? plan_tables_check(&of) : no_memory;
}

/* A call that writes a changed circuit. */
typedef struct plan_end change_call(const struct plan_tables *of, struct plan_tables *to);

/* Every change: into tables as long as the given ones, which take their place if nothing is refused. */
static struct plan_end change(struct plan *plan, change_call *call) {
    struct plan made = *plan;
    struct plan_tables of, to;
    struct plan_end end = no_memory;
    if (!ready(plan, &of))
        return no_memory;
    if (lend_tables(&made, plan->words)) {
        to = plan_tables_of(&made);
        end = call(&of, &to);
    }
    free_tables(end.number == 0 ? plan : &made);
    if (end.number == 0) {
        memcpy(plan->table, to.table, sizeof plan->table);
        memcpy(plan->counts, to.counts, sizeof plan->counts);
    }
    return end;
}

struct plan_end plan_convert(struct plan *plan) {
    return change(plan, plan_tables_convert);
}

struct plan_end plan_reduce(struct plan *plan) {
    return change(plan, plan_tables_reduce);
}

struct plan_end plan_drop(struct plan *plan) {
    return change(plan, plan_tables_drop);
}

void plan_keep_tail(struct plan *plan, size_t from, size_t to) {
    to = to < plan->tail_length ? to : plan->tail_length;
    from = from < to ? from : to;
    memmove(plan->tail, plan->tail + from, to - from);
    plan->tail_length = to - from;
}

/* A call that writes a file. */
typedef struct plan_end write_call(const struct plan_tables *of, struct plan_bytes tail, struct plan_bytes *out);

/* Room for the longest file of these counts: a number within the limits has at most 7 digits, a difference 3 bytes.
   Should it not be enough, the library says how much is. */
static size_t longest(const struct plan *plan, int binary) {
    const uint64_t *n = plan->counts;
    uint64_t lines = PLAN_COUNTS + n[PLAN_O] + n[PLAN_B] + n[PLAN_C];
    uint64_t bytes = binary ? 6 * n[PLAN_A] + 8 * 2 * n[PLAN_L] : 8 * (n[PLAN_I] + 3 * n[PLAN_L] + 3 * n[PLAN_A]);
    return (size_t)(4 + 8 * lines + bytes) + plan->tail_length;
}

/* Into a buffer of so many bytes, and once more if the library asks for more. */
static struct plan_end write_file(struct plan *plan, write_call *call, size_t room, struct plan_bytes *out) {
    struct plan_bytes tail = {plan->tail, plan->tail_length};
    struct plan_end end = {GOLVANZO_SHORT_BUFFER, room};
    struct plan_tables of;
    *out = (struct plan_bytes){NULL, 0};
    if (!ready(plan, &of))
        return no_memory;
    for (int turn = 0; turn < 2 && end.number == GOLVANZO_SHORT_BUFFER; turn++) {
        plan_free_bytes(out);
        *out = (struct plan_bytes){lent((size_t)end.place), (size_t)end.place};
        if (out->at == NULL)
            return no_memory;
        end = call(&of, tail, out);
    }
    if (end.number != 0)
        plan_free_bytes(out);
    return end;
}

struct plan_end plan_write_text(struct plan *plan, struct plan_bytes *out) {
    return write_file(plan, plan_tables_write_text, longest(plan, 0), out);
}

struct plan_end plan_write_binary(struct plan *plan, struct plan_bytes *out) {
    return write_file(plan, plan_tables_write_binary, longest(plan, 1), out);
}

/* As long as its counts say (docs/PAPER.md, "Plan cards"). */
struct plan_end plan_write_cards(struct plan *plan, struct plan_bytes *out) {
    const uint64_t *n = plan->counts;
    return write_file(plan, plan_tables_write_cards, (size_t)(22 + 6 * (n[PLAN_L] + n[PLAN_O]) + 10 * n[PLAN_A]), out);
}

/* A reset is 0, 1 or the latch's own literal, which is x (docs/PAPER.md, "Stepping and the witness question"). */
void plan_first(const struct plan *plan, uint8_t *state) {
    for (uint64_t l = 0; l < plan->counts[PLAN_L]; l++) {
        uint32_t reset = plan->table[PLAN_RESETS][l];
        state[l] = reset == 0 ? '0' : reset == 1 ? '1' : 'x';
    }
}

struct plan_end plan_step(struct plan *plan, uint8_t *state, const uint8_t *inputs, uint8_t *outputs) {
    struct plan_tables of;
    return ready(plan, &of) ? plan_tables_step(&of, state, inputs, outputs) : no_memory;
}

struct plan_end plan_step_plain(struct plan *plan, uint8_t *state, const uint8_t *inputs, uint8_t *outputs) {
    struct plan_tables of;
    return ready(plan, &of) ? plan_tables_step_plain(&of, state, inputs, outputs) : no_memory;
}

/* A call that steps. */
typedef void step_call(const uint64_t *counts, GOLVANZO_GIVEN, GOLVANZO_SCRATCH, uint8_t *state,
                       golvanzo_size state_len, const uint8_t *ins, golvanzo_size ins_len, uint8_t *outs,
                       golvanzo_size outs_len, uint64_t *answer);

/* Whether it takes the plan: asked without a step's bytes, whose lack is 12, judged after all refusals of the plan. */
static struct plan_end takes(const struct plan_tables *of, step_call *call) {
    uint64_t answer[2];
    call(PLAN_LENT_ALL(of), NULL, 0, NULL, 0, NULL, 0, answer);
    return answer[0] == GOLVANZO_BAD_VECTOR ? done : plan_end_of(answer);
}

struct plan_end plan_check_plain(struct plan *plan) {
    struct plan_tables of;
    return ready(plan, &of) ? takes(&of, golvanzo_step_plain) : no_memory;
}

/* No vectors are a question too, so that the plan is judged. */
struct plan_end plan_run(struct plan *plan, uint64_t number, const uint8_t *vectors, uint8_t *states,
                         uint8_t *outputs) {
    struct plan_tables of;
    struct plan_end end = no_memory;
    size_t inputs = (size_t)plan->counts[PLAN_I], latches = (size_t)plan->counts[PLAN_L];
    size_t width = (size_t)plan->counts[PLAN_O], steps = (size_t)number;
    if (ready(plan, &of))
        end = takes(&of, golvanzo_step);
    for (size_t k = 0; k < steps && end.number == 0; k++) {
        memcpy(states + (k + 1) * latches, states + k * latches, latches);
        end = plan_tables_step(&of, states + (k + 1) * latches, vectors + k * inputs, outputs + k * width);
    }
    if (end.number != 0) {
        memset(states + latches, 0, steps * latches);
        memset(outputs, 0, steps * width);
    }
    return end;
}

struct plan_end plan_witness(struct plan *plan, uint64_t number, const uint8_t *vectors, size_t length,
                             uint64_t allowance, struct plan_finding *finding) {
    struct plan_tables of;
    return ready(plan, &of) ? plan_tables_witness(&of, number, vectors, length, allowance, finding) : no_memory;
}

struct plan_end plan_witness3(struct plan *plan, uint64_t number, const uint8_t *vectors, size_t length, int *yes) {
    struct plan_tables of;
    return ready(plan, &of) ? plan_tables_witness3(&of, number, vectors, length, yes) : no_memory;
}

struct plan_end plan_explain(struct plan *plan, const uint8_t *state, const uint8_t *inputs, uint64_t output,
                             uint8_t *marks) {
    struct plan_tables of;
    return ready(plan, &of) ? plan_tables_explain(&of, state, inputs, output, marks) : no_memory;
}

/* The values of all variables but the constant are the outputs of a plan whose outputs they all are. */
static struct plan_end step_all(const struct plan *plan, uint8_t *state, const uint8_t *inputs, uint8_t *values) {
    struct plan all = *plan;
    size_t variables = (size_t)plan->counts[PLAN_M];
    struct plan_end end = no_memory;
    all.scratch = NULL;
    all.counts[PLAN_O] = all.words[PLAN_OUTPUTS] = variables;
    all.table[PLAN_OUTPUTS] = lent(4 * variables);
    if (all.table[PLAN_OUTPUTS] != NULL) {
        for (size_t v = 0; v < variables; v++)
            all.table[PLAN_OUTPUTS][v] = (uint32_t)(2 * (v + 1));
        values[0] = '0';
        end = plan_step(&all, state, inputs, values + 1);
    }
    free(all.table[PLAN_OUTPUTS]);
    free(all.scratch);
    return end;
}

/* What is refused is refused of the plan itself, which is stepped first. */
struct plan_end plan_values(struct plan *plan, const uint8_t *state, const uint8_t *inputs, uint8_t *values) {
    size_t latches = (size_t)plan->counts[PLAN_L];
    uint8_t *next = lent(latches), *outputs = lent((size_t)plan->counts[PLAN_O]);
    struct plan_end end = no_memory;
    if (next != NULL && outputs != NULL) {
        memcpy(next, state, latches);
        end = plan_step(plan, next, inputs, outputs);
        memcpy(next, state, latches);
        if (end.number == 0)
            end = step_all(plan, next, inputs, values);
    }
    free(next);
    free(outputs);
    return end;
}

struct plan_end plan_rewire(struct plan *plan, uint64_t gate, uint32_t rhs0, uint32_t rhs1, uint8_t *values) {
    struct plan_tables of;
    return ready(plan, &of) ? plan_tables_rewire(&of, gate, rhs0, rhs1, values) : no_memory;
}

struct plan_end plan_report(struct plan *plan, uint64_t number, const uint8_t *vectors, size_t length,
                            uint32_t *report) {
    struct plan_tables of;
    return ready(plan, &of) ? plan_tables_report(&of, number, vectors, length, report) : no_memory;
}

/* The lanes of the library (docs/PAPER.md, "Many rows at once"). */
enum { LANES = 64 };

static uint64_t rows_now(uint64_t left) { return left < LANES ? left : LANES; }

/* No rows are one call too, so that the plan is judged. */
struct plan_end plan_rows(struct plan *plan, uint64_t rows, const uint8_t *inputs, uint8_t *nexts, uint8_t *outputs) {
    const uint64_t *n = plan->counts;
    struct plan_tables of;
    struct plan_end end;
    uint64_t at = 0;
    if (!ready(plan, &of))
        return no_memory;
    do {
        uint64_t now = rows_now(rows - at);
        end = plan_tables_rows(&of, now, inputs + at * n[PLAN_I], nexts + at * n[PLAN_L], outputs + at * n[PLAN_O]);
        at += now;
    } while (end.number == 0 && at < rows);
    return end;
}

struct plan_end plan_report_rows(struct plan *plan, uint64_t rows, const uint8_t *inputs, uint64_t *report) {
    const uint64_t *n = plan->counts;
    size_t words = (size_t)(3 * n[PLAN_O]);
    uint32_t *six = lent(4 * words);
    struct plan_tables of;
    struct plan_end end = no_memory;
    uint64_t at = 0;
    int lent_all = ready(plan, &of) && six != NULL;
    memset(report, 0, words * sizeof *report);
    while (lent_all) {
        uint64_t now = rows_now(rows - at);
        end = plan_tables_report_rows(&of, now, inputs + at * n[PLAN_I], six);
        for (size_t k = 0; k < words; k++)
            report[k] += six[k];
        at += now;
        if (end.number != 0 || at >= rows)
            break;
    }
    free(six);
    return end;
}
