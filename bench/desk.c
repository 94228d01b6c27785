/* Times the desk's calls and the baseline's by turns, in two passes over everything, and prints tables: CPU time
   per gate, least of all rounds, and its ratio to the baseline's; what of a call is clearing and checking; conversion
   in other orders; reduction on a file made against it. A last line says how far the two passes differ. */
#define _GNU_SOURCE
#include <stdint.h>
#include <stdio.h>
#include <stdlib.h>
#include <string.h>
#include <time.h>

#include "work.h"

enum { PASSES = 2, ROUNDS = 7, LEAST = 2, SIZES = 3, BASES = 3, MOST = 6, ROOM = 150, TURNS = 8 };

/* After so many seconds no further round starts, but LEAST are had always. */
static const double enough = 0.7;

struct timed {
    const char *name;
    call *run;
    double best;
};

/* A task: the desk's call, the baselines that do the same (the first has the limit), what of the call can be timed
   alone, what stands in the buffers before it, and whether both gave the same. */
struct task {
    const char *name;
    call *desk;
    struct timed base[BASES];
    call *clears, *checks, *prepare;
    int (*same)(struct work *);
    double limit;
    int steps;
};

typedef uint32_t *ordering(uint32_t);

/* A kind of circuits: a shape, and an order of its gates with or without other names for them. Where `by_turns`, each
   call is given another circuit than the one before it, so that the processor can't know its branches by heart. */
struct kind {
    const char *name, *of;
    struct circuit (*make)(uint32_t gates);
    ordering *order, *names;
    int by_turns;
};

/* The circuits of a kind that come by turns, the first of which its work is made for. */
static struct circuit turns[TURNS];
static int turn_count;

/* What was measured of a task on one circuit, in nanoseconds per gate, 0 where there is nothing; the desk's time and
   its ratio to the first baseline also in each pass. */
struct result {
    const struct task *task;
    const struct kind *kind;
    uint64_t gates;
    double desk, base[BASES], clears, checks;
    double times[PASSES], ratios[PASSES];
};

static struct result results[ROOM];
static int result_count;

static double now(void) {
    struct timespec t;
    clock_gettime(CLOCK_PROCESS_CPUTIME_ID, &t);
    return (double)t.tv_sec + 1e-9 * (double)t.tv_nsec;
}

static double seconds(call *run, struct work *w, int times) {
    double from = now();
    for (int k = 0; k < times; k++) {
        w->given = turns[k % turn_count];
        run(w);
    }
    return (now() - from) / times;
}

/* All of them by turns; in `best` the least time per gate. */
static void measure(struct timed *timed, int count, struct work *w, int steps) {
    double gates = (double)w->given.counts[A], spent = 0;
    int times = gates < 1e6 ? (int)(1e6 / gates) : 1;
    for (int k = 0; k < count; k++)
        timed[k].best = 1e9;
    for (int round = 0; round < ROUNDS && (round < LEAST || spent < enough); round++)
        for (int k = 0; k < count; k++) {
            double time = seconds(timed[k].run, w, times);
            timed[k].best = time < timed[k].best ? time : timed[k].best;
            spent += time * times;
            if (w->answer[0] != 0)
                give_up("the desk refuses");
        }
    for (int k = 0; k < count; k++)
        timed[k].best *= 1e9 / gates / steps;
}

static struct result *result_of(const struct task *task, const struct kind *kind, uint64_t gates) {
    for (struct result *r = results; r < results + result_count; r++)
        if (r->task == task && r->kind == kind && r->gates == gates)
            return r;
    if (result_count == ROOM)
        give_up("too many results");
    results[result_count] = (struct result){.task = task, .kind = kind, .gates = gates};
    return &results[result_count++];
}

/* Measures a task on one circuit, and keeps the lesser of this pass and the one before. */
static void run(const struct task *task, const struct kind *kind, struct work *w, int pass) {
    struct result *r = result_of(task, kind, w->given.counts[A]);
    struct timed timed[MOST] = {{"desk", task->desk, 0}};
    double *to[MOST] = {&r->desk};
    int n = 1;
    for (int k = 0; k < BASES; k++)
        if (task->base[k].run != NULL)
            to[n] = &r->base[k], timed[n++] = task->base[k];
    if (task->clears != NULL)
        to[n] = &r->clears, timed[n++] = (struct timed){"clearing", task->clears, 0};
    if (task->checks != NULL)
        to[n] = &r->checks, timed[n++] = (struct timed){"check", task->checks, 0};
    if (task->prepare != NULL)
        task->prepare(w);
    measure(timed, n, w, task->steps);
    for (int k = 0; k < n; k++)
        *to[k] = *to[k] == 0 || timed[k].best < *to[k] ? timed[k].best : *to[k];
    r->times[pass] = timed[0].best;
    r->ratios[pass] = timed[0].best / timed[1].best;
    if (!task->same(w))
        give_up("the desk and the baseline differ");
    fprintf(stderr, "%s, %s, %llu\n", task->name, kind->name, (unsigned long long)r->gates);
}

static int same_circuit(const struct circuit *a, const struct circuit *b, uint64_t gates) {
    return memcmp(a->table[INPUTS], b->table[INPUTS], 4 * a->length[INPUTS]) == 0 &&
           memcmp(a->table[LATCHES], b->table[LATCHES], 4 * a->length[LATCHES]) == 0 &&
           memcmp(a->table[OUTPUTS], b->table[OUTPUTS], 4 * a->length[OUTPUTS]) == 0 &&
           memcmp(a->table[GATES], b->table[GATES], 12 * gates) == 0;
}

/* Each asks the desk and the baseline once more, since what was timed last may have left the buffers otherwise. */
static int read_same(struct work *w) {
    desk_read(w);
    return same_circuit(&w->made, &w->base_made, w->given.counts[A]);
}

static int converted_same(struct work *w) {
    desk_convert(w);
    return same_circuit(&w->made, &w->base_made, w->answer[6]);
}

static int reduced_same(struct work *w) {
    base_strash(w);
    desk_reduce(w);
    return w->answer[6] == w->base.retained && same_circuit(&w->made, &w->base_made, w->answer[6]);
}

static int dropped_same(struct work *w) {
    base_used(w);
    desk_drop(w);
    return w->answer[6] == w->base.retained && same_circuit(&w->made, &w->base_made, w->answer[6]);
}

static int printed_same(struct work *w) {
    desk_write_text(w);
    return w->answer[2] == w->file_length && memcmp(w->out, w->file, w->file_length) == 0;
}

static int encoded_same(struct work *w) {
    desk_write_binary(w);
    return w->answer[2] == w->file_length && memcmp(w->out, w->file, w->file_length) == 0;
}

static int stepped_same(struct work *w) {
    size_t l = w->given.counts[L], o = w->given.counts[O];
    uint8_t *kept = room(l + o);
    memset(w->state, '0', l);
    desk_step(w);
    memcpy(kept, w->state, l);
    memcpy(kept + l, w->outs, o);
    memset(w->state, '0', l);
    base_step3(w);
    int same = memcmp(kept, w->state, l) == 0 && memcmp(kept + l, w->outs, o) == 0;
    free(kept);
    return same;
}

/* Row k of 64 that were stepped at once, by a step of its own. */
static int row_same(struct work *w, const uint8_t *nexts, const uint8_t *outs, size_t k) {
    const uint64_t *n = w->given.counts;
    memset(w->state, '0', n[L]);
    golvanzo_step(n, TABLES(w->given), SCRATCH(w), w->state, n[L], w->row_ins + k * n[I], n[I], w->outs, n[O],
                  w->answer);
    return memcmp(nexts + k * n[L], w->state, n[L]) == 0 && memcmp(outs + k * n[O], w->outs, n[O]) == 0;
}

static int rows_same(struct work *w) {
    size_t l = ROWS * w->given.counts[L], o = ROWS * w->given.counts[O];
    uint8_t *kept = room(l + o);
    desk_rows(w);
    memcpy(kept, w->row_nexts, l);
    memcpy(kept + l, w->row_outs, o);
    base_lanes(w);
    int same = memcmp(kept, w->row_nexts, l) == 0 && memcmp(kept + l, w->row_outs, o) == 0;
    for (size_t k = 0; k < ROWS; k++)
        same = same && row_same(w, kept, kept + l, k);
    free(kept);
    return same;
}

static int row_reports_same(struct work *w) {
    desk_report_rows(w);
    base_lane_counts(w);
    return memcmp(w->report, w->base_report, 4 * 3 * w->given.counts[O]) == 0;
}

static int filed_same(struct work *w) {
    desk_file(w);
    size_t length = w->answer[2];
    uint8_t *kept = room(length);
    memcpy(kept, w->out, length);
    base_file(w);
    int same = w->base_length == length && memcmp(kept, w->out, length) == 0;
    free(kept);
    return same;
}

/* Every output is 0, so that no step ends the question early. */
static void never_one(struct work *w) { memset(w->given.table[OUTPUTS], 0, 4 * w->given.counts[O]); }

static int was_never_one(struct work *w) {
    desk_witness3(w);
    return w->answer[2] == 0;
}

/* Outputs that are 1 at a step become 0, so that no step ends the question, and the others still differ. */
static void no_longer_one(struct work *w) {
    const uint64_t *n = w->given.counts;
    memset(w->state, '0', n[L]);
    for (int k = 0; k < STEPS; k++) {
        step3(&w->base, &w->given, w->state, w->ins + k * n[I], w->outs);
        for (uint64_t j = 0; j < n[O]; j++)
            if (w->outs[j] == '1')
                w->given.table[OUTPUTS][j] = 0;
    }
}

static int reported_same(struct work *w) {
    const uint64_t *n = w->given.counts;
    base_count3(w);
    desk_report(w);
    return memcmp(w->report, w->base_report, 4 * 4 * (n[O] + n[L])) == 0 && was_never_one(w);
}

/* Every output is 1, so that each filling is stepped once, and all are tried. */
static void always_one(struct work *w) {
    for (uint64_t k = 0; k < w->given.counts[O]; k++)
        w->given.table[OUTPUTS][k] = 1;
}

static int was_always_one(struct work *w) {
    desk_witness(w);
    return w->answer[2] == 1 && w->answer[3] == FILLINGS;
}

/* Inputs of 1 alone, so that every value is known; the last gate is the first output. */
static void all_known(struct work *w) {
    memset(w->ins, '1', w->given.counts[I]);
    w->given.table[OUTPUTS][0] = (uint32_t)(2 * w->given.counts[M]);
}

static void only_marked(uint8_t *values, const uint8_t *marks, size_t n) {
    for (size_t k = 0; k < n; k++)
        values[k] = marks[k] == '1' ? '1' : 'x';
}

/* With every unmarked place turned to x the output keeps its value. */
static int explained_well(struct work *w) {
    size_t l = w->given.counts[L], i = w->given.counts[I];
    desk_ones(w);
    uint8_t value = w->outs[0];
    desk_explain(w);
    only_marked(w->state, w->out, l);
    only_marked(w->ins, w->out + l, i);
    desk_step(w);
    memset(w->ins, '1', i);
    return value != 'x' && w->outs[0] == value;
}

#define BASE(f)                                                                                                        \
    { #f, base_##f, 0 }
#define ONE_STEP(f)                                                                                                    \
    { "one step", desk_##f, 0 }
enum { READ_BINARY, READ_TEXT, WRITE_BINARY, WRITE_TEXT, CONVERT, REDUCE, DROP, STEP, ROWS_STEP, ROWS_REPORT };
enum { REPORT = ROWS_REPORT + 1, WITNESS, FILLED, EXPLAIN, ORDER, FILES, WORST, TASKS };
static const struct task tasks[TASKS] = {
    {"read binary", desk_read, {BASE(decodec), BASE(decode)}, clear_written, NULL, base_encode, read_same, 2.0, 1},
    {"read text", desk_read, {BASE(textq), BASE(textc), BASE(text)}, clear_written, NULL, base_print, read_same, 2, 1},
    {"write binary", desk_write_binary, {BASE(encode)}, clear_scratch, desk_check, NULL, encoded_same, 2.0, 1},
    {"write text", desk_write_text, {BASE(print)}, clear_scratch, desk_check, NULL, printed_same, 0, 1},
    {"convert", desk_convert, {BASE(convert)}, clear_written, desk_check, NULL, converted_same, 2.5, 1},
    {"reduce", desk_reduce, {BASE(strash)}, clear_written, desk_check, NULL, reduced_same, 2.0, 1},
    {"drop", desk_drop, {BASE(used)}, clear_written, desk_check, NULL, dropped_same, 1.5, 1},
    {"step", desk_step, {BASE(step3)}, clear_scratch, desk_check, NULL, stepped_same, 1.5, 1},
    {"64 rows", desk_rows, {ONE_STEP(step), BASE(lanes)}, clear_scratch, desk_check, NULL, rows_same, 4, 1},
    {"report of 64 rows",
     desk_report_rows,
     {ONE_STEP(step), BASE(lane_counts)},
     clear_scratch,
     desk_check,
     NULL,
     row_reports_same,
     4,
     1},
    {"report, one of 8 steps",
     desk_report,
     {{"witness3", desk_witness3, 0}, BASE(count3)},
     clear_scratch,
     desk_check,
     no_longer_one,
     reported_same,
     1.5,
     STEPS},
    {"one of 8 steps", desk_witness3, {BASE(steps)}, clear_scratch, desk_check, never_one, was_never_one, 1.5, STEPS},
    {"one of 256 fillings",
     desk_witness,
     {BASE(fillings)},
     clear_scratch,
     desk_check,
     always_one,
     was_always_one,
     1.5,
     FILLINGS},
    {"explain", desk_explain, {ONE_STEP(ones)}, clear_scratch, desk_check, all_known, explained_well, 3, 1},
    {"convert", desk_convert, {BASE(convert)}, NULL, NULL, NULL, converted_same, 2.5, 1},
    {"convert a file", desk_file, {BASE(file)}, NULL, NULL, base_print, filed_same, 2.5, 1},
    {"reduce, worst", desk_reduce, {BASE(strash)}, NULL, NULL, NULL, reduced_same, 0, 1}};

static struct circuit random_one(uint32_t gates) { return random_circuit(gates, 12); }

static struct circuit duplicates(uint32_t gates) { return random_circuit(gates, 60); }

static const uint32_t sizes[SIZES] = {10000, 100000, 1000000};

/* Kinds, and the tasks that are timed on them in all sizes, ended by TASKS. */
static const struct {
    struct kind kind;
    int tasks[TASKS + 1];
} plan[] = {
    {{"random", "", random_one, in_order, in_order, 0},
     {READ_BINARY, WRITE_BINARY, WRITE_TEXT, REDUCE, DROP, STEP, ROWS_STEP, ROWS_REPORT, REPORT, WITNESS, FILLED,
      EXPLAIN, TASKS}},
    {{"every gate blamed", "", tower_circuit, in_order, in_order, 0}, {EXPLAIN, TASKS}},
    {{"in order", "", random_one, in_order, in_order, 0}, {READ_TEXT, CONVERT, TASKS}},
    {{"reversed", "", random_one, reversed, in_order, 0}, {READ_TEXT, CONVERT, TASKS}},
    {{"shuffled", "", random_one, shuffled, in_order, 0}, {READ_TEXT, CONVERT, TASKS}},
    {{"shuffled, renamed", "", random_one, shuffled, shuffled, 0}, {READ_TEXT, CONVERT, TASKS}},
    {{"hostile: braid", "", braid_circuit, two_halves, shuffled, 0}, {READ_TEXT, CONVERT, TASKS}},
    {{"random, by turns", "", random_one, in_order, in_order, 1}, {REDUCE, TASKS}},
    {{"duplicates", "", duplicates, in_order, in_order, 0}, {REDUCE, TASKS}},
    {{"duplicates, by turns", "", duplicates, in_order, in_order, 1}, {REDUCE, TASKS}},
    {{"one larger side", "", colliding_circuit, in_order, in_order, 0}, {REDUCE, TASKS}},
    {{"one larger side, by turns", "", colliding_circuit, in_order, in_order, 1}, {REDUCE, TASKS}},
};

/* Orders of a million gates, compared with the binary order before them. Where one gate is ready at a time, two more
   are slow. */
static const struct kind orders[] = {
    {"binary order", "random", random_one, in_order, in_order, 0},
    {"reversed", "random", random_one, reversed, reversed, 0},
    {"shuffled", "random", random_one, shuffled, shuffled, 0},
    {"binary order", "star", star_circuit, in_order, in_order, 0},
    {"reversed", "star", star_circuit, reversed, reversed, 0},
    {"shuffled", "star", star_circuit, shuffled, shuffled, 0},
    {"binary order", "chain", chain_circuit, in_order, in_order, 0},
    {"reversed", "chain", chain_circuit, reversed, reversed, 0},
    {"shuffled", "chain", chain_circuit, shuffled, shuffled, 0},
    {"from both ends", "chain", chain_circuit, from_both_ends, reversed, 0},
    {"two halves by turns", "chain", chain_circuit, two_halves, shuffled, 0},
    {"binary order", "braid", braid_circuit, in_order, in_order, 0},
    {"reversed", "braid", braid_circuit, reversed, reversed, 0},
    {"shuffled", "braid", braid_circuit, shuffled, shuffled, 0},
    {"from both ends", "braid", braid_circuit, from_both_ends, reversed, 0},
    {"two halves by turns", "braid", braid_circuit, two_halves, shuffled, 0},
};

/* What the search for a pair is slowest on. */
static const struct kind worst = {"pairs of one root", "", crowded_circuit, in_order, in_order, 0};

static const size_t plans = sizeof plan / sizeof plan[0], order_count = sizeof orders / sizeof orders[0];

static struct circuit made_of(const struct kind *kind, uint32_t gates) {
    struct circuit c = kind->make(gates);
    uint32_t *order = kind->order(gates), *names = kind->names(gates);
    struct circuit put = arranged(&c, order, names);
    free_circuit(&c);
    free(order);
    free(names);
    return put;
}

static struct work work_of(const struct kind *kind, uint32_t gates) {
    turn_count = kind->by_turns ? TURNS : 1;
    for (int k = 0; k < turn_count; k++)
        turns[k] = made_of(kind, gates);
    return work_on(turns[0]);
}

static void end_work(struct work *w) {
    w->given = turns[0];
    free_work(w);
    for (int k = 1; k < turn_count; k++)
        free_circuit(&turns[k]);
}

static void time_all(int pass) {
    for (size_t p = 0; p < plans; p++)
        for (int size = 0; size < SIZES; size++) {
            struct work w = work_of(&plan[p].kind, sizes[size]);
            for (const int *t = plan[p].tasks; *t != TASKS; t++)
                run(&tasks[*t], &plan[p].kind, &w, pass);
            end_work(&w);
        }
    for (size_t k = 0; k < order_count; k++) {
        struct work w = work_of(&orders[k], sizes[SIZES - 1]);
        run(&tasks[ORDER], &orders[k], &w, pass);
        run(&tasks[FILES], &orders[k], &w, pass);
        end_work(&w);
    }
    for (int size = 0; size < SIZES; size++) {
        struct work w = work_of(&worst, sizes[size]);
        run(&tasks[WORST], &worst, &w, pass);
        end_work(&w);
    }
}

/* By task, then kind, then gates. */
static int in_rows(const void *a, const void *b) {
    const struct result *x = a, *y = b;
    if (x->task != y->task)
        return x->task < y->task ? -1 : 1;
    if (x->kind != y->kind)
        return x->kind < y->kind ? -1 : 1;
    return x->gates < y->gates ? -1 : x->gates > y->gates;
}

static const char *marked(double x, double limit) {
    static char text[4][40];
    static int turn;
    char *to = text[turn++ % 4];
    snprintf(to, sizeof text[0], limit > 0 && x > limit ? "**%.2f**" : "%.2f", x);
    return to;
}

/* The second and third baselines, where a task has them: name, time, ratio. */
static void print_others(const struct result *r) {
    for (int k = 1; k < BASES && r->base[k] > 0; k++)
        printf("%s%s %.1f: %.2f", k == 1 ? "" : ", ", r->task->base[k].name, r->base[k], r->desk / r->base[k]);
}

static void print_results(void) {
    double first = 0;
    printf("| task | kind | gates | ns/gate | Mgates/s | baseline | ratio | growth | other baselines: ratio |\n");
    printf("|---|---|--:|--:|--:|--:|--:|--:|---|\n");
    for (const struct result *r = results; r < results + result_count; r++) {
        const struct task *t = r->task;
        if (t >= &tasks[ORDER])
            continue;
        first = r->gates == sizes[0] ? r->desk : first;
        /* the limits of a step and of 64 rows are without the check */
        double limit = t >= &tasks[STEP] && t <= &tasks[ROWS_REPORT] ? 0 : t->limit;
        printf("| %s | %s | %llu | %.1f | %.1f | %s %.1f | %s | %s | ", t->name, r->kind->name,
               (unsigned long long)r->gates, r->desk, 1e3 / r->desk, t->base[0].name, r->base[0],
               marked(r->desk / r->base[0], limit), marked(r->desk / first, 4));
        print_others(r);
        printf(" |\n");
    }
}

/* The first baseline without the check, which it makes if it is a call of the desk's. */
static double base_rest(const struct result *r) {
    call *base = r->task->base[0].run;
    int checks = base == desk_step || base == desk_ones || base == desk_witness3;
    return checks ? r->base[0] - r->checks : r->base[0];
}

/* The parts of a call that can be timed alone, and the rest beside the baseline. */
static void print_split(void) {
    printf("\n| split | kind | gates | ns/gate | clearing alone | check alone | without check | its ratio |\n");
    printf("|---|---|--:|--:|--:|--:|--:|--:|\n");
    for (const struct result *r = results; r < results + result_count; r++) {
        double rest = r->desk - r->checks;
        if (r->task >= &tasks[ORDER])
            continue;
        printf("| %s | %s | %llu | %.1f | %.1f | ", r->task->name, r->kind->name, (unsigned long long)r->gates, r->desk,
               r->clears);
        if (r->checks > 0)
            printf("%.1f | %.1f | %s |\n", r->checks, rest, marked(rest / base_rest(r), r->task->limit));
        else
            printf("| | |\n");
    }
}

static void print_orders(int of, const char *heading) {
    const struct result *first = NULL;
    printf("\n| shape | order | %s, ns/gate | to binary order | baseline | its own to binary order | ratio |\n",
           heading);
    printf("|---|---|--:|--:|--:|--:|--:|\n");
    for (size_t k = 0; k < order_count; k++) {
        const struct result *r = result_of(&tasks[of], &orders[k], sizes[SIZES - 1]);
        first = orders[k].order == in_order ? r : first;
        printf("| %s | %s | %.1f | %s | %.1f | %.2f | %s |\n", r->kind->of, r->kind->name, r->desk,
               marked(r->desk / first->desk, 10), r->base[0], r->base[0] / first->base[0],
               marked(r->desk / r->base[0], r->task->limit));
    }
}

static void print_worst(void) {
    double first = 0;
    printf("\n| %s | gates | ns/gate | growth | %s | ratio |\n", worst.name, tasks[WORST].base[0].name);
    printf("|---|--:|--:|--:|--:|--:|\n");
    for (int size = 0; size < SIZES; size++) {
        const struct result *r = result_of(&tasks[WORST], &worst, sizes[size]);
        first = size == 0 ? r->desk : first;
        printf("| reduce | %u | %.1f | %.2f | %.1f | %.2f |\n", sizes[size], r->desk, r->desk / first, r->base[0],
               r->desk / r->base[0]);
    }
}

static int by_size(const void *a, const void *b) {
    double x = *(const double *)a, y = *(const double *)b;
    return (x > y) - (x < y);
}

/* By how many hundredths the larger of two figures is above the lesser: the middle one and the largest of all rows. */
static void print_noise(void) {
    double time[ROOM], ratio[ROOM];
    for (int k = 0; k < result_count; k++) {
        const double *t = results[k].times, *q = results[k].ratios;
        time[k] = 100 * ((t[0] > t[1] ? t[0] / t[1] : t[1] / t[0]) - 1);
        ratio[k] = 100 * ((q[0] > q[1] ? q[0] / q[1] : q[1] / q[0]) - 1);
    }
    qsort(time, (size_t)result_count, sizeof time[0], by_size);
    qsort(ratio, (size_t)result_count, sizeof ratio[0], by_size);
    printf("\nNoise, as the difference of the two passes: times of the library %.0f %% in the middle row, %.0f %% at "
           "most; ratios %.0f %% and %.0f %%.\n",
           time[result_count / 2], time[result_count - 1], ratio[result_count / 2], ratio[result_count - 1]);
}

int main(void) {
    for (int pass = 0; pass < PASSES; pass++)
        time_all(pass);
    qsort(results, (size_t)result_count, sizeof results[0], in_rows);
    print_results();
    print_split();
    print_orders(ORDER, "tables");
    print_orders(FILES, "file");
    print_worst();
    print_noise();
    return 0;
}
