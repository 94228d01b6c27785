/* A plan that owns its tables: the calls of golvanzo.h without their lengths. What a call refuses, how and where, is
   the library's answer and no other; what is added here is memory, names and sentences. The calls on files up to the
   paper's limits need no room to be guessed, since the library is asked for every size.

   15, "not in binary order", comes from every call on a plan that was read, but for plan_check, plan_convert and
   plan_write_text. A plan from a binary file or from plan cards is in that order, one from a text file is after
   plan_convert; reducing, dropping and rewiring keep it. plan_read_cards answers 15 too where the cards are not in
   order, and plan_rewire where a right side is not below its gate.

   Threads: one plan is used by one thread at a time, since its calls share its scratch; different plans by any
   number at once. */
#ifndef PLAN_H
#define PLAN_H

#include <stddef.h>
#include <stdint.h>

#include "golvanzo.h"

#ifdef __cplusplus
extern "C" {
#endif

/* The counts, and the tables 1, 2, 3, 4, 7, 8, 9, in the order in which golvanzo.h takes them. */
enum { PLAN_M, PLAN_I, PLAN_L, PLAN_O, PLAN_A, PLAN_B, PLAN_C, PLAN_COUNTS };
enum { PLAN_INPUTS, PLAN_LATCHES, PLAN_OUTPUTS, PLAN_GATES, PLAN_RESETS, PLAN_BADS, PLAN_CONSTRAINTS, PLAN_TABLES };

/* How a call ended: number 0: as asked; else the refusal's number and place, or PLAN_NO_MEMORY. */
#define PLAN_NO_MEMORY UINT64_MAX
struct plan_end {
    uint64_t number, place;
};

/* `table` and `words` are the tables and their lengths, `tail` the symbols and comments, `binary` whether the file
   that was read had the binary form. All may be read; only the calls below change them. */
struct plan {
    uint64_t counts[PLAN_COUNTS];
    uint32_t *table[PLAN_TABLES];
    size_t words[PLAN_TABLES];
    uint32_t *scratch;
    size_t scratch_words;
    uint8_t *tail;
    size_t tail_length;
    int binary;
};

/* Bytes of the caller's, to be given back by free(), or by the call, which leaves them empty. */
struct plan_bytes {
    uint8_t *at;
    size_t length;
};
void plan_free_bytes(struct plan_bytes *bytes);

/* The desk question for each table of PLAN_TABLES, and for table 5 as the last. */
struct plan_end plan_words(const uint8_t *file, size_t length, uint64_t words[PLAN_TABLES + 1]);

/* Reads a file; `plan` need not be set before. The file is not needed after it. A plan that was not read is empty. */
struct plan_end plan_read(struct plan *plan, const uint8_t *file, size_t length);

/* The same of a file of plan cards, which has no tail and is in binary order. */
struct plan_end plan_read_cards(struct plan *plan, const uint8_t *file, size_t length);

/* Gives back what the plan owns, and leaves it empty; an empty one may be given. */
void plan_free(struct plan *plan);

/* Whether the tables hold a circuit. */
struct plan_end plan_check(struct plan *plan);

/* Put the plan in binary order; reduce a plan that is in binary order, or drop its unused gates. A refusal leaves it
   as it was. */
struct plan_end plan_convert(struct plan *plan);
struct plan_end plan_reduce(struct plan *plan);
struct plan_end plan_drop(struct plan *plan);

/* Keeps these bytes of the tail alone, from one offset up to another; no more than there are. */
void plan_keep_tail(struct plan *plan, size_t from, size_t to);

/* Write the plan and its tail as a file, or as plan cards, which hold no tail; `out` is empty after a refusal. */
struct plan_end plan_write_text(struct plan *plan, struct plan_bytes *out);
struct plan_end plan_write_binary(struct plan *plan, struct plan_bytes *out);
struct plan_end plan_write_cards(struct plan *plan, struct plan_bytes *out);

/* The first state, that of the resets: L bytes of "0", "1", "x". */
void plan_first(const struct plan *plan, uint8_t *state);

/* One step in binary order: L bytes of state, which become the next, I bytes of inputs, O bytes of outputs. */
struct plan_end plan_step(struct plan *plan, uint8_t *state, const uint8_t *inputs, uint8_t *outputs);

/* A step for each of a number of vectors, I bytes each, one after another. The first L bytes of `states` are the
   state that the run starts from; the next state of each step is written after them, (number + 1) * L bytes in all,
   and number * O bytes of outputs. After a refusal, 12 if a vector holds a wrong byte, what is written is zero. */
struct plan_end plan_run(struct plan *plan, uint64_t number, const uint8_t *vectors, uint8_t *states, uint8_t *outputs);

/* A step by the plain engine, for plans of at most 24 gates; and whether it takes the plan, which is 24 where it
   has more. */
struct plan_end plan_step_plain(struct plan *plan, uint8_t *state, const uint8_t *inputs, uint8_t *outputs);
struct plan_end plan_check_plain(struct plan *plan);

/* What the witness question says: whether every filling of the x shows a 1, and how many were tried. */
enum plan_says { PLAN_NO, PLAN_YES, PLAN_UNDECIDED };
struct plan_finding {
    enum plan_says says;
    uint64_t tried;
};

/* An allowance that decides every list: with more x than 20 it is refused. */
#define PLAN_ALL_FILLINGS ((uint64_t)1 << 20)

/* Which of L bytes of state and I bytes of inputs made output number `output` 0 or 1 in a step in binary order: L + I
   bytes of marks, state first. */
struct plan_end plan_explain(struct plan *plan, const uint8_t *state, const uint8_t *inputs, uint64_t output,
                             uint8_t *marks);

/* The values of a step in binary order on the screen: M + 1 bytes, one for each variable and the constant's first;
   state and inputs are as for plan_step, and the state stays. */
struct plan_end plan_values(struct plan *plan, const uint8_t *state, const uint8_t *inputs, uint8_t *values);

/* Gives a gate, counted from 0, two right sides, in either order; the values on the screen become those of the edited
   plan. A refusal leaves both as they were. */
struct plan_end plan_rewire(struct plan *plan, uint64_t gate, uint32_t rhs0, uint32_t rhs1, uint8_t *values);

/* The witness question for a number of vectors, I bytes each, one after another, and for as many fillings as are
   allowed; the same in three values, where *yes is 1 or 0. */
struct plan_end plan_witness(struct plan *plan, uint64_t number, const uint8_t *vectors, size_t length,
                             uint64_t allowance, struct plan_finding *finding);
struct plan_end plan_witness3(struct plan *plan, uint64_t number, const uint8_t *vectors, size_t length, int *yes);

/* The needle report of a number of vectors, I bytes each, stepped from the resets: four words for each output, then for
   each latch, the steps at 0, at 1, at x and those that differ from the step before; 4 * (O + L) words. */
struct plan_end plan_report(struct plan *plan, uint64_t number, const uint8_t *vectors, size_t length,
                            uint32_t *report);

/* Rows, each one vector of I bytes stepped once from the resets, as many as there are: the library takes 64 at a
   time. L bytes of next state and O bytes of outputs for each row; or three numbers for each output, the rows at 0,
   at 1 and at x. */
struct plan_end plan_rows(struct plan *plan, uint64_t rows, const uint8_t *inputs, uint8_t *nexts, uint8_t *outputs);
struct plan_end plan_report_rows(struct plan *plan, uint64_t rows, const uint8_t *inputs, uint64_t *report);

/* Lists that symbols name, in the order of a file. */
enum plan_list {
    PLAN_LIST_INPUTS,
    PLAN_LIST_LATCHES,
    PLAN_LIST_OUTPUTS,
    PLAN_LIST_BADS,
    PLAN_LIST_CONSTRAINTS,
    PLAN_LISTS
};

/* A symbol: which entry of which list it names, and the name, which lies in the plan's tail and ends without a 0. */
struct plan_symbol {
    enum plan_list list;
    uint64_t entry;
    const uint8_t *name;
    size_t length;
};

/* The symbol at *at of the plan's tail, *at going past it; 0 if none stands there. Begin with *at = 0. */
int plan_next_symbol(const struct plan *plan, size_t *at, struct plan_symbol *symbol);

/* The name of an entry and its length; null, and 0, if it has none. It goes through the whole tail: for the names of
   all entries use plan_next_symbol. */
const uint8_t *plan_name(const struct plan *plan, enum plan_list list, uint64_t entry, size_t *length);

/* What a refusal means in one sentence, what its place is, and what can be done; null for a number that is none. They
   are those of docs/REFUSALS.md. PLAN_NO_MEMORY has a sentence too, and no place: "". */
const char *plan_sentence(uint64_t number);
const char *plan_place(uint64_t number);
const char *plan_advice(uint64_t number);

/* The calls of golvanzo.h on tables that are the caller's, as a struct: what it holds is lent to a call, and nothing
   is allocated. Lengths of vectors are those that the counts ask. `scratch` is table 5 of the calls that are given
   tables. */
struct plan_tables {
    uint64_t counts[PLAN_COUNTS];
    uint32_t *table[PLAN_TABLES];
    golvanzo_size words[PLAN_TABLES];
    uint32_t *scratch;
    golvanzo_size scratch_words;
};

#define PLAN_LENT(of, t) (of)->table[t], (of)->words[t]
#define PLAN_LENT_TABLES(of)                                                                                           \
    PLAN_LENT(of, PLAN_INPUTS), PLAN_LENT(of, PLAN_LATCHES), PLAN_LENT(of, PLAN_OUTPUTS), PLAN_LENT(of, PLAN_GATES),   \
        PLAN_LENT(of, PLAN_RESETS), PLAN_LENT(of, PLAN_BADS), PLAN_LENT(of, PLAN_CONSTRAINTS)
#define PLAN_LENT_SCRATCH(of) (of)->scratch, (of)->scratch_words
#define PLAN_LENT_ALL(of) (of)->counts, PLAN_LENT_TABLES(of), PLAN_LENT_SCRATCH(of)

/* The answer of a call begins with the refusal's number and place; that of a call that fills tables has the counts
   then. */
static inline struct plan_end plan_end_of(const uint64_t *answer) {
    struct plan_end end;
    end.number = answer[0];
    end.place = answer[1];
    return end;
}

static inline struct plan_end plan_filled(struct plan_tables *to, const uint64_t *answer) {
    for (int k = 0; k < PLAN_COUNTS; k++)
        to->counts[k] = answer[2 + k];
    return plan_end_of(answer);
}

/* Fill the tables and the counts from a file; *tail is where its tail starts. */
static inline struct plan_end plan_tables_read(struct plan_tables *to, const uint8_t *file, golvanzo_size length,
                                               golvanzo_size *tail) {
    uint64_t answer[2 + PLAN_COUNTS];
    *tail = golvanzo_read(file, length, PLAN_LENT_TABLES(to), PLAN_LENT_SCRATCH(to), answer);
    return plan_filled(to, answer);
}

static inline struct plan_end plan_tables_read2007(struct plan_tables *to, const uint8_t *file, golvanzo_size length,
                                                   golvanzo_size *tail) {
    uint64_t answer[2 + PLAN_COUNTS];
    *tail = golvanzo_read2007(file, length, PLAN_LENT_TABLES(to), PLAN_LENT_SCRATCH(to), answer);
    return plan_filled(to, answer);
}

static inline struct plan_end plan_tables_read_cards(struct plan_tables *to, const uint8_t *file,
                                                     golvanzo_size length) {
    uint64_t answer[2 + PLAN_COUNTS];
    golvanzo_read_cards(file, length, PLAN_LENT_TABLES(to), PLAN_LENT_SCRATCH(to), answer);
    return plan_filled(to, answer);
}

static inline struct plan_end plan_tables_check(const struct plan_tables *of) {
    uint64_t answer[2];
    golvanzo_check(PLAN_LENT_ALL(of), answer);
    return plan_end_of(answer);
}

/* Write a file into `out`, whose length goes in as its room and comes out as what is written, 0 after a refusal. */
static inline struct plan_end plan_tables_write_text(const struct plan_tables *of, struct plan_bytes tail,
                                                     struct plan_bytes *out) {
    uint64_t answer[3];
    golvanzo_write_text(PLAN_LENT_ALL(of), tail.at, tail.length, out->at, out->length, answer);
    out->length = (size_t)answer[2];
    return plan_end_of(answer);
}

static inline struct plan_end plan_tables_write_binary(const struct plan_tables *of, struct plan_bytes tail,
                                                       struct plan_bytes *out) {
    uint64_t answer[3];
    golvanzo_write_binary(PLAN_LENT_ALL(of), tail.at, tail.length, out->at, out->length, answer);
    out->length = (size_t)answer[2];
    return plan_end_of(answer);
}

static inline struct plan_end plan_tables_write_cards(const struct plan_tables *of, struct plan_bytes tail,
                                                      struct plan_bytes *out) {
    uint64_t answer[3];
    golvanzo_write_cards(PLAN_LENT_ALL(of), tail.at, tail.length, out->at, out->length, answer);
    out->length = (size_t)answer[2];
    return plan_end_of(answer);
}

/* Write a changed circuit to other tables, and its counts; scratch is that of the first. */
static inline struct plan_end plan_tables_convert(const struct plan_tables *of, struct plan_tables *to) {
    uint64_t answer[2 + PLAN_COUNTS];
    golvanzo_convert(of->counts, PLAN_LENT_TABLES(of), PLAN_LENT_TABLES(to), PLAN_LENT_SCRATCH(of), answer);
    return plan_filled(to, answer);
}

static inline struct plan_end plan_tables_reduce(const struct plan_tables *of, struct plan_tables *to) {
    uint64_t answer[2 + PLAN_COUNTS];
    golvanzo_reduce(of->counts, PLAN_LENT_TABLES(of), PLAN_LENT_TABLES(to), PLAN_LENT_SCRATCH(of), answer);
    return plan_filled(to, answer);
}

static inline struct plan_end plan_tables_drop(const struct plan_tables *of, struct plan_tables *to) {
    uint64_t answer[2 + PLAN_COUNTS];
    golvanzo_drop(of->counts, PLAN_LENT_TABLES(of), PLAN_LENT_TABLES(to), PLAN_LENT_SCRATCH(of), answer);
    return plan_filled(to, answer);
}

/* As plan_step and those after it, vectors being as long as the counts ask. */
static inline struct plan_end plan_tables_step(const struct plan_tables *of, uint8_t *state, const uint8_t *inputs,
                                               uint8_t *outputs) {
    const uint64_t *n = of->counts;
    uint64_t answer[2];
    golvanzo_step(PLAN_LENT_ALL(of), state, n[PLAN_L], inputs, n[PLAN_I], outputs, n[PLAN_O], answer);
    return plan_end_of(answer);
}

static inline struct plan_end plan_tables_step_plain(const struct plan_tables *of, uint8_t *state,
                                                     const uint8_t *inputs, uint8_t *outputs) {
    const uint64_t *n = of->counts;
    uint64_t answer[2];
    golvanzo_step_plain(PLAN_LENT_ALL(of), state, n[PLAN_L], inputs, n[PLAN_I], outputs, n[PLAN_O], answer);
    return plan_end_of(answer);
}

static inline struct plan_end plan_tables_explain(const struct plan_tables *of, const uint8_t *state,
                                                  const uint8_t *inputs, uint64_t output, uint8_t *marks) {
    const uint64_t *n = of->counts;
    uint64_t answer[2];
    golvanzo_explain(PLAN_LENT_ALL(of), state, n[PLAN_L], inputs, n[PLAN_I], output, marks, n[PLAN_L] + n[PLAN_I],
                     answer);
    return plan_end_of(answer);
}

static inline struct plan_end plan_tables_rewire(const struct plan_tables *of, uint64_t gate, uint32_t rhs0,
                                                 uint32_t rhs1, uint8_t *values) {
    uint64_t answer[2];
    golvanzo_rewire(PLAN_LENT_ALL(of), gate, rhs0, rhs1, values, of->counts[PLAN_M] + 1, answer);
    return plan_end_of(answer);
}

/* A list of vectors: how many there are, their bytes one after another, and how many bytes these are. */
static inline struct plan_end plan_tables_witness(const struct plan_tables *of, uint64_t number, const uint8_t *vectors,
                                                  golvanzo_size length, uint64_t allowance,
                                                  struct plan_finding *finding) {
    uint64_t answer[4];
    golvanzo_witness(PLAN_LENT_ALL(of), number, vectors, length, allowance, answer);
    finding->says = answer[2] == 1 ? PLAN_YES : answer[2] == 2 ? PLAN_UNDECIDED : PLAN_NO;
    finding->tried = answer[3];
    return plan_end_of(answer);
}

static inline struct plan_end plan_tables_witness3(const struct plan_tables *of, uint64_t number,
                                                   const uint8_t *vectors, golvanzo_size length, int *yes) {
    uint64_t answer[3];
    golvanzo_witness3(PLAN_LENT_ALL(of), number, vectors, length, answer);
    *yes = answer[2] == 1;
    return plan_end_of(answer);
}

static inline struct plan_end plan_tables_report(const struct plan_tables *of, uint64_t number, const uint8_t *vectors,
                                                 golvanzo_size length, uint32_t *report) {
    const uint64_t *n = of->counts;
    uint64_t answer[2];
    golvanzo_report(PLAN_LENT_ALL(of), number, vectors, length, report, 4 * (n[PLAN_O] + n[PLAN_L]), answer);
    return plan_end_of(answer);
}

/* At most 64 rows. */
static inline struct plan_end plan_tables_rows(const struct plan_tables *of, uint64_t rows, const uint8_t *inputs,
                                               uint8_t *nexts, uint8_t *outputs) {
    const uint64_t *n = of->counts;
    uint64_t answer[2];
    golvanzo_rows(PLAN_LENT_ALL(of), rows, nexts, rows * n[PLAN_L], inputs, rows * n[PLAN_I], outputs, rows * n[PLAN_O],
                  answer);
    return plan_end_of(answer);
}

static inline struct plan_end plan_tables_report_rows(const struct plan_tables *of, uint64_t rows,
                                                      const uint8_t *inputs, uint32_t *report) {
    const uint64_t *n = of->counts;
    uint64_t answer[2];
    golvanzo_report_rows(PLAN_LENT_ALL(of), rows, inputs, rows * n[PLAN_I], report, 3 * n[PLAN_O], answer);
    return plan_end_of(answer);
}

/* The tables of a plan that owns them, lent. Scratch is as long as the last call of the plan left it. */
static inline struct plan_tables plan_tables_of(const struct plan *plan) {
    struct plan_tables of;
    for (int k = 0; k < PLAN_COUNTS; k++)
        of.counts[k] = plan->counts[k];
    for (int t = 0; t < PLAN_TABLES; t++) {
        of.table[t] = plan->table[t];
        of.words[t] = plan->words[t];
    }
    of.scratch = plan->scratch;
    of.scratch_words = plan->scratch_words;
    return of;
}

#ifdef __cplusplus
}
#endif

#endif
