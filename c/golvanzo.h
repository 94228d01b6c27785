/* The desk: Golvanzo for C, for circuits of AIGER 1.9. A caller owes each call: buffers that are aligned and as long as
   said; no null pointer with a length above 0, and none for `counts` and `answer`. Lengths of tables are in words.

   No buffer that a call writes may overlap another of that call; those that it only reads may.

   Nothing is kept or allocated, and there is no state behind the calls. So any number of threads may call at once, each
   on tables and scratch of its own; tables that are only read may be shared, scratch may not.

   An answer starts with a refusal's number, 0 if there is none, and its place (docs/REFUSALS.md has them all); what
   follows is 0 after a refusal. After one every table lent for writing is zero, and no byte of a buffer lent for
   writing has changed. Words of written tables past the counts are zero, scratch is zero after every call, and given
   tables are never changed. `golvanzo_rewire` alone writes into a given table, that of gates: what it does not change
   there stays as it came, and after a refusal all of it.

   The calls are proved but for `golvanzo_version`. plan.h has them with fewer arguments. */
#ifndef GOLVANZO_H
#define GOLVANZO_H

#include <stdint.h>

/* The version of this header; file VERSION has it too, and `make` holds one to the other. The first number changes
   where a program must be compiled again: it is the number at the end of libgolvanzo.so.1. */
#define GOLVANZO_VERSION_MAJOR 1
#define GOLVANZO_VERSION_MINOR 0
#define GOLVANZO_VERSION_PATCH 0
#define GOLVANZO_TEXT_OF(number) #number
#define GOLVANZO_DOTTED(a, b, c) GOLVANZO_TEXT_OF(a) "." GOLVANZO_TEXT_OF(b) "." GOLVANZO_TEXT_OF(c)
#define GOLVANZO_VERSION_STRING GOLVANZO_DOTTED(GOLVANZO_VERSION_MAJOR, GOLVANZO_VERSION_MINOR, GOLVANZO_VERSION_PATCH)

#ifdef __cplusplus
extern "C" {
#endif

/* The version of the library that the program runs with, as text. */
const char *golvanzo_version(void);

/* A length, in 64 bits everywhere: the library takes it so on 32-bit processors too, where a size_t is shorter. */
typedef uint64_t golvanzo_size;

/* The refusals, by the paper's numbers; docs/REFUSALS.md says what each means and where its place points. */
enum golvanzo_refusal {
    GOLVANZO_NOT_REFUSED = 0,
    GOLVANZO_WRONG_BYTE = 1,
    GOLVANZO_LARGE_COUNT = 2,
    GOLVANZO_WRONG_SUM = 3,
    GOLVANZO_SHORT_TABLE = 4,
    GOLVANZO_OUT_OF_RANGE = 5,
    GOLVANZO_DEFINED_TWICE = 6,
    GOLVANZO_NOT_DEFINED = 7,
    GOLVANZO_CYCLIC = 8,
    GOLVANZO_BAD_DIFFERENCE = 9,
    GOLVANZO_BAD_SYMBOL = 10,
    GOLVANZO_SHORT_BUFFER = 11,
    GOLVANZO_BAD_VECTOR = 12,
    GOLVANZO_LONG_INPUT = 13,
    GOLVANZO_UNREADABLE = 14,
    GOLVANZO_NOT_IN_ORDER = 15,
    GOLVANZO_LONG_DIFFERENCE = 16,
    GOLVANZO_NOT_EXPLAINED = 17,
    GOLVANZO_WRONG_MARK = 18,
    GOLVANZO_NOT_ON_CARDS = 19,
    GOLVANZO_MANY_X = 20,
    GOLVANZO_JUSTICE = 21,
    GOLVANZO_NO_GATE = 22,
    GOLVANZO_WRONG_VALUE = 23,
    GOLVANZO_MANY_GATES = 24,
    GOLVANZO_MANY_LATCHES = 25,
    GOLVANZO_MANY_INPUTS = 26,
    GOLVANZO_NOT_ALIKE = 27
};

/* The tables, by the paper's numbers: the question of sizes and the place of refusal 4. */
enum golvanzo_table {
    GOLVANZO_TABLE_INPUTS = 1,
    GOLVANZO_TABLE_LATCHES = 2,
    GOLVANZO_TABLE_OUTPUTS = 3,
    GOLVANZO_TABLE_GATES = 4,
    GOLVANZO_TABLE_SCRATCH = 5,
    GOLVANZO_TABLE_REPORT = 6,
    GOLVANZO_TABLE_RESETS = 7,
    GOLVANZO_TABLE_BADS = 8,
    GOLVANZO_TABLE_CONSTRAINTS = 9
};

/* A circuit's tables, each with its length, in the order 1 to 4, 7 to 9: inputs (I words), latches (2L, current then
   next), outputs (O), gates (3A, left side then the right sides), resets (L; 0, 1 or the latch's own literal, which
   is x), bad states (B), constraints (C). What is lent for writing is `GOLVANZO_WRITTEN`, what is only read is
   `GOLVANZO_GIVEN`; tables may be longer than this. `GOLVANZO_SCRATCH` is table 5, 4 * (M + 1) + O + B + C words, fewer
   to read a binary file (`golvanzo_words`). */
#define GOLVANZO_GIVEN                                                                                                 \
    const uint32_t *inputs, golvanzo_size n1, const uint32_t *latches, golvanzo_size n2, const uint32_t *outputs,      \
        golvanzo_size n3, const uint32_t *gates, golvanzo_size n4, const uint32_t *resets, golvanzo_size n7,           \
        const uint32_t *bads, golvanzo_size n8, const uint32_t *constraints, golvanzo_size n9
#define GOLVANZO_WRITTEN                                                                                               \
    uint32_t *to_inputs, golvanzo_size w1, uint32_t *to_latches, golvanzo_size w2, uint32_t *to_outputs,               \
        golvanzo_size w3, uint32_t *to_gates, golvanzo_size w4, uint32_t *to_resets, golvanzo_size w7,                 \
        uint32_t *to_bads, golvanzo_size w8, uint32_t *to_constraints, golvanzo_size w9
#define GOLVANZO_SCRATCH uint32_t *scratch, golvanzo_size n5

/* How many words table 1 to 5 or 7 to 9 needs to read a file with this header, by AIGER 1.9; 2^64 - 1 if there is no
   such table or the header is refused. Of table 5 a binary file needs I + L + O + B + C words to be read. */
uint64_t golvanzo_words(const uint8_t *file, golvanzo_size file_len, uint64_t table);

/* Read a file of AIGER 1.9 into the tables, whatever they hold, `answer` being number (0: accepted), place, M, I, L, O,
   A, B, C; return the offset where the tail starts (the file's length after a refusal). The second reads by the report
   of 2007 alone: it refuses what is newer, and leaves resets that are 0, and B and C that are 0. */
uint64_t golvanzo_read(const uint8_t *file, golvanzo_size file_len, GOLVANZO_WRITTEN, GOLVANZO_SCRATCH,
                       uint64_t *answer /* 9 words */);
uint64_t golvanzo_read2007(const uint8_t *file, golvanzo_size file_len, GOLVANZO_WRITTEN, GOLVANZO_SCRATCH,
                           uint64_t *answer /* 9 words */);

/* The calls on tables: `counts` are M, I, L, O, A, B, C, of any size, as an answer has them from its third word
   on. */

/* Whether the tables hold a circuit that a file could state, `answer` being number (0: they do) and place. */
void golvanzo_check(const uint64_t *counts /* 7 words */, GOLVANZO_GIVEN, GOLVANZO_SCRATCH,
                    uint64_t *answer /* 2 words */);

/* Write the tables and the tail (symbols and comment, in the letters of 1.9) as a file into `out`, in the shortest
   form: zeros at the header's end, after A, and resets that are 0 are left off. `answer` is number (0: written),
   place and how many bytes of `out` are written; no other byte changes. Binary needs tables in binary order. */
void golvanzo_write_text(const uint64_t *counts /* 7 words */, GOLVANZO_GIVEN, GOLVANZO_SCRATCH, const uint8_t *tail,
                         golvanzo_size tail_len, uint8_t *out, golvanzo_size out_len, uint64_t *answer /* 3 words */);
void golvanzo_write_binary(const uint64_t *counts /* 7 words */, GOLVANZO_GIVEN, GOLVANZO_SCRATCH, const uint8_t *tail,
                           golvanzo_size tail_len, uint8_t *out, golvanzo_size out_len, uint64_t *answer /* 3 words */);

/* The old plan cards: records of a two-byte mark and four-byte numbers, low byte first, of circuits in binary order.
   Read cards into the tables, `answer` being as `golvanzo_read` has it: resets are 0, and B and C are 0; scratch is
   as long as for the calls on tables. Write the tables as cards, `answer` being as `golvanzo_write_binary` has it: a
   tail, a reset that is not 0, a bad state and a constraint are refused by 19. */
void golvanzo_read_cards(const uint8_t *file, golvanzo_size file_len, GOLVANZO_WRITTEN, GOLVANZO_SCRATCH,
                         uint64_t *answer /* 9 words */);
void golvanzo_write_cards(const uint64_t *counts /* 7 words */, GOLVANZO_GIVEN, GOLVANZO_SCRATCH, const uint8_t *tail,
                          golvanzo_size tail_len, uint8_t *out, golvanzo_size out_len, uint64_t *answer /* 3 words */);

/* Write the circuit in binary order, or reduced, to the written tables, which must be as long as the given counts
   ask; `answer` is number (0: made), place, M, I, L, O, A, B, C of what is written. Reduction needs tables in binary
   order. */
void golvanzo_convert(const uint64_t *counts /* 7 words */, GOLVANZO_GIVEN, GOLVANZO_WRITTEN, GOLVANZO_SCRATCH,
                      uint64_t *answer /* 9 words */);
void golvanzo_reduce(const uint64_t *counts /* 7 words */, GOLVANZO_GIVEN, GOLVANZO_WRITTEN, GOLVANZO_SCRATCH,
                     uint64_t *answer /* 9 words */);

/* Write the circuit without the gates that no output, next state, bad state or constraint reaches, the gaps closed, as
   `golvanzo_reduce` writes: it needs binary order too, and what it frees of the written tables is zero. */
void golvanzo_drop(const uint64_t *counts /* 7 words */, GOLVANZO_GIVEN, GOLVANZO_WRITTEN, GOLVANZO_SCRATCH,
                   uint64_t *answer /* 9 words */);

/* One step of tables in binary order: takes `state` (L bytes) and `ins` (I), bytes "0", "1", "x", writes `outs` (O)
   and the next state over `state`; `answer` is number (0: stepped) and place. Resets, bad states and constraints are
   only checked: the caller starts a run, and a latch that is its own reset starts as "x". */
void golvanzo_step(const uint64_t *counts /* 7 words */, GOLVANZO_GIVEN, GOLVANZO_SCRATCH, uint8_t *state,
                   golvanzo_size state_len, const uint8_t *ins, golvanzo_size ins_len, uint8_t *outs,
                   golvanzo_size outs_len, uint64_t *answer /* 2 words */);

/* The same by the plain engine: circuits of at most 24 gates, else 24, place their number, just after 15. */
void golvanzo_step_plain(const uint64_t *counts /* 7 words */, GOLVANZO_GIVEN, GOLVANZO_SCRATCH, uint8_t *state,
                         golvanzo_size state_len, const uint8_t *ins, golvanzo_size ins_len, uint8_t *outs,
                         golvanzo_size outs_len, uint64_t *answer /* 2 words */);

/* Which places of a state (L bytes) and of inputs (I) made output number `output`, counted from 0, 0 or 1 in a step of
   tables in binary order: the first L + I bytes of `marks` become "1" for marked and "0" for not, state first, and the
   others stay. With every unmarked place turned to "x" the output keeps its value. `answer` is number (0: explained)
   and place: 17 at 1 if there is no such output, at 2 if it is x; 11 with L + I if `marks` are fewer bytes. */
void golvanzo_explain(const uint64_t *counts /* 7 words */, GOLVANZO_GIVEN, GOLVANZO_SCRATCH, const uint8_t *state,
                      golvanzo_size state_len, const uint8_t *ins, golvanzo_size ins_len, uint64_t output,
                      uint8_t *marks, golvanzo_size marks_len, uint64_t *answer /* 2 words */);

/* Whether every filling, by 0 or 1, of the x of the resets and of `number` input vectors, one after another in
   `bytes` (I bytes each), gives 1 on some output or bad state when stepped from the resets, every constraint being 1
   at that step and at all before. The x of the resets are numbered first; filling k has bit i of k at x number i;
   fillings are tried from 0 up, at most `allowance`. `answer` is number (0: answered; 20: more than 20 x, the place
   is their number), place, 1 for yes, 0 for no or 2 for undecided, and how many were tried. Tables are in binary
   order. */
void golvanzo_witness(const uint64_t *counts /* 7 words */, GOLVANZO_GIVEN, GOLVANZO_SCRATCH, uint64_t number,
                      const uint8_t *bytes, golvanzo_size bytes_len, uint64_t allowance,
                      uint64_t *answer /* 4 words */);

/* The same in three values, with nothing filled, for any number of x: 1 on some output or bad state; `answer` is
   number (0: answered), place and 1 for yes, 0 for no. A yes is one of every filling too; a no need not be. */
void golvanzo_witness3(const uint64_t *counts /* 7 words */, GOLVANZO_GIVEN, GOLVANZO_SCRATCH, uint64_t number,
                       const uint8_t *bytes, golvanzo_size bytes_len, uint64_t *answer /* 3 words */);

/* The needle report of `number` input vectors (I bytes each), stepped from the resets: for each output, then for each
   latch by its state at the start of each step, the steps at 0, at 1, at x, and those whose value differs from the
   step before, in `report`, table 6, of 4 x (O + L) words at least; zero past them, and after a refusal. At most
   65,536 vectors. `answer` is number (0: reported) and place. Tables are in binary order. */
void golvanzo_report(const uint64_t *counts /* 7 words */, GOLVANZO_GIVEN, GOLVANZO_SCRATCH, uint64_t number,
                     const uint8_t *bytes, golvanzo_size bytes_len, uint32_t *report, golvanzo_size n6,
                     uint64_t *answer /* 2 words */);

/* Up to 64 rows at once, of tables in binary order: each row is one input vector, stepped once from the resets. `ins`
   are rows * I bytes, a vector a row; `nexts` (rows * L bytes) and `outs` (rows * O) are written in the same way. The
   second writes no bytes but a report to table 6, of 3 * O words or more: per output the rows at 0, at 1 and at x, and
   zero past them. `answer` is number (0: done) and place: 13 at 64 for more rows; 12 at 1 for the length of `nexts`, at
   2 for `ins`, at 3 for the length of `outs`. */
void golvanzo_rows(const uint64_t *counts /* 7 words */, GOLVANZO_GIVEN, GOLVANZO_SCRATCH, uint64_t rows,
                   uint8_t *nexts, golvanzo_size nexts_len, const uint8_t *ins, golvanzo_size ins_len, uint8_t *outs,
                   golvanzo_size outs_len, uint64_t *answer /* 2 words */);
void golvanzo_report_rows(const uint64_t *counts /* 7 words */, GOLVANZO_GIVEN, GOLVANZO_SCRATCH, uint64_t rows,
                          const uint8_t *ins, golvanzo_size ins_len, uint32_t *report, golvanzo_size n6,
                          uint64_t *answer /* 2 words */);

/* Give gate `gate` of tables in binary order, counted from 0, two right sides, in either order: they are put larger
   first, and no other word of `gates` changes. `values` are the values of a step, M + 1 bytes "0", "1", "x", one for
   each variable and the constant's first; they become those of a step of the edited circuit from the same inputs and
   latches. `answer` is number (0: rewired) and place: 22 for no such gate, 5 at 4 and 15 at 0 for a right side, 12 at 4
   for the length of `values`, 23 at the least variable whose value is wrong. A refusal leaves `gates` and `values` as
   they came. */
void golvanzo_rewire(const uint64_t *counts /* 7 words */, const uint32_t *inputs, golvanzo_size n1,
                     const uint32_t *latches, golvanzo_size n2, const uint32_t *outputs, golvanzo_size n3,
                     uint32_t *gates, golvanzo_size n4, const uint32_t *resets, golvanzo_size n7, const uint32_t *bads,
                     golvanzo_size n8, const uint32_t *constraints, golvanzo_size n9, GOLVANZO_SCRATCH, uint64_t gate,
                     uint32_t rhs0, uint32_t rhs1, uint8_t *values, golvanzo_size values_len,
                     uint64_t *answer /* 2 words */);

#ifdef __cplusplus
}
#endif

#endif
