/* The baseline: the same work in plain scalar C, as a yardstick. It trusts headers and the tables that it is given, and
   clears none of them. Readers come without checks and with all of them; a refusal is NULL and has no name. */
#ifndef BASELINE_H
#define BASELINE_H

#include "circuit.h"

typedef const uint8_t *place;

/* What the baseline works on besides the circuit's tables. */
struct base {
    uint8_t *kind; /* of a variable: 0 undefined, 1 input or latch, 2 gate */
    uint32_t *number, *waits, *start, *users, *queue;
    uint32_t *slots, mask, retained;
    uint8_t *value;
    uint64_t *plane; /* of a literal: the rows in which it may be 1 */
};

struct base base_for(const uint64_t *counts);
void free_base(struct base *b);

/* Binary, whole files: without checks, and with every check that the format asks. */
place decode(place p, struct circuit *c);
place decodec(place file, place end, struct circuit *c);

/* Text, whole files: without checks; with all. A cycle is looked for unless the file is in topological order; where
   `quick`, also not if every gate's variable is larger than its sides'. */
place text(place p, struct circuit *c);
place textc(place file, place end, struct base *b, struct circuit *c, int quick);

/* The file's bytes, and how many. */
size_t print(const struct circuit *c, uint8_t *out);
size_t encode(const struct circuit *c, uint8_t *out);

void convert(struct base *b, const struct circuit *c, struct circuit *to);

/* Structural hashing of one level; how many gates are left is in `retained`. */
void strash(struct base *b, const struct circuit *c, struct circuit *to);
void used(struct base *b, const struct circuit *c, struct circuit *to);

/* One step in three values. */
void step3(struct base *b, const struct circuit *c, uint8_t *state, const uint8_t *ins, uint8_t *outs);

/* Four numbers for each value: at 0, at 1, at x, and how often it differs from the one before, if there is one. */
void count3(uint32_t *numbers, const uint8_t *values, const uint8_t *before, size_t length);

/* 64 rows in lanes, each one step from the state of zeros: their bytes, or per output the rows at 0, 1 and x. */
void lanes(struct base *b, const struct circuit *c, const uint8_t *ins, uint8_t *nexts, uint8_t *outs);
void lane_counts(struct base *b, const struct circuit *c, const uint8_t *ins, uint32_t *report);

#endif
