/* Circuits made in memory, and the orders that their gates are put in. */
#ifndef CIRCUIT_H
#define CIRCUIT_H

#include <stddef.h>
#include <stdint.h>

enum { M, I, L, O, A, B, C, COUNTS };
enum { INPUTS, LATCHES, OUTPUTS, GATES, RESETS, BADS, CONSTRAINTS, CIRCUIT };

/* Every reset is 0, and there are no bad states and no constraints. */
struct circuit {
    uint64_t counts[COUNTS];
    uint32_t *table[CIRCUIT];
    size_t length[CIRCUIT];
};

_Noreturn void give_up(const char *why);

/* Memory that is zero; both sides of every comparison work in it. */
void *room(size_t bytes);
uint32_t below(uint32_t n);

struct circuit tables_for(const uint64_t *counts);
void free_circuit(struct circuit *c);

/* Circuits in binary order: I = L = O = a fiftieth of the gates. */
struct circuit random_circuit(uint32_t gates, uint32_t copies);
struct circuit chain_circuit(uint32_t gates);
struct circuit tower_circuit(uint32_t gates);
struct circuit braid_circuit(uint32_t gates);
struct circuit colliding_circuit(uint32_t gates);
struct circuit crowded_circuit(uint32_t gates);
struct circuit star_circuit(uint32_t gates);

/* Orders: at place k of the file stands gate order[k]. */
uint32_t *in_order(uint32_t n);
uint32_t *reversed(uint32_t n);
uint32_t *shuffled(uint32_t n);
uint32_t *from_both_ends(uint32_t n);
uint32_t *two_halves(uint32_t n);

/* The same circuit with its gates in this order; gate i is named by the variable of gate name[i]. */
struct circuit arranged(const struct circuit *c, const uint32_t *order, const uint32_t *name);

#endif
