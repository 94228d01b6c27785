/* One way to name things: an entry of a list by its position, by its letter and position, as o0, or by its name. */
#ifndef ENTRY_H
#define ENTRY_H

#include "symbols.h"

/* A number of digits alone; above every position it does not matter which. 0 if the word is none. */
int read_position(const char *word, uint64_t *number);

/* The entry of a list that a word names, a position before a name; of two with one name the first. 0 if there is none. */
int find_entry(const struct plan *plan, const struct names *names, int list, const char *word, uint64_t *entry);

/* The literal that a word names: a number is one, and input i0, latch l0, variable v7 and the name of an input or a latch have
   one; "!" before these negates. Above every literal it does not matter which. 0 if the word names none. */
int find_literal(const struct plan *plan, const struct names *names, const char *word, uint32_t *literal);

/* An entry by its name, with its letter and position, or by these alone. */
void print_entry(const struct names *names, int list, uint64_t entry, FILE *to);

#endif
