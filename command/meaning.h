/* What each refusal means and what to do about it. docs/REFUSALS.md says the same. */
#ifndef MEANING_H
#define MEANING_H

#include <stdint.h>
#include <stdio.h>

/* Whether there is a refusal of this number. */
int is_refusal(uint64_t number);

/* Prints one, by its number, or all. */
void print_meaning(FILE *to, uint64_t number);
void print_meanings(FILE *to);

#endif
