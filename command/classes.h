/* The gates of two plans in classes: two variables are in one if they are the same input or latch by position, or gates of the same
   sides, by their classes. */
#ifndef CLASSES_H
#define CLASSES_H

#include "command.h"

/* By plan and variable, a class; by class, 1 if the first plan has it, 2 if the second has, 3 if both have. */
struct classes {
    uint32_t *of[2];
    uint8_t *in;
};

/* Plans in binary order with as many inputs and as many latches. 0 without memory; to be given back either way. */
int put_in_classes(const struct plan *first, const struct plan *second, struct classes *classes);
void free_classes(struct classes *classes);

/* A literal with the class in the place of its variable. */
uint32_t class_literal(const struct classes *classes, int side, uint32_t literal);

#endif
