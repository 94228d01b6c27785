/* Two plans compared. */
#ifndef SAME_H
#define SAME_H

#include "differ.h"

/* Both plans, whether they are the same, and if not how they differ. */
struct comparison {
    struct side sides[2];
    struct differences differences;
    int same;
};

/* Reads, converts and compares two files. What is refused is said; the status is FAILED then. To be given back either way. */
int compare(const struct request *request, const char *first, const char *second, struct comparison *comparison);
void free_comparison(struct comparison *comparison);

/* The object of a comparison. */
void print_compared(const struct comparison *comparison, FILE *to);

#endif
