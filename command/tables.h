/* The tables of a plan, once: their numbers and names of the paper, the count that each goes by, the words of an entry. */
#ifndef TABLES_H
#define TABLES_H

#include "../c/golvanzo.h"
#include "../c/plan.h"

/* `at` is the table's place in a plan; PLAN_TABLES is scratch, which has no entries. */
struct table {
    enum golvanzo_table number;
    int at, count, words;
    const char *name;
};

/* In the order of the numbers. A plan has no table 6. */
enum { TABLES = PLAN_TABLES + 1 };
extern const struct table tables[TABLES];

/* The letters of the counts, M I L O A B C. */
extern const char *const count_letters[PLAN_COUNTS];

/* What a count counts: "variables", "inputs" and so on. */
extern const char *const count_nouns[PLAN_COUNTS];

#endif
