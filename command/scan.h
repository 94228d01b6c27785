/* A refused file, looked at again for people: which line, which entry, which number stands at a place. The library has
   judged it by then; nothing is judged here, and every byte may be wrong. */
#ifndef SCAN_H
#define SCAN_H

#include "command.h"

enum section { HEADER, INPUTS, LATCHES, OUTPUTS, BADS, CONSTRAINTS, GATES, TAIL };
enum { ALL_COUNTS = 9, FIELDS = 3 };

/* The counts M I L O A B C J F with their places, `known` of them; where the header's line ends, where the lines after it
   start, where the differences of a binary file do, and where the tail does. `before` is how many lines came before the bytes. */
struct scan {
    const struct source *of;
    int binary, known;
    uint64_t counts[ALL_COUNTS];
    size_t count_at[ALL_COUNTS], header, body, gates, tail;
    uint64_t before;
};

struct scan scan_of(const struct source *source);

/* A line of literals: its section and place in it, its number, its bytes, and its first numbers with their places. */
struct row {
    enum section section;
    uint64_t entry, line;
    size_t start, end;
    int fields;
    size_t at[FIELDS];
    uint64_t value[FIELDS];
};

/* The next line after a row, the first after one that is all zero; 0 if there is none. A binary file's gates are no lines. */
int next_row(const struct scan *scan, struct row *row);

/* The row that a place lies in, its end included, or that should start where the file ends; 0 if there is none. */
int row_at(const struct scan *scan, size_t place, struct row *row);

/* Which of a row's literals defines (or -1), and which is a reset (or -1). */
int defining_field(const struct scan *scan, const struct row *row);
int reset_field(const struct scan *scan, const struct row *row);

/* How many numbers a line must and may have. */
void numbers_of(const struct scan *scan, enum section section, int *must, int *may);

/* A difference of a binary file: the gate's number, 0 for the first and 1 for the second, what it is taken from, its bytes
   and its value; `literal` is the gate's left side. */
struct difference {
    uint64_t gate, from, value, literal;
    int second;
    size_t at, length;
};

/* The difference that a place lies in or that the file's end cuts off; 0 if it lies in none. */
int difference_at(const struct scan *scan, size_t place, struct difference *difference);

/* The name of an entry, as it is said: its noun, its place, its symbol's name. Kept until some further calls. */
const char *entry_name(const struct scan *scan, enum section section, uint64_t entry);

/* The length of the number at a place, at least 1; the number, cut at 2^63. */
size_t digits_at(const struct source *source, size_t at);
uint64_t number_at(const struct source *source, size_t at);

/* The number of the line that a place lies in, from 1. */
uint64_t line_at(const struct source *source, size_t place);

#endif
