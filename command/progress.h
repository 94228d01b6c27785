/* A line on a terminal that says how far the work is, where that takes over a second; gone when it is done. */
#ifndef PROGRESS_H
#define PROGRESS_H

#include <stddef.h>

/* Before the first of so many. */
void progress_begin(size_t all);

/* Number k, from 0, is next, with this name. */
void progress_at(size_t k, const char *name);

/* Before anything else is written to the terminal, and at the end. */
void progress_clear(void);

#endif
