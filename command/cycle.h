#ifndef CYCLE_H
#define CYCLE_H

#include "scan.h"

/* Refusal 8: says the gate that it names, then the gates of one cycle in order, each taking the next. */
void say_cycle(const struct scan *scan, struct plan_end end);

#endif
