/* A run: a plan stepped from its resets, a vector at a time. */
#ifndef RUN_H
#define RUN_H

#include "symbols.h"

/* Bad states and constraints are observed beside the outputs. The library steps outputs alone, so that a view is a plan whose
   outputs are such a list, or the outputs. Its tables are the plan's, its scratch is its own. */
struct plan view_of(const struct plan *plan, int list);
void free_view(struct plan *view);

/* The lists that views are of, in the order of a run's views. */
enum { VIEW_BADS, VIEW_CONSTRAINTS, VIEWS };
static inline int view_list(int view) { return NAMED_BADS + view; }

/* One step of a run: its number, and the bytes before and after it. With `all` the bad states and the constraints are looked at
   too. What is beside, if anything is, sees every step and says whether it parts from it; the run ends there. */
struct run {
    uint64_t step;
    uint8_t *state, *next, *outputs, *seen[VIEWS];
    const uint8_t *inputs;
    struct plan views[VIEWS];
    int all, parted;
    int (*parts)(struct plan *plan, const struct run *run, struct plan_end end);
    void *beside;
};

/* Room for a run's bytes, and its first state in `next`; 0 without memory. It is given back either way. */
int begin_run(const struct plan *plan, struct run *run);
void end_run(struct run *run);

/* The next step, with these inputs: what was next is the state. */
struct plan_end next_step(struct plan *plan, struct run *run, const uint8_t *inputs);

/* How many entries a view has. */
static inline uint64_t view_entries(const struct plan *plan, int view) { return entries(plan, view_list(view)); }

/* trace.c: a run over the vectors of a request, each step written. */
int trace(const struct request *request, const struct source *file, struct plan *plan, struct run *run);

#endif
