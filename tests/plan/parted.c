/* Stands in the place of the plain engine (the linker's --wrap): from its third step on it gives another state, other outputs
   or another answer than the library, as PARTS says. */
#include <stdlib.h>
#include <string.h>

#include "golvanzo.h"

void __real_golvanzo_step_plain(const uint64_t *counts, GOLVANZO_GIVEN, GOLVANZO_SCRATCH, uint8_t *state,
                                size_t state_len, const uint8_t *ins, size_t ins_len, uint8_t *outs, size_t outs_len,
                                uint64_t *answer);

static int parts_in(const char *what) {
    const char *asked = getenv("PARTS");
    return asked != NULL && strcmp(asked, what) == 0;
}

void __wrap_golvanzo_step_plain(const uint64_t *counts, GOLVANZO_GIVEN, GOLVANZO_SCRATCH, uint8_t *state,
                                size_t state_len, const uint8_t *ins, size_t ins_len, uint8_t *outs, size_t outs_len,
                                uint64_t *answer) {
    static int steps;
    __real_golvanzo_step_plain(counts, inputs, n1, latches, n2, outputs, n3, gates, n4, resets, n7, bads, n8,
                               constraints, n9, scratch, n5, state, state_len, ins, ins_len, outs, outs_len, answer);
    if (answer[0] != 0 || ++steps < 3)
        return;
    if (parts_in("state"))
        state[state_len - 1] = '?';
    if (parts_in("outputs"))
        outs[outs_len - 1] = '?';
    if (parts_in("answer"))
        answer[0] = 12;
}
