/* A waveform of a run: a value change dump (IEEE 1364), as GTKWave and others read it. */
#ifndef VCD_H
#define VCD_H

#include "run.h"

/* The values that the waveform showed last: of so many lists, which are inputs, latches, outputs, and with all also bad states
   and constraints. */
struct wave {
    uint8_t *shown;
    int lists;
};

/* Writes the names of all that is shown; x is x. */
int begin_wave(struct wave *wave, const struct plan *plan, int all, FILE *to);

/* Writes what a step changes; after the last step, the state that it left. */
void print_changes(const struct wave *wave, const struct plan *plan, const struct run *run, FILE *to);
void print_wave_end(const struct wave *wave, const struct plan *plan, const struct run *run, FILE *to);
void free_wave(struct wave *wave);

#endif
