/* What a call is lent, and the calls: each of the desk's beside the same work of the baseline. */
#ifndef WORK_H
#define WORK_H

#include "baseline.h"
#include "circuit.h"
#include "golvanzo.h"

/* Steps of one list; x of one vector, and the fillings of it; rows at once. */
enum { STEPS = 8, FEW_X = 8, FILLINGS = 1 << FEW_X, ROWS = 64 };

struct work {
    struct circuit given, made, base_made;
    uint32_t *scratch;
    size_t scratch_length, file_length, out_length, base_length;
    uint8_t *file, *out, *state, *ins, *few, *outs;
    uint8_t *row_ins, *row_nexts, *row_outs; /* of ROWS rows */
    uint32_t *report, *base_report;          /* of a list, and the shorter ones of rows */
    uint64_t answer[2 + COUNTS];
    struct base base;
};

#define TABLE(c, t) (c).table[t], (c).length[t]
#define TABLES(c)                                                                                                      \
    TABLE(c, INPUTS), TABLE(c, LATCHES), TABLE(c, OUTPUTS), TABLE(c, GATES), TABLE(c, RESETS), TABLE(c, BADS),         \
        TABLE(c, CONSTRAINTS)
#define SCRATCH(w) (w)->scratch, (w)->scratch_length

struct work work_on(struct circuit given);
void free_work(struct work *w);

typedef void call(struct work *);

/* The desk. desk_file reads a text file, converts it and writes it as binary; desk_ones steps from a state of 1, of
   which desk_explain explains the first output. */
call desk_read, desk_check, desk_write_text, desk_write_binary, desk_convert, desk_reduce, desk_drop, desk_step,
    desk_ones, desk_explain, desk_rows, desk_report_rows, desk_witness, desk_witness3, desk_report, desk_file;

/* The baseline; a reader that refuses ends the run. */
call base_decode, base_decodec, base_text, base_textc, base_textq, base_print, base_encode, base_convert, base_strash,
    base_used, base_step3, base_lanes, base_lane_counts, base_steps, base_fillings, base_count3, base_file;

/* What the contracts ask to be cleared: the scratch, and the tables that are written. */
call clear_scratch, clear_written;

#endif
