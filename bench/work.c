#include "work.h"

#include <stdlib.h>
#include <string.h>

static void put_any(uint8_t *values, uint64_t length) {
    for (uint64_t i = 0; i < length; i++)
        values[i] = (uint8_t) "01x"[below(3)];
}

static size_t report_length(const uint64_t *counts) { return 4 * (counts[O] + counts[L]); }

struct work work_on(struct circuit given) {
    const uint64_t *n = given.counts;
    struct work w = {.given = given, .made = tables_for(n), .base_made = tables_for(n), .base = base_for(n)};
    w.scratch_length = 4 * (n[M] + 1) + n[O] + n[B] + n[C];
    w.scratch = room(4 * w.scratch_length);
    w.out_length = 100 + 16 * (n[I] + n[L] + n[O]) + 24 * n[A];
    w.file = room(w.out_length);
    w.out = room(w.out_length);
    w.state = room(n[L]);
    w.ins = room(STEPS * n[I]);
    w.few = room(n[I]);
    w.outs = room(n[O]);
    w.row_ins = room(ROWS * n[I]);
    w.row_nexts = room(ROWS * n[L]);
    w.row_outs = room(ROWS * n[O]);
    w.report = room(4 * report_length(n));
    w.base_report = room(4 * report_length(n));
    memset(w.state, '0', n[L]);
    put_any(w.ins, STEPS * n[I]);
    put_any(w.row_ins, ROWS * n[I]);
    for (uint32_t i = 0; i < n[I]; i++)
        w.few[i] = i < FEW_X ? 'x' : (uint8_t) "01"[below(2)];
    return w;
}

void free_work(struct work *w) {
    free_circuit(&w->given), free_circuit(&w->made), free_circuit(&w->base_made);
    free(w->scratch), free(w->file), free(w->out), free(w->state), free(w->ins), free(w->few), free(w->outs);
    free(w->row_ins), free(w->row_nexts), free(w->row_outs), free(w->report), free(w->base_report);
    free_base(&w->base);
}

/* With as much scratch as the desk question names, as a caller would. */
void desk_read(struct work *w) {
    size_t words = (size_t)golvanzo_words(w->file, w->file_length, 5);
    golvanzo_read(w->file, w->file_length, TABLES(w->made), w->scratch, words, w->answer);
}

void base_decode(struct work *w) {
    if (decode(w->file, &w->base_made) != w->file + w->file_length)
        give_up("decode stops elsewhere");
}

void base_decodec(struct work *w) {
    if (decodec(w->file, w->file + w->file_length, &w->base_made) != w->file + w->file_length)
        give_up("decodec refuses");
}

void base_text(struct work *w) {
    if (text(w->file, &w->base_made) != w->file + w->file_length)
        give_up("text stops elsewhere");
}

void base_textc(struct work *w) {
    if (textc(w->file, w->file + w->file_length, &w->base, &w->base_made, 0) != w->file + w->file_length)
        give_up("textc refuses");
}

void base_textq(struct work *w) {
    if (textc(w->file, w->file + w->file_length, &w->base, &w->base_made, 1) != w->file + w->file_length)
        give_up("textq refuses");
}

void desk_check(struct work *w) { golvanzo_check(w->given.counts, TABLES(w->given), SCRATCH(w), w->answer); }

void desk_write_text(struct work *w) {
    golvanzo_write_text(w->given.counts, TABLES(w->given), SCRATCH(w), NULL, 0, w->out, w->out_length, w->answer);
}

void base_print(struct work *w) { w->file_length = print(&w->given, w->file); }

void desk_write_binary(struct work *w) {
    golvanzo_write_binary(w->given.counts, TABLES(w->given), SCRATCH(w), NULL, 0, w->out, w->out_length, w->answer);
}

void base_encode(struct work *w) { w->file_length = encode(&w->given, w->file); }

void desk_convert(struct work *w) {
    golvanzo_convert(w->given.counts, TABLES(w->given), TABLES(w->made), SCRATCH(w), w->answer);
}

void base_convert(struct work *w) { convert(&w->base, &w->given, &w->base_made); }

void desk_reduce(struct work *w) {
    golvanzo_reduce(w->given.counts, TABLES(w->given), TABLES(w->made), SCRATCH(w), w->answer);
}

void base_strash(struct work *w) { strash(&w->base, &w->given, &w->base_made); }

void desk_drop(struct work *w) {
    golvanzo_drop(w->given.counts, TABLES(w->given), TABLES(w->made), SCRATCH(w), w->answer);
}

void base_used(struct work *w) { used(&w->base, &w->given, &w->base_made); }

void desk_step(struct work *w) {
    golvanzo_step(w->given.counts, TABLES(w->given), SCRATCH(w), w->state, w->given.counts[L], w->ins,
                  w->given.counts[I], w->outs, w->given.counts[O], w->answer);
}

void desk_ones(struct work *w) {
    memset(w->state, '1', w->given.counts[L]);
    desk_step(w);
}

void desk_explain(struct work *w) {
    const uint64_t *n = w->given.counts;
    memset(w->state, '1', n[L]);
    golvanzo_explain(n, TABLES(w->given), SCRATCH(w), w->state, n[L], w->ins, n[I], 0, w->out, n[L] + n[I], w->answer);
}

void base_step3(struct work *w) { step3(&w->base, &w->given, w->state, w->ins, w->outs); }

void desk_rows(struct work *w) {
    const uint64_t *n = w->given.counts;
    golvanzo_rows(n, TABLES(w->given), SCRATCH(w), ROWS, w->row_nexts, ROWS * n[L], w->row_ins, ROWS * n[I],
                  w->row_outs, ROWS * n[O], w->answer);
}

void base_lanes(struct work *w) { lanes(&w->base, &w->given, w->row_ins, w->row_nexts, w->row_outs); }

void desk_report_rows(struct work *w) {
    const uint64_t *n = w->given.counts;
    golvanzo_report_rows(n, TABLES(w->given), SCRATCH(w), ROWS, w->row_ins, ROWS * n[I], w->report, 3 * n[O],
                         w->answer);
}

void base_lane_counts(struct work *w) { lane_counts(&w->base, &w->given, w->row_ins, w->base_report); }

void desk_witness3(struct work *w) {
    golvanzo_witness3(w->given.counts, TABLES(w->given), SCRATCH(w), STEPS, w->ins, STEPS * w->given.counts[I],
                      w->answer);
}

void base_steps(struct work *w) {
    memset(w->state, '0', w->given.counts[L]);
    for (int k = 0; k < STEPS; k++)
        step3(&w->base, &w->given, w->state, w->ins + k * w->given.counts[I], w->outs);
}

void desk_witness(struct work *w) {
    golvanzo_witness(w->given.counts, TABLES(w->given), SCRATCH(w), 1, w->few, w->given.counts[I], FILLINGS, w->answer);
}

/* Filling k of one vector has bit i of k at x number i. */
void base_fillings(struct work *w) {
    const uint64_t *n = w->given.counts;
    for (uint32_t k = 0; k < FILLINGS; k++) {
        uint32_t x = 0;
        memset(w->state, '0', n[L]);
        for (uint64_t i = 0; i < n[I]; i++)
            w->out[i] = w->few[i] == 'x' ? (uint8_t)('0' + (k >> x++ & 1)) : w->few[i];
        step3(&w->base, &w->given, w->state, w->out, w->outs);
    }
}

void desk_report(struct work *w) {
    const uint64_t *n = w->given.counts;
    golvanzo_report(n, TABLES(w->given), SCRATCH(w), STEPS, w->ins, STEPS * n[I], w->report, report_length(n),
                    w->answer);
}

/* The steps of base_steps, each counted from its bytes. */
void base_count3(struct work *w) {
    const uint64_t *n = w->given.counts;
    uint32_t *outs = w->base_report, *latches = outs + 4 * n[O];
    uint8_t *outs_before = w->out, *state_before = w->out + n[O];
    memset(outs, 0, 4 * report_length(n));
    memset(w->state, '0', n[L]);
    for (int k = 0; k < STEPS; k++) {
        count3(latches, w->state, k == 0 ? NULL : state_before, n[L]);
        memcpy(state_before, w->state, n[L]);
        step3(&w->base, &w->given, w->state, w->ins + k * n[I], w->outs);
        count3(outs, w->outs, k == 0 ? NULL : outs_before, n[O]);
        memcpy(outs_before, w->outs, n[O]);
    }
}

void desk_file(struct work *w) {
    uint64_t counts[COUNTS];
    desk_read(w);
    memcpy(counts, w->answer + 2, sizeof counts);
    golvanzo_convert(counts, TABLES(w->made), TABLES(w->base_made), SCRATCH(w), w->answer);
    memcpy(counts, w->answer + 2, sizeof counts);
    golvanzo_write_binary(counts, TABLES(w->base_made), SCRATCH(w), NULL, 0, w->out, w->out_length, w->answer);
}

void base_file(struct work *w) {
    if (textc(w->file, w->file + w->file_length, &w->base, &w->made, 1) != w->file + w->file_length)
        give_up("textq refuses");
    convert(&w->base, &w->made, &w->base_made);
    w->base_length = encode(&w->base_made, w->out);
}

void clear_scratch(struct work *w) {
    memset(w->scratch, 0, 4 * w->scratch_length);
    __asm__ volatile("" ::: "memory");
}

void clear_written(struct work *w) {
    clear_scratch(w);
    for (int t = 0; t < CIRCUIT; t++)
        memset(w->made.table[t], 0, 4 * w->made.length[t]);
    __asm__ volatile("" ::: "memory");
}
