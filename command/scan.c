#include "scan.h"

#include <stdlib.h>
#include <string.h>

#include "say.h"
#include "symbols.h"

enum { COUNT_M, COUNT_I, COUNT_L, COUNT_O, COUNT_A, COUNT_B, COUNT_C };

static int digit_at(const struct source *source, size_t at) {
    return at < source->length && '0' <= source->at[at] && source->at[at] <= '9';
}

size_t digits_at(const struct source *source, size_t at) {
    size_t end = at;
    while (digit_at(source, end))
        end++;
    return end > at ? end - at : 1;
}

uint64_t number_at(const struct source *source, size_t at) {
    uint64_t value = 0;
    for (; digit_at(source, at); at++)
        value = value > INT64_MAX / 16 ? INT64_MAX : 10 * value + (uint64_t)(source->at[at] - '0');
    return value;
}

/* The place of the next new line, or the file's end. */
static size_t line_end(const struct source *source, size_t from) {
    const uint8_t *end = from < source->length ? memchr(source->at + from, '\n', source->length - from) : NULL;
    return end == NULL ? source->length : (size_t)(end - source->at);
}

uint64_t line_at(const struct source *source, size_t place) {
    uint64_t line = 1;
    for (size_t end = line_end(source, 0); end < place && end < source->length; end = line_end(source, end + 1))
        line++;
    return line;
}

static uint64_t count_of(const struct scan *scan, enum section section) {
    static const int counts[TAIL] = {-1, COUNT_I, COUNT_L, COUNT_O, COUNT_B, COUNT_C, COUNT_A};
    int bare = scan->binary && (section == INPUTS || section == GATES);
    return bare ? 0 : scan->counts[counts[section]];
}

/* Where the difference at a place ends: after its first byte below 128, or at the file's end. */
static size_t difference_end(const struct source *source, size_t at) {
    while (at < source->length && source->at[at] >= 128)
        at++;
    return at < source->length ? at + 1 : at;
}

/* Past all lines of literals, then past the differences of a binary file. */
static void find_tail(struct scan *scan) {
    struct row row = {.line = 0};
    scan->gates = scan->body;
    while (next_row(scan, &row))
        scan->gates = row.end < scan->of->length ? row.end + 1 : row.end;
    scan->tail = scan->gates;
    for (uint64_t left = scan->binary ? 2 * scan->counts[COUNT_A] : 0; left > 0 && scan->tail < scan->of->length;
         left--)
        scan->tail = difference_end(scan->of, scan->tail);
}

struct scan scan_of(const struct source *source) {
    struct scan scan = {.of = source, .binary = source->length > 1 && source->at[1] == 'i'};
    size_t at = 4;
    scan.header = line_end(source, 0);
    while (scan.known < ALL_COUNTS && at < scan.header && digit_at(source, at)) {
        scan.counts[scan.known] = number_at(source, at);
        scan.count_at[scan.known++] = at;
        at += digits_at(source, at) + 1;
    }
    scan.body = scan.header < source->length ? scan.header + 1 : scan.header;
    find_tail(&scan);
    return scan;
}

static void read_fields(const struct scan *scan, struct row *row) {
    size_t at = row->start;
    row->end = line_end(scan->of, row->start);
    for (row->fields = 0; row->fields < FIELDS && at < row->end && digit_at(scan->of, at); row->fields++) {
        row->at[row->fields] = at;
        row->value[row->fields] = number_at(scan->of, at);
        at += digits_at(scan->of, at) + 1;
    }
}

int next_row(const struct scan *scan, struct row *row) {
    if (row->line == 0)
        *row = (struct row){.section = INPUTS, .line = 2, .start = scan->body};
    else
        row->entry++, row->line++, row->start = row->end + 1;
    while (row->section < TAIL && row->entry >= count_of(scan, row->section))
        row->section++, row->entry = 0;
    if (row->section == TAIL || row->start >= scan->of->length)
        return 0;
    read_fields(scan, row);
    return 1;
}

int row_at(const struct scan *scan, size_t place, struct row *row) {
    *row = (struct row){.line = 0};
    while (next_row(scan, row))
        if (place <= row->end)
            return place >= row->start;
    row->start = row->end = place;
    return row->section < TAIL && place == scan->of->length;
}

int defining_field(const struct scan *scan, const struct row *row) {
    int defines = row->section == INPUTS || row->section == LATCHES || row->section == GATES;
    return defines && !scan->binary ? 0 : -1;
}

int reset_field(const struct scan *scan, const struct row *row) {
    return row->section == LATCHES ? 2 - scan->binary : -1;
}

void numbers_of(const struct scan *scan, enum section section, int *must, int *may) {
    *must = section == HEADER ? 5 : section == GATES ? 3 : section == LATCHES ? 2 - scan->binary : 1;
    *may = section == HEADER ? ALL_COUNTS : section == LATCHES ? *must + 1 : *must;
}

/* The value of groups of seven bits, the low one first; more than fit are left off. */
static uint64_t groups_value(const struct scan *scan, size_t at, size_t length) {
    uint64_t value = 0;
    for (size_t k = 0; k < length && k < 8; k++)
        value |= (uint64_t)(scan->of->at[at + k] & 127) << 7 * k;
    return value;
}

static int is_whole(const struct scan *scan, const struct difference *d) {
    return d->length > 0 && scan->of->at[d->at + d->length - 1] < 128;
}

int difference_at(const struct scan *scan, size_t place, struct difference *d) {
    uint64_t first = scan->counts[COUNT_I] + scan->counts[COUNT_L] + 1;
    *d = (struct difference){.at = scan->gates};
    if (!scan->binary || place < scan->gates)
        return 0;
    for (; d->gate < scan->counts[COUNT_A]; d->gate += (uint64_t)d->second, d->second = !d->second) {
        d->length = difference_end(scan->of, d->at) - d->at;
        d->value = groups_value(scan, d->at, d->length);
        d->literal = 2 * (first + d->gate);
        d->from = d->second ? d->from : d->literal;
        if (place < d->at + d->length || !is_whole(scan, d))
            return 1;
        d->from -= d->value;
        d->at += d->length;
    }
    return 0;
}

/* The symbol of an entry, among those that stand in order at the tail's start. */
static int find_symbol(const struct scan *scan, int list, uint64_t entry, struct symbol *symbol) {
    size_t at = scan->tail;
    while (next_symbol(scan->of->at, scan->of->length, &at, symbol))
        if (symbol->list == list && symbol->entry == entry)
            return 1;
    return 0;
}

const char *entry_name(const struct scan *scan, enum section section, uint64_t entry) {
    enum { TURNS = 4, ROOM = 120, LONGEST = 60 };
    static char kept[TURNS][ROOM];
    static int turn;
    struct symbol symbol;
    char *to = kept[turn++ % TURNS];
    const char *noun = section == GATES ? "gate" : nouns[section - INPUTS];
    int used = snprintf(to, ROOM, "%s %llu", noun, (unsigned long long)entry);
    if (section == GATES || !find_symbol(scan, (int)section - INPUTS, entry, &symbol))
        return to;
    char name[LONGEST + 1];
    show_bytes(name, sizeof name, symbol.name, symbol.length);
    snprintf(to + used, ROOM - (size_t)used, " (\"%s%s\")", name, symbol.length > LONGEST ? "..." : "");
    return to;
}
