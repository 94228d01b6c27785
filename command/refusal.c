/* Refusals as a compiler says them. The number and the place are the library's; the sentence is found in the file. */
#include <stdlib.h>
#include <string.h>

#include "command.h"
#include "cycle.h"
#include "mend.h"
#include "say.h"
#include "symbols.h"

typedef unsigned long long ull;

struct refusal {
    struct scan scan;
    struct plan_end end;
};

static const char *const count_names[ALL_COUNTS] = {"M", "I", "L", "O", "A", "B", "C", "J", "F"};

/* The number at a place, with its digits to be marked. */
static struct spot number_spot(const struct refusal *r, size_t at) {
    return (struct spot){at, digits_at(r->scan.of, at)};
}

/* A number as it stands in the file, which may have more digits than any number here. */
static const char *number_text(const struct refusal *r, struct spot spot) {
    static char text[48];
    show_bytes(text, spot.width < 40 ? spot.width + 1 : 41, r->scan.of->at + spot.at, spot.width);
    if (spot.width > 40)
        strcat(text, "...");
    return text;
}

/* The count whose number stands at a place; the first if none does. */
static int count_at(const struct scan *scan, size_t place) {
    for (int k = 0; k < scan->known; k++)
        if (scan->count_at[k] == place)
            return k;
    return 0;
}

/* What may follow a number of a line, or the number itself. */
static const char *expected_number(const struct scan *scan, enum section section, size_t start, size_t place) {
    int must, may, fields = 1;
    numbers_of(scan, section, &must, &may);
    if (place == start || scan->of->at[place - 1] == ' ')
        return "a number";
    for (size_t k = start; k < place; k++)
        fields += scan->of->at[k] == ' ';
    return fields < must ? "a space" : fields == may ? "a new line" : "a space or a new line";
}

/* The line of the tail that a place lies in: where it starts, and whether a comment was opened before it. */
static size_t tail_line(const struct scan *scan, size_t place, int *comment) {
    struct symbol symbol;
    size_t at = scan->tail, start = at;
    while (at < place && next_symbol(scan->of->at, place, &at, &symbol))
        start = at;
    *comment = place > start + 1 && memcmp(scan->of->at + start, "c\n", 2) == 0;
    return start;
}

static const char *expected_in_tail(const struct scan *scan, size_t place) {
    const uint8_t *file = scan->of->at;
    int comment;
    size_t start = tail_line(scan, place, &comment), digits = start + 1 + digits_at(scan->of, start + 1);
    if (comment)
        return "a new line";
    if (place == start)
        return "\"i\", \"l\", \"o\", \"b\", \"c\" or the end of the file";
    if (place == start + 1)
        return file[start] == 'c' ? "a new line or a position" : "a position";
    return place <= digits ? "a space" : "a printable character or a new line";
}

/* Where "plan mend" takes it right, that is said. Of a file whose first bytes are refused no more than these was read. */
static void say_mendable(const struct refusal *r) {
    struct mended mended;
    struct plan plan;
    int all = mend(r->scan.of, &mended) && mended.number > 0;
    const struct change *first = mended.changes;
    if (all && (first->kind > CARRIAGE_RETURNS || first->at != r->end.place)) {
        all = plan_read(&plan, mended.at, mended.length).number == 0;
        plan_free(&plan);
    }
    if (all)
        say_more("%s: \"plan mend %s\" %s", change_why(first->kind), typed_name(r->scan.of), change_done(first->kind));
    free_mended(&mended);
}

static int is_digit(const struct source *file, size_t at) {
    return at < file->length && '0' <= file->at[at] && file->at[at] <= '9';
}

/* Whether the byte is a digit after a 0 that begins a number. */
static int after_zero(const struct source *file, size_t at) {
    return at > 1 && is_digit(file, at) && file->at[at - 1] == '0' && !is_digit(file, at - 2);
}

static int is_empty_line(const struct scan *scan, size_t at) {
    const struct source *file = scan->of;
    return at < file->length && at > 0 && file->at[at] == '\n' && (file->at[at - 1] == '\n' || at == scan->tail);
}

static void say_expected(const struct refusal *r, const char *where, const char *expected) {
    const struct source *file = r->scan.of;
    struct spot spot = {(size_t)r->end.place, 1};
    if (after_zero(file, spot.at))
        say_refused(&r->scan, r->end, spot, "in %s a number has a leading zero", where);
    else if (is_empty_line(&r->scan, spot.at))
        say_refused(&r->scan, r->end, spot, "in %s %s must stand here, but the line is empty", where, expected);
    else
        say_refused(&r->scan, r->end, spot, "in %s %s must stand here, not %s", where, expected,
                    byte_name(file, spot.at));
    say_mendable(r);
}

/* The first four bytes are those of every file. */
static void say_wrong_start(const struct refusal *r) {
    const struct source *file = r->scan.of;
    size_t place = (size_t)r->end.place;
    if (file->length == 0)
        say_refused_of(file->name, r->end, "the file is empty; a plan starts with \"aag \" or \"aig \"");
    else
        say_refused(&r->scan, r->end, (struct spot){place, 1},
                    "a file starts with \"aag \" or \"aig \"; here stands %s", byte_name(file, place));
    if (file->length > 1 && memcmp(file->at, "PH", 2) == 0)
        say_more("this looks like plan cards: \"plan file\" makes a plan of them");
    say_mendable(r);
}

static const char *which_difference(const struct difference *d) { return d->second ? "second" : "first"; }

/* A file that ends among its gates. */
static void say_cut_off(const struct refusal *r, const struct difference *d) {
    say_refused(&r->scan, r->end, (struct spot){(size_t)r->end.place, 1},
                "the file ends %s the %s difference of %s, and A is %llu", d->length > 0 ? "in" : "before",
                which_difference(d), entry_name(&r->scan, GATES, d->gate), (ull)r->scan.counts[PLAN_A]);
}

static void say_wrong_byte(const struct refusal *r) {
    const struct scan *scan = &r->scan;
    size_t place = (size_t)r->end.place;
    struct difference d;
    struct row row;
    if (place < 4)
        say_wrong_start(r);
    else if (place <= scan->header)
        say_expected(r, "the header", expected_number(scan, HEADER, 4, place));
    else if (row_at(scan, place, &row))
        say_expected(r, entry_name(scan, row.section, row.entry), expected_number(scan, row.section, row.start, place));
    else if (difference_at(scan, place, &d))
        say_cut_off(r, &d);
    else
        say_expected(r, "the symbols and comments", expected_in_tail(scan, place));
}

static void say_large_count(const struct refusal *r) {
    struct spot spot = number_spot(r, (size_t)r->end.place);
    say_refused(&r->scan, r->end, spot, "%s is %s, and no count may be above 1048575",
                count_names[count_at(&r->scan, spot.at)], number_text(r, spot));
}

static void say_wrong_sum(const struct refusal *r) {
    const uint64_t *n = r->scan.counts;
    say_refused(&r->scan, r->end, number_spot(r, r->scan.count_at[PLAN_M]),
                "I + L + A = %llu + %llu + %llu = %llu%s M = %llu", (ull)n[PLAN_I], (ull)n[PLAN_L], (ull)n[PLAN_A],
                (ull)(n[PLAN_I] + n[PLAN_L] + n[PLAN_A]),
                r->scan.binary ? ", but in binary form it must be" : " is above", (ull)n[PLAN_M]);
}

static void say_justice(const struct refusal *r) {
    struct spot spot = number_spot(r, (size_t)r->end.place);
    int which = count_at(&r->scan, spot.at);
    say_refused(&r->scan, r->end, spot, "%s is above 0, but %s are not read", count_names[which],
                which == ALL_COUNTS - 1 ? "fairness constraints" : "justice properties");
}

/* Which of a row's numbers stands at a place. */
static int field_at(const struct row *row, size_t place) {
    int field = 0;
    for (int k = 0; k < row->fields; k++)
        if (row->at[k] == place)
            field = k;
    return field;
}

/* What a literal of a row is: "input 0", "the next state of latch 1", "a right side of gate 2". */
static const char *role(const struct scan *scan, const struct row *row, int field) {
    if (field == defining_field(scan, row))
        return "";
    if (field == reset_field(scan, row))
        return "the reset of ";
    return row->section == LATCHES ? "the next state of " : row->section == GATES ? "a right side of " : "";
}

static void say_reset(const struct refusal *r, struct spot spot, const struct row *row) {
    const struct scan *scan = &r->scan;
    uint64_t own = scan->binary ? 2 * (scan->counts[PLAN_I] + row->entry + 1) : row->value[0];
    say_refused(scan, r->end, spot, "the reset of %s is %s, but must be 0, 1 or the latch's own literal %llu",
                entry_name(scan, LATCHES, row->entry), number_text(r, spot), (ull)own);
}

static void say_out_of_range(const struct refusal *r) {
    const struct scan *scan = &r->scan;
    struct spot spot = number_spot(r, (size_t)r->end.place);
    struct row row;
    if (!row_at(scan, spot.at, &row)) {
        say_number(scan->of->name, r->end);
        return;
    }
    int field = field_at(&row, spot.at), defines = field == defining_field(scan, &row);
    uint64_t value = row.value[field], most = 2 * scan->counts[PLAN_M];
    const char *text = number_text(r, spot), *entry = entry_name(scan, row.section, row.entry);
    if (field == reset_field(scan, &row))
        say_reset(r, spot, &row);
    else if (!defines)
        say_refused(scan, r->end, spot, "%s%s is literal %s, above 2M + 1 = %llu", role(scan, &row, field), entry, text,
                    (ull)most + 1);
    else if (value > most)
        say_refused(scan, r->end, spot, "%s is literal %s, above 2M = %llu", entry, text, (ull)most);
    else
        say_refused(scan, r->end, spot, "%s is literal %s, but what defines a variable is even and not 0", entry, text);
}

static void say_defined_twice(const struct refusal *r) {
    const struct scan *scan = &r->scan;
    struct spot spot = number_spot(r, (size_t)r->end.place);
    struct row first = {.line = 0}, second;
    if (!row_at(scan, spot.at, &second)) {
        say_number(scan->of->name, r->end);
        return;
    }
    say_refused(scan, r->end, spot, "variable %llu is defined a second time, by %s", (ull)second.value[0] / 2,
                entry_name(scan, second.section, second.entry));
    while (next_row(scan, &first) && first.start < second.start)
        if (defining_field(scan, &first) == 0 && first.value[0] / 2 == second.value[0] / 2) {
            say_note(scan, number_spot(r, first.at[0]), "it is defined first by %s",
                     entry_name(scan, first.section, first.entry));
            return;
        }
}

/* The field of a row that uses a variable, or -1. A reset uses none. */
static int using_field(const struct scan *scan, const struct row *row, uint64_t variable) {
    for (int k = 0; k < row->fields; k++)
        if (k != defining_field(scan, row) && k != reset_field(scan, row) && row->value[k] / 2 == variable)
            return k;
    return -1;
}

static void say_not_defined(const struct refusal *r) {
    const struct scan *scan = &r->scan;
    struct row row = {.line = 0};
    uint64_t uses = 0;
    while (next_row(scan, &row)) {
        int field = using_field(scan, &row, r->end.place);
        if (field >= 0 && uses++ == 0)
            say_refused(scan, r->end, number_spot(r, row.at[field]),
                        "variable %llu is used as %s%s, but nothing defines it", (ull)r->end.place,
                        role(scan, &row, field), entry_name(scan, row.section, row.entry));
    }
    if (uses == 0)
        say_number(scan->of->name, r->end);
    if (uses > 1)
        say_more("%llu more %s it", (ull)uses - 1, uses == 2 ? "line uses" : "lines use");
}

/* Why a difference is refused: its writing comes before its value. */
static void say_difference(const struct refusal *r) {
    const struct scan *scan = &r->scan;
    struct difference d;
    if (!difference_at(scan, (size_t)r->end.place, &d)) {
        say_number(scan->of->name, r->end);
        return;
    }
    struct spot spot = {d.at, d.length};
    const char *gate = entry_name(scan, GATES, d.gate), *which = which_difference(&d);
    ull variable = (ull)d.literal / 2;
    if (d.length > 3 || (d.length == 3 && scan->of->at[d.at + 2] >= 128))
        say_refused(scan, r->end, spot, "the %s difference of %s (variable %llu) has more than three bytes", which,
                    gate, variable);
    else if (d.length > 1 && scan->of->at[d.at + d.length - 1] == 0)
        say_refused(scan, r->end, spot, "the %s difference of %s (variable %llu) is %llu, written longer than needed",
                    which, gate, variable, (ull)d.value);
    else if (d.value == 0)
        say_refused(scan, r->end, spot, "the %s difference of %s (variable %llu) is 0, but a gate can't take itself",
                    which, gate, variable);
    else
        say_refused(scan, r->end, spot,
                    "the %s difference of %s (variable %llu) is %llu, above literal %llu, which it is taken from",
                    which, gate, variable, (ull)d.value, (ull)d.from);
}

static void say_bad_symbol(const struct refusal *r) {
    const struct scan *scan = &r->scan;
    size_t at = (size_t)r->end.place, from = scan->tail;
    struct symbol symbol, first;
    if (!next_symbol(scan->of->at, scan->of->length, &at, &symbol)) {
        say_number(scan->of->name, r->end);
        return;
    }
    struct spot spot = {symbol.at, 1 + digits_at(scan->of, symbol.at + 1)};
    const char *noun = nouns[symbol.list];
    uint64_t count = scan->counts[list_counts[symbol.list]];
    if (symbol.entry >= count) {
        say_refused(scan, r->end, spot,
                    count == 0 ? "a name for %s %s, but the plan has none"
                               : "a name for %s %s, but the last one is %llu",
                    noun, number_text(r, (struct spot){spot.at + 1, spot.width - 1}), (ull)count - 1);
        return;
    }
    say_refused(scan, r->end, spot, "%s %llu is given a second name", noun, (ull)symbol.entry);
    while (from < symbol.at && next_symbol(scan->of->at, scan->of->length, &from, &first))
        if (first.list == symbol.list && first.entry == symbol.entry && first.at < symbol.at)
            say_note(scan, (struct spot){first.at, spot.width}, "it is named first here");
}

/* Conversion keeps the number of gates, so that the header has it. */
static void say_many_gates(const struct refusal *r) {
    say_refused(&r->scan, r->end, number_spot(r, r->scan.count_at[PLAN_A]),
                "A is %llu, and the plain engine takes 24 gates at most; \"plan trace\" takes any number",
                (ull)r->end.place);
}

static void say_cyclic(const struct refusal *r) { say_cycle(&r->scan, r->end); }

int ended(struct plan_end end, const struct source *file) {
    static const struct {
        uint64_t number;
        void (*say)(const struct refusal *);
    } sayings[] = {{GOLVANZO_WRONG_BYTE, say_wrong_byte},
                   {GOLVANZO_LARGE_COUNT, say_large_count},
                   {GOLVANZO_WRONG_SUM, say_wrong_sum},
                   {GOLVANZO_OUT_OF_RANGE, say_out_of_range},
                   {GOLVANZO_DEFINED_TWICE, say_defined_twice},
                   {GOLVANZO_NOT_DEFINED, say_not_defined},
                   {GOLVANZO_CYCLIC, say_cyclic},
                   {GOLVANZO_BAD_DIFFERENCE, say_difference},
                   {GOLVANZO_BAD_SYMBOL, say_bad_symbol},
                   {GOLVANZO_LONG_DIFFERENCE, say_difference},
                   {GOLVANZO_JUSTICE, say_justice},
                   {GOLVANZO_MANY_GATES, say_many_gates}};
    if (end.number == 0)
        return DONE;
    if (end.number == PLAN_NO_MEMORY)
        return no_memory();
    struct refusal refusal = {scan_of(file), end};
    for (size_t k = 0; k < sizeof sayings / sizeof sayings[0]; k++)
        if (sayings[k].number == end.number) {
            sayings[k].say(&refusal);
            return REFUSED;
        }
    say_number(file->name, end);
    return REFUSED;
}
