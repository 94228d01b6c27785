/* Why plan cards are refused (docs/PAPER.md, "Plan cards"). The number and the place are the library's; the sentence is found in the
   file, of which nothing is judged here. */
#include "card_refusals.h"

#include <string.h>

#include "say.h"

typedef unsigned long long ull;

enum { HEAD_CARD = 22, MARK = 2, NUMBER = 4 };

/* Low byte first. */
static uint64_t card_number(const struct source *cards, size_t at) {
    const uint8_t *b = cards->at + at;
    return b[0] | (uint64_t)b[1] << 8 | (uint64_t)b[2] << 16 | (uint64_t)b[3] << 24;
}

/* A count as read: M, I, L, O, A. */
static uint64_t card_count(const struct source *cards, int k) { return card_number(cards, MARK + NUMBER * (size_t)k); }

/* Records of one kind: where they start, how many there are, how many numbers each has, what such a number is called. */
struct records {
    uint64_t at, count, numbers;
    const char *mark, *what;
};

static uint64_t end_of(const struct records *r) { return r->at + r->count * (MARK + NUMBER * r->numbers); }

/* The records of latches, outputs or gates. */
static struct records records_of(const struct source *cards, uint64_t table) {
    struct records latches = {HEAD_CARD, card_count(cards, PLAN_L), 1, "PL", "the next state of latch"};
    struct records outputs = {end_of(&latches), card_count(cards, PLAN_O), 1, "PO", "output"};
    struct records gates = {end_of(&outputs), card_count(cards, PLAN_A), 2, "PA", "a right side of gate"};
    return table == GOLVANZO_TABLE_LATCHES ? latches : table == GOLVANZO_TABLE_OUTPUTS ? outputs : gates;
}

static size_t number_place(const struct records *r, uint64_t k) {
    return (size_t)(r->at + k / r->numbers * (MARK + NUMBER * r->numbers) + MARK + k % r->numbers * NUMBER);
}

/* The scan of a file without lines. */
static struct scan bytes_of(const struct source *cards) {
    return (struct scan){.of = cards, .binary = 1, .counts = {[PLAN_A] = 1}, .tail = cards->length};
}

static void say_length(const struct scan *scan, struct plan_end end) {
    struct spot spot = {(size_t)end.place, 1};
    if (scan->of->length < HEAD_CARD) {
        say_refused(scan, end, spot, "a file of plan cards has %d bytes or more, this one %zu", HEAD_CARD,
                    scan->of->length);
        return;
    }
    struct records gates = records_of(scan->of, GOLVANZO_TABLE_GATES);
    if (end.place < scan->of->length)
        say_refused(scan, end, spot, "its counts ask for %llu bytes, it has more", (ull)end_of(&gates));
    else
        say_refused(scan, end, spot, "its counts ask for %llu bytes, it has %zu", (ull)end_of(&gates),
                    scan->of->length);
}

static void say_count(const struct scan *scan, struct plan_end end) {
    size_t at = (size_t)end.place;
    say_refused(scan, end, (struct spot){at, NUMBER}, "%c is %llu, and no count may be above 1048575",
                "MILOA"[(at - MARK) / NUMBER], (ull)card_number(scan->of, at));
}

static void say_sum(const struct scan *scan, struct plan_end end) {
    ull i = card_count(scan->of, PLAN_I), l = card_count(scan->of, PLAN_L), a = card_count(scan->of, PLAN_A);
    say_refused(scan, end, (struct spot){MARK, NUMBER},
                "I + L + A = %llu + %llu + %llu = %llu, but on plan cards it must be M = %llu", i, l, a, i + l + a,
                (ull)card_count(scan->of, PLAN_M));
}

/* The first number of that table that is above the limit. */
static void say_literal(const struct scan *scan, struct plan_end end) {
    const struct records r = records_of(scan->of, end.place);
    uint64_t most = 2 * card_count(scan->of, PLAN_M) + 1, k = 0;
    while (k + 1 < r.count * r.numbers && card_number(scan->of, number_place(&r, k)) <= most)
        k++;
    size_t at = number_place(&r, k);
    say_refused(scan, end, (struct spot){at, NUMBER}, "%s %llu is literal %llu, above 2M + 1 = %llu", r.what,
                (ull)(k / r.numbers), (ull)card_number(scan->of, at), (ull)most);
}

/* The first gate whose right sides are not below its left side, the larger first. */
static void say_order(const struct scan *scan, struct plan_end end) {
    const struct records r = records_of(scan->of, GOLVANZO_TABLE_GATES);
    uint64_t left = 2 * (1 + card_count(scan->of, PLAN_I) + card_count(scan->of, PLAN_L)), k = 0, first, second;
    do {
        first = card_number(scan->of, number_place(&r, 2 * k));
        second = card_number(scan->of, number_place(&r, 2 * k + 1));
    } while (first < left + 2 * k && second <= first && ++k < r.count);
    struct spot spot = {number_place(&r, 2 * k), 2 * NUMBER};
    if (first >= left + 2 * k)
        say_refused(scan, end, spot, "right side %llu of gate %llu is not below %llu, its left side", (ull)first,
                    (ull)k, (ull)(left + 2 * k));
    else
        say_refused(scan, end, spot, "the right sides of gate %llu are %llu and %llu: the larger must stand first",
                    (ull)k, (ull)first, (ull)second);
}

static void say_marked(const struct scan *scan, struct plan_end end) {
    char found[MARK + 1];
    const char *mark = "PH";
    for (uint64_t table = GOLVANZO_TABLE_LATCHES; table <= GOLVANZO_TABLE_GATES; table++) {
        struct records r = records_of(scan->of, table);
        if (r.at <= end.place && end.place < end_of(&r))
            mark = r.mark;
    }
    show_bytes(found, sizeof found, scan->of->at + end.place, MARK);
    say_refused(scan, end, (struct spot){(size_t)end.place, MARK}, "the mark \"%s\" must stand here, not \"%s\"", mark,
                found);
}

int cards_ended(struct plan_end end, const struct source *cards) {
    static const struct {
        uint64_t number;
        void (*say)(const struct scan *, struct plan_end);
    } sayings[] = {{GOLVANZO_WRONG_BYTE, say_length},  {GOLVANZO_LARGE_COUNT, say_count},
                   {GOLVANZO_WRONG_SUM, say_sum},      {GOLVANZO_OUT_OF_RANGE, say_literal},
                   {GOLVANZO_NOT_IN_ORDER, say_order}, {GOLVANZO_WRONG_MARK, say_marked}};
    const struct scan scan = bytes_of(cards);
    if (end.number == 0)
        return DONE;
    if (end.number == PLAN_NO_MEMORY)
        return no_memory();
    size_t k = 0, all = sizeof sayings / sizeof sayings[0];
    while (k < all && sayings[k].number != end.number)
        k++;
    if (k < all)
        sayings[k].say(&scan, end);
    else
        say_number(cards->name, end);
    if (cards->length >= 4 && (memcmp(cards->at, "aag ", 4) == 0 || memcmp(cards->at, "aig ", 4) == 0))
        say_more("this looks like an AIGER file, not like plan cards: \"plan card\" makes cards of it");
    return REFUSED;
}
