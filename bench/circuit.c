#define _GNU_SOURCE
#include "circuit.h"

#include <stdio.h>
#include <stdlib.h>
#include <string.h>
#include <sys/mman.h>

_Noreturn void give_up(const char *why) {
    fprintf(stderr, "bench: %s\n", why);
    exit(1);
}

/* In huge pages where the kernel gives them, so that page tables are not what is timed. */
void *room(size_t bytes) {
    const size_t page = 2 << 20, length = (bytes + page) / page * page;
    void *memory = aligned_alloc(page, length);
    if (memory == NULL)
        give_up("no memory");
    if (length > page)
        madvise(memory, length, MADV_HUGEPAGE);
    memset(memory, 0, length > page ? length : bytes + 8);
    return memory;
}

static uint64_t seed = 88172645463325252;

uint32_t below(uint32_t n) {
    seed ^= seed << 13;
    seed ^= seed >> 7;
    seed ^= seed << 17;
    return (uint32_t)((seed >> 11) % n);
}

struct circuit tables_for(const uint64_t *counts) {
    struct circuit c;
    memcpy(c.counts, counts, sizeof c.counts);
    c.length[INPUTS] = counts[I];
    c.length[LATCHES] = 2 * counts[L];
    c.length[OUTPUTS] = counts[O];
    c.length[GATES] = 3 * counts[A];
    c.length[RESETS] = counts[L];
    c.length[BADS] = counts[B];
    c.length[CONSTRAINTS] = counts[C];
    for (int k = 0; k < CIRCUIT; k++)
        c.table[k] = room(4 * c.length[k]);
    return c;
}

void free_circuit(struct circuit *c) {
    for (int k = 0; k < CIRCUIT; k++)
        free(c->table[k]);
}

/* I = L = O = a fiftieth of the gates, so that a million gates keep M below the limit. */
static struct circuit begun(uint32_t gates) {
    uint32_t few = gates / 50 < 4 ? 4 : gates / 50;
    struct circuit c = tables_for((uint64_t[COUNTS]){2 * few + gates, few, few, few, gates});
    uint32_t last = 2 * few + gates;
    for (uint32_t i = 0; i < few; i++) {
        c.table[INPUTS][i] = 2 * (i + 1);
        c.table[LATCHES][2 * i] = 2 * (few + i + 1);
        c.table[LATCHES][2 * i + 1] = 2 * (last - below(last)) + below(2);
        c.table[OUTPUTS][i] = 2 * (last - below(last)) + below(2);
    }
    return c;
}

/* Gate i of a circuit in binary order, larger side first. */
static void put_gate(struct circuit *c, uint32_t i, uint32_t x, uint32_t y) {
    uint32_t *g = c->table[GATES] + 3 * (size_t)i;
    g[0] = 2 * (uint32_t)(c->counts[I] + c->counts[L] + 1 + i);
    g[1] = x > y ? x : y;
    g[2] = x > y ? y : x;
}

/* Variables that no gate takes yet. */
struct idle {
    uint32_t *variable, count;
};

static uint32_t take_idle(struct idle *idle, uint32_t span) {
    uint32_t k = idle->count - 1 - below(idle->count < span ? idle->count : span), w = idle->variable[k];
    idle->variable[k] = idle->variable[--idle->count];
    return w;
}

/* A literal of a variable below v: 5 times in 10 one of the youngest that no gate takes yet, so that few gates dangle,
   3 times a near one, else any. */
static uint32_t earlier(struct idle *idle, uint32_t v) {
    uint32_t kind = below(10), span = 8, w;
    if (kind < 5 && idle->count > 0) {
        w = take_idle(idle, 512);
    } else if (kind < 8) {
        while (span < 4096 && below(3) > 0)
            span *= 2;
        uint32_t back = 1 + below(span);
        w = back < v ? v - back : 1 + below(v - 1);
    } else {
        w = 1 + below(v - 1);
    }
    return 2 * w + below(2);
}

/* Of 100 gates so many copy the pair of an earlier one, half of them a near one; 4 have equal sides, 2 a side 1, few a
   side 0 or both signs. */
static void put_random_gate(struct circuit *c, struct idle *idle, uint32_t i, uint32_t copies) {
    uint32_t v = (uint32_t)(c->counts[I] + c->counts[L]) + 1 + i, kind = below(100), rare = below(1000), x, y;
    if (kind < copies && i > 0) {
        uint32_t of = below(2) ? i - 1 - below(i < 1000 ? i : 1000) : below(i);
        const uint32_t *copied = c->table[GATES] + 3 * (size_t)of;
        put_gate(c, i, copied[1], copied[2]);
        return;
    }
    x = earlier(idle, v);
    if (kind >= 96)
        y = x;
    else if (kind >= 94)
        y = 1;
    else if (rare < 2)
        y = rare == 0 ? 0 : x ^ 1;
    else
        do
            y = earlier(idle, v);
        while (y / 2 == x / 2);
    put_gate(c, i, x, y);
}

/* A random but plausible circuit, whose latches and outputs take what no gate does. */
struct circuit random_circuit(uint32_t gates, uint32_t copies) {
    struct circuit c = begun(gates);
    struct idle idle = {room(4 * c.counts[M] + 4), 0};
    for (uint32_t v = (uint32_t)(c.counts[I] + c.counts[L]); v > 0; v--)
        idle.variable[idle.count++] = v;
    for (uint32_t i = 0; i < gates; i++) {
        put_random_gate(&c, &idle, i, copies);
        idle.variable[idle.count++] = c.table[GATES][3 * (size_t)i] / 2;
    }
    for (uint32_t i = 0; i < c.counts[L] && idle.count > 0; i++)
        c.table[LATCHES][2 * i + 1] = 2 * take_idle(&idle, idle.count) + below(2);
    for (uint32_t i = 0; i < c.counts[O] && idle.count > 0; i++)
        c.table[OUTPUTS][i] = 2 * take_idle(&idle, idle.count) + below(2);
    free(idle.variable);
    return c;
}

/* Each gate takes the one before it. */
struct circuit chain_circuit(uint32_t gates) {
    struct circuit c = begun(gates);
    uint32_t base = (uint32_t)(c.counts[I] + c.counts[L]);
    for (uint32_t i = 0; i < gates; i++)
        put_gate(&c, i, 2 * (base + i) + below(2), 2 + below(2 * base));
    return c;
}

/* A chain without signs: where every leaf is 1 every gate is. */
struct circuit tower_circuit(uint32_t gates) {
    struct circuit c = begun(gates);
    uint32_t base = (uint32_t)(c.counts[I] + c.counts[L]);
    for (uint32_t i = 0; i < gates; i++)
        put_gate(&c, i, 2 * (base + i), 2 + 2 * below(base));
    return c;
}

/* Each gate takes the one before it and one far before it: near in binary order, anywhere in memory in another. */
struct circuit braid_circuit(uint32_t gates) {
    struct circuit c = begun(gates);
    uint32_t base = (uint32_t)(c.counts[I] + c.counts[L]), far = 5000;
    for (uint32_t i = 0; i < gates; i++)
        put_gate(&c, i, 2 * (base + i) + below(2), 2 * (i < far ? 1 : base + i - far) + below(2));
    return c;
}

/* After a chain of 3 gates in 10 the others share one larger side, and their pairs are all different. */
struct circuit colliding_circuit(uint32_t gates) {
    struct circuit c = chain_circuit(gates);
    uint32_t base = (uint32_t)(c.counts[I] + c.counts[L]), shared = base + gates / 10 * 3;
    for (uint32_t i = gates / 10 * 3, y = 2; i < gates; i++, y++)
        put_gate(&c, i, 2 * shared + y % 2, 2 + y / 2 % (2 * shared - 2));
    return c;
}

/* A file made against the library's search for a pair: as many pairs as can start from its root 0, and all different, so
   that every gate is retained under its own number. Where none is found, the gate before is taken. */
struct circuit crowded_circuit(uint32_t gates) {
    struct circuit c = begun(gates);
    uint32_t base = (uint32_t)(c.counts[I] + c.counts[L]), roots = 2 * (base + gates + 1);
    uint8_t *used = room(roots);
    for (uint32_t i = 0; i < gates; i++) {
        uint32_t top = 2 * (base + 1 + i), x = top - 2, y = 2;
        for (int tries = 0; tries < 64; tries++) {
            uint32_t b = 4 + below(top - 4), moved = (uint32_t)((uint64_t)(b * 2654435769u) * roots >> 32);
            uint32_t a = (roots - moved) % roots;
            if (a > (b | 1) && a < top && !used[b]) {
                used[b] = 1, x = a, y = b;
                break;
            }
        }
        put_gate(&c, i, x, y);
    }
    free(used);
    return c;
}

/* Every gate takes the first one. */
struct circuit star_circuit(uint32_t gates) {
    struct circuit c = begun(gates);
    uint32_t base = (uint32_t)(c.counts[I] + c.counts[L]);
    put_gate(&c, 0, 2, 4);
    for (uint32_t i = 1; i < gates; i++)
        put_gate(&c, i, 2 * (base + 1) + below(2), 2 + below(2 * base));
    return c;
}

/* Orders: at place k of the file stands gate order[k]. */
uint32_t *in_order(uint32_t n) {
    uint32_t *order = room(4 * (size_t)n);
    for (uint32_t k = 0; k < n; k++)
        order[k] = k;
    return order;
}

uint32_t *reversed(uint32_t n) {
    uint32_t *order = room(4 * (size_t)n);
    for (uint32_t k = 0; k < n; k++)
        order[k] = n - 1 - k;
    return order;
}

uint32_t *shuffled(uint32_t n) {
    uint32_t *order = in_order(n);
    for (uint32_t k = n - 1; k > 0; k--) {
        uint32_t j = below(k + 1), t = order[k];
        order[k] = order[j];
        order[j] = t;
    }
    return order;
}

/* First, last, second, last but one: what follows is always at the other end of the file. */
uint32_t *from_both_ends(uint32_t n) {
    uint32_t *order = room(4 * (size_t)n);
    for (uint32_t k = 0; k < n; k++)
        order[k % 2 == 0 ? k / 2 : n - 1 - k / 2] = k;
    return order;
}

/* By turns from the first half and from the second, each of them shuffled. */
uint32_t *two_halves(uint32_t n) {
    uint32_t *low = shuffled((n + 1) / 2), *high = shuffled(n / 2), *order = room(4 * (size_t)n);
    for (uint32_t k = 0; k < n; k++)
        order[k % 2 == 0 ? low[k / 2] : (n + 1) / 2 + high[k / 2]] = k;
    free(low);
    free(high);
    return order;
}

/* The same circuit with its gates in this order; gate i is named by the variable of gate name[i]. */
struct circuit arranged(const struct circuit *c, const uint32_t *order, const uint32_t *name) {
    struct circuit to = tables_for(c->counts);
    uint32_t n = (uint32_t)c->counts[A], first = (uint32_t)(c->counts[I] + c->counts[L]) + 1;
#define NAMED(l) ((l) / 2 < first ? (l) : 2 * (first + name[(l) / 2 - first]) + (l) % 2)
    memcpy(to.table[INPUTS], c->table[INPUTS], 4 * c->length[INPUTS]);
    for (size_t k = 0; k < c->length[LATCHES]; k++)
        to.table[LATCHES][k] = NAMED(c->table[LATCHES][k]);
    for (size_t k = 0; k < c->length[OUTPUTS]; k++)
        to.table[OUTPUTS][k] = NAMED(c->table[OUTPUTS][k]);
    for (uint32_t k = 0; k < n; k++)
        for (int side = 0; side < 3; side++)
            to.table[GATES][3 * (size_t)k + side] = NAMED(c->table[GATES][3 * (size_t)order[k] + side]);
#undef NAMED
    return to;
}
