#include "baseline.h"

#include <stdlib.h>
#include <string.h>

static uint64_t tree[4][1 << 15];

struct base base_for(const uint64_t *counts) {
    size_t m = counts[M] + 2, a = counts[A] + 1;
    struct base b = {.kind = room(m),
                     .number = room(4 * m),
                     .waits = room(4 * a),
                     .start = room(4 * m),
                     .users = room(8 * a),
                     .queue = room(4 * a),
                     .value = room(m),
                     .plane = room(16 * m)};
    for (b.mask = 16; b.mask < 2 * a; b.mask *= 2)
        ;
    b.slots = room(4 * (size_t)b.mask);
    b.mask--;
    return b;
}

void free_base(struct base *b) {
    free(b->kind), free(b->number), free(b->waits), free(b->start), free(b->users), free(b->queue);
    free(b->slots), free(b->value), free(b->plane);
}

/* Numbers without checks, and the header: the file is known to be well formed. */
static inline place number(place p, uint32_t *x) {
    uint32_t v = (uint32_t)(*p++ - '0');
    while ((uint8_t)(*p - '0') < 10)
        v = 10 * v + (uint32_t)(*p++ - '0');
    *x = v;
    return p + 1;
}

static place header(place p, uint64_t *counts) {
    p += 4;
    for (int k = 0; k < 5; k++) {
        uint32_t n;
        p = number(p, &n);
        counts[k] = n;
    }
    return p;
}

/* A number without leading zeros and the byte that ends it; NULL if these do not stand there. */
static inline place checked(place p, place end, uint8_t stop, uint32_t *x) {
    if (p >= end)
        return NULL;
    uint64_t v = (uint8_t)(*p++ - '0');
    if (v > 9)
        return NULL;
    if (v != 0)
        while (p < end && (uint8_t)(*p - '0') < 10) {
            v = 10 * v + (uint64_t)(*p++ - '0');
            if (v > 1u << 30)
                v = 1u << 30;
        }
    if (p >= end || *p != stop)
        return NULL;
    *x = (uint32_t)v;
    return p + 1;
}

/* Differences without checks. */
static inline place difference(place p, uint32_t *x) {
    uint32_t c = *p++;
    if (__builtin_expect(c < 128, 1)) {
        *x = c;
        return p;
    }
    uint32_t v = c & 127;
    c = *p++;
    v |= (c & 127) << 7;
    if (c >= 128)
        v |= (uint32_t)*p++ << 14;
    *x = v;
    return p;
}

/* With every check: the file doesn't end, at most three bytes, no last byte 0 after another. */
static inline place checked_difference(place p, place end, uint32_t *x) {
    if (p >= end)
        return NULL;
    uint32_t c = *p++;
    if (__builtin_expect(c < 128, 1)) {
        *x = c;
        return p;
    }
    uint32_t v = c & 127;
    if (p >= end)
        return NULL;
    c = *p++;
    v |= (c & 127) << 7;
    if (c >= 128) {
        if (p >= end)
            return NULL;
        c = *p++;
        if (c >= 128)
            return NULL;
        v |= c << 14;
    }
    if (c == 0)
        return NULL;
    *x = v;
    return p;
}

static void put_binary_leaves(struct circuit *c) {
    uint32_t i = (uint32_t)c->counts[I], l = (uint32_t)c->counts[L];
    for (uint32_t k = 0; k < i; k++)
        c->table[INPUTS][k] = 2 * (k + 1);
    for (uint32_t k = 0; k < l; k++)
        c->table[LATCHES][2 * k] = 2 * (i + 1 + k);
}

/* A whole binary file into the tables, without checks. */
place decode(place p, struct circuit *c) {
    p = header(p, c->counts);
    uint32_t lhs = 2 * (uint32_t)(c->counts[I] + c->counts[L]), *g = c->table[GATES], a = (uint32_t)c->counts[A];
    put_binary_leaves(c);
    for (uint32_t i = 0; i < c->counts[L]; i++)
        p = number(p, &c->table[LATCHES][2 * i + 1]);
    for (uint32_t i = 0; i < c->counts[O]; i++)
        p = number(p, &c->table[OUTPUTS][i]);
    for (uint32_t i = 0; i < a; i++, g += 3) {
        uint32_t d0, d1;
        lhs += 2;
        p = difference(p, &d0);
        p = difference(p, &d1);
        g[0] = lhs;
        g[1] = lhs - d0;
        g[2] = lhs - d0 - d1;
    }
    return p;
}

/* n literals, every one of them at most top, on lines of their own; every step-th word is written. */
static place checked_lines(place p, place end, uint32_t n, uint32_t top, uint32_t *to, int step) {
    for (uint32_t i = 0; i < n; i++, to += step)
        if ((p = checked(p, end, '\n', to)) == NULL || *to > top)
            return NULL;
    return p;
}

/* The same with every check that the format asks. */
place decodec(place file, place end, struct circuit *c) {
    place p = header(file, c->counts);
    uint32_t lhs = 2 * (uint32_t)(c->counts[I] + c->counts[L]), *g = c->table[GATES], a = (uint32_t)c->counts[A];
    uint32_t top = 2 * (uint32_t)c->counts[M] + 1;
    put_binary_leaves(c);
    if ((p = checked_lines(p, end, (uint32_t)c->counts[L], top, c->table[LATCHES] + 1, 2)) == NULL ||
        (p = checked_lines(p, end, (uint32_t)c->counts[O], top, c->table[OUTPUTS], 1)) == NULL)
        return NULL;
    for (uint32_t i = 0; i < a; i++, g += 3) {
        uint32_t d0, d1;
        lhs += 2;
        if ((p = checked_difference(p, end, &d0)) == NULL || d0 == 0 || d0 > lhs)
            return NULL;
        if ((p = checked_difference(p, end, &d1)) == NULL || d1 > lhs - d0)
            return NULL;
        g[0] = lhs;
        g[1] = lhs - d0;
        g[2] = lhs - d0 - d1;
    }
    return p;
}

/* A whole text file into the tables, without checks. */
place text(place p, struct circuit *c) {
    p = header(p, c->counts);
    for (int t = INPUTS; t <= GATES; t++)
        for (size_t i = 0; i < c->length[t]; i++)
            p = number(p, &c->table[t][i]);
    return p;
}

static inline int defines(uint8_t *kind, uint32_t lhs, uint32_t top, uint8_t as) {
    if ((lhs & 1) | (lhs < 2) | (lhs > top) || kind[lhs / 2] != 0)
        return 0;
    kind[lhs / 2] = as;
    return 1;
}

static place text_leaves(place p, place end, struct base *b, struct circuit *c) {
    uint32_t top = 2 * (uint32_t)c->counts[M], *inputs = c->table[INPUTS], *latches = c->table[LATCHES];
    for (uint32_t i = 0; i < c->counts[I]; i++)
        if ((p = checked(p, end, '\n', &inputs[i])) == NULL || !defines(b->kind, inputs[i], top, 1))
            return NULL;
    for (uint32_t i = 0; i < c->counts[L]; i++, latches += 2)
        if ((p = checked(p, end, ' ', &latches[0])) == NULL || (p = checked(p, end, '\n', &latches[1])) == NULL ||
            !defines(b->kind, latches[0], top, 1) || latches[1] > top + 1)
            return NULL;
    return checked_lines(p, end, (uint32_t)c->counts[O], top + 1, c->table[OUTPUTS], 1);
}

/* The gates; `forward` stays if every gate's sides are defined before it, `falling` if they have smaller variables. */
static place text_gates(place p, place end, uint8_t *kind, struct circuit *c, int *forward, int *falling) {
    uint32_t top = 2 * (uint32_t)c->counts[M], *g = c->table[GATES], a = (uint32_t)c->counts[A];
    int ahead = 1, down = 1;
    for (uint32_t i = 0; i < a; i++, g += 3) {
        uint32_t v, x, y;
        if ((p = checked(p, end, ' ', &v)) == NULL || (p = checked(p, end, ' ', &x)) == NULL ||
            (p = checked(p, end, '\n', &y)) == NULL || x > top + 1 || y > top + 1)
            return NULL;
        ahead &= kind[x / 2] && kind[y / 2];
        down &= (v > x) & (v > y);
        if (!defines(kind, v, top, 2))
            return NULL;
        g[0] = v;
        g[1] = x;
        g[2] = y;
    }
    *forward = ahead;
    *falling = down;
    return p;
}

static int all_defined(const uint8_t *kind, const struct circuit *c, int forward) {
    const uint32_t *g = c->table[GATES], a = (uint32_t)c->counts[A];
    uint32_t all = 1;
    for (uint32_t i = 0; i < c->counts[L]; i++)
        all &= kind[c->table[LATCHES][2 * i + 1] / 2] != 0;
    for (uint32_t i = 0; i < c->counts[O]; i++)
        all &= kind[c->table[OUTPUTS][i] / 2] != 0;
    if (!forward)
        for (uint32_t i = 0; i < a; i++)
            all &= kind[g[3 * i + 1] / 2] != 0 && kind[g[3 * i + 2] / 2] != 0;
    return (int)all;
}

/* Which gates take each gate: a counting sort by right side. */
static void find_users(const struct base *b, const struct circuit *c) {
    const uint32_t *g = c->table[GATES];
    const uint8_t *kind = b->kind;
    uint32_t sum = 0, m = (uint32_t)c->counts[M], a = (uint32_t)c->counts[A], *start = b->start;
    memset(start, 0, 4 * (size_t)(m + 2));
    for (uint32_t i = 0; i < a; i++) {
        uint32_t x = g[3 * i + 1] / 2, y = g[3 * i + 2] / 2, waits = 0;
        if (kind[x] == 2)
            start[x]++, waits++;
        if (kind[y] == 2)
            start[y]++, waits++;
        b->waits[i] = waits;
    }
    for (uint32_t v = 0; v <= m; v++) {
        uint32_t users = start[v];
        start[v] = sum;
        sum += users;
    }
    start[m + 1] = sum;
    for (uint32_t i = 0; i < a; i++) {
        uint32_t x = g[3 * i + 1] / 2, y = g[3 * i + 2] / 2;
        if (kind[x] == 2)
            b->users[start[x]++] = i;
        if (kind[y] == 2)
            b->users[start[y]++] = i;
    }
    memmove(start + 1, start, 4 * (size_t)(m + 1));
    start[0] = 0;
}

static int acyclic(const struct base *b, const struct circuit *c) {
    uint32_t n = 0, a = (uint32_t)c->counts[A], *queue = b->queue;
    find_users(b, c);
    for (uint32_t i = 0; i < a; i++)
        if (b->waits[i] == 0)
            queue[n++] = i;
    for (uint32_t k = 0; k < n; k++) {
        uint32_t v = c->table[GATES][3 * queue[k]] / 2;
        for (uint32_t j = b->start[v]; j < b->start[v + 1]; j++)
            if (--b->waits[b->users[j]] == 0)
                queue[n++] = b->users[j];
    }
    return n == a;
}

/* A whole text file with all checks. A cycle is looked for unless the file is in topological order; where `quick`,
   also not if every gate's variable is larger than its sides'. */
place textc(place file, place end, struct base *b, struct circuit *c, int quick) {
    int forward, falling;
    place p = header(file, c->counts);
    memset(b->kind, 0, c->counts[M] + 1);
    b->kind[0] = 1;
    if ((p = text_leaves(p, end, b, c)) == NULL || (p = text_gates(p, end, b->kind, c, &forward, &falling)) == NULL ||
        !all_defined(b->kind, c, forward))
        return NULL;
    return forward || (quick && falling) || acyclic(b, c) ? p : NULL;
}

/* The ready gates as a tree of 64 branches: put one in, take the first out. */
static inline void tree_put(uint32_t i) {
    for (int k = 0; k < 4; k++, i >>= 6) {
        uint64_t old = tree[k][i >> 6];
        tree[k][i >> 6] = old | UINT64_C(1) << (i & 63);
        if (old != 0)
            return;
    }
}

static inline uint32_t tree_take(void) {
    uint32_t i = 0;
    for (int k = 3; k >= 0; k--)
        i = i << 6 | (uint32_t)__builtin_ctzll(tree[k][i]);
    for (uint32_t k = 0, j = i; k < 4; k++, j >>= 6)
        if ((tree[k][j >> 6] &= ~(UINT64_C(1) << (j & 63))) != 0)
            break;
    return i;
}

static inline uint32_t renamed(const uint32_t *number, uint32_t l) { return 2 * number[l / 2] | (l & 1); }

static void number_leaves(struct base *b, const struct circuit *c, struct circuit *to) {
    uint32_t next = 1;
    memset(b->kind, 0, c->counts[M] + 1);
    memset(b->number, 0, 4 * (c->counts[M] + 1));
    for (uint32_t i = 0; i < c->counts[I]; i++, next++)
        b->number[c->table[INPUTS][i] / 2] = next, to->table[INPUTS][i] = 2 * next;
    for (uint32_t i = 0; i < c->counts[L]; i++, next++)
        b->number[c->table[LATCHES][2 * i] / 2] = next, to->table[LATCHES][2 * i] = 2 * next;
    for (uint32_t i = 0; i < c->counts[A]; i++)
        b->kind[c->table[GATES][3 * i] / 2] = 2;
}

/* Numbers the gates: always the first ready one in the file's order. */
static void convert_gates(const struct base *b, const struct circuit *c, struct circuit *to) {
    const uint32_t *g = c->table[GATES], *start = b->start, *users = b->users;
    uint32_t *w = to->table[GATES], next = (uint32_t)(c->counts[I] + c->counts[L]) + 1, ready = 0;
    for (uint32_t i = 0; i < c->counts[A]; i++)
        if (b->waits[i] == 0)
            tree_put(i), ready++;
    for (; ready > 0; ready--, next++, w += 3) {
        uint32_t i = tree_take(), v = g[3 * i] / 2;
        uint32_t x = renamed(b->number, g[3 * i + 1]), y = renamed(b->number, g[3 * i + 2]);
        b->number[v] = next;
        w[0] = 2 * next;
        w[1] = x > y ? x : y;
        w[2] = x > y ? y : x;
        for (uint32_t j = start[v]; j < start[v + 1]; j++)
            if (--b->waits[users[j]] == 0)
                tree_put(users[j]), ready++;
    }
}

void convert(struct base *b, const struct circuit *c, struct circuit *to) {
    number_leaves(b, c, to);
    find_users(b, c);
    convert_gates(b, c, to);
    for (uint32_t i = 0; i < c->counts[L]; i++)
        to->table[LATCHES][2 * i + 1] = renamed(b->number, c->table[LATCHES][2 * i + 1]);
    for (uint32_t i = 0; i < c->counts[O]; i++)
        to->table[OUTPUTS][i] = renamed(b->number, c->table[OUTPUTS][i]);
}

/* The place in the open table of the retained gate with the sides x and y, or of none. */
static inline uint32_t slot_of(const uint32_t *slots, uint32_t mask, const uint32_t *kept, uint32_t x, uint32_t y) {
    uint64_t key = (uint64_t)x << 32 | y;
    uint32_t h = (uint32_t)(key * UINT64_C(0x9E3779B97F4A7C15) >> 32) & mask, s;
    for (; (s = slots[h]) != 0; h = (h + 1) & mask)
        if (kept[3 * (s - 1) + 1] == x && kept[3 * (s - 1) + 2] == y)
            break;
    return h;
}

static inline uint32_t became(const uint32_t *now, uint32_t l) { return now[l / 2] ^ (l & 1); }

/* The literal that stands for x and y, x not below y, after folding and sharing; a new gate if need be. */
static inline uint32_t folded(uint32_t *slots, uint32_t mask, uint32_t base, uint32_t *n, uint32_t *kept, uint32_t x,
                              uint32_t y) {
    if (x == y)
        return x;
    if ((x ^ y) == 1 || y == 0)
        return 0;
    if (y == 1)
        return x;
    uint32_t h = slot_of(slots, mask, kept, x, y), s = slots[h];
    if (s == 0) {
        uint32_t *g = kept + 3 * (size_t)*n;
        s = slots[h] = ++*n;
        g[0] = 2 * (base + s);
        g[1] = x;
        g[2] = y;
    }
    return 2 * (base + s);
}

/* Structural hashing of one level. */
/* Inputs stay; latches and outputs follow what their variables became. */
static void follow(const uint32_t *now, const struct circuit *c, struct circuit *to) {
    memcpy(to->table[INPUTS], c->table[INPUTS], 4 * c->length[INPUTS]);
    for (uint32_t i = 0; i < 2 * c->counts[L]; i++)
        to->table[LATCHES][i] = became(now, c->table[LATCHES][i]);
    for (uint32_t i = 0; i < c->counts[O]; i++)
        to->table[OUTPUTS][i] = became(now, c->table[OUTPUTS][i]);
}

void strash(struct base *b, const struct circuit *c, struct circuit *to) {
    const uint32_t *g = c->table[GATES], base = (uint32_t)(c->counts[I] + c->counts[L]), a = (uint32_t)c->counts[A];
    uint32_t *now = b->number, *slots = b->slots, mask = b->mask, *kept = to->table[GATES], n = 0;
    memset(slots, 0, 4 * (size_t)(mask + 1));
    for (uint32_t v = 0; v <= base; v++)
        now[v] = 2 * v;
    for (uint32_t i = 0; i < a; i++) {
        uint32_t x = became(now, g[3 * i + 1]), y = became(now, g[3 * i + 2]);
        now[base + 1 + i] = folded(slots, mask, base, &n, kept, x > y ? x : y, x > y ? y : x);
    }
    b->retained = n;
    follow(now, c, to);
}

/* Without gates that no output and no next state reaches: marks from the last gate down, numbers from the first up. */
void used(struct base *b, const struct circuit *c, struct circuit *to) {
    const uint32_t *g = c->table[GATES], base = (uint32_t)(c->counts[I] + c->counts[L]), a = (uint32_t)c->counts[A];
    uint32_t *now = b->number, *kept = to->table[GATES], n = 0;
    uint8_t *mark = b->kind;
    memset(mark, 0, c->counts[M] + 1);
    for (uint32_t i = 0; i < c->counts[L]; i++)
        mark[c->table[LATCHES][2 * i + 1] / 2] = 1;
    for (uint32_t i = 0; i < c->counts[O]; i++)
        mark[c->table[OUTPUTS][i] / 2] = 1;
    for (uint32_t i = a; i-- > 0;)
        if (mark[base + 1 + i])
            mark[g[3 * i + 1] / 2] = mark[g[3 * i + 2] / 2] = 1;
    for (uint32_t v = 0; v <= base; v++)
        now[v] = 2 * v;
    for (uint32_t i = 0; i < a; i++)
        if (mark[base + 1 + i]) {
            uint32_t x = became(now, g[3 * i + 1]), y = became(now, g[3 * i + 2]), l = 2 * (base + 1 + n);
            now[base + 1 + i] = kept[3 * n] = l;
            kept[3 * n + 1] = x > y ? x : y;
            kept[3 * n++ + 2] = x > y ? y : x;
        }
    b->retained = n;
    follow(now, c, to);
}

/* Values 0, 1, 2 = x in a byte per variable, And by a table of nine; bytes "0", "1", "x" outside. */
static const uint8_t sign3[2][4] = {{0, 1, 2, 2}, {1, 0, 2, 2}};
static const uint8_t and3[3][4] = {{0, 0, 0, 0}, {0, 1, 2, 0}, {0, 2, 2, 0}};

static inline uint8_t valued(const uint8_t *value, uint32_t l) { return sign3[l & 1][value[l / 2]]; }

void step3(struct base *b, const struct circuit *c, uint8_t *state, const uint8_t *ins, uint8_t *outs) {
    const uint32_t *g = c->table[GATES], i = (uint32_t)c->counts[I], l = (uint32_t)c->counts[L];
    const uint32_t o = (uint32_t)c->counts[O], a = (uint32_t)c->counts[A];
    uint8_t *value = b->value;
    value[0] = 0;
    for (uint32_t k = 0; k < i; k++)
        value[1 + k] = ins[k] == 'x' ? 2 : (uint8_t)(ins[k] - '0');
    for (uint32_t k = 0; k < l; k++)
        value[1 + i + k] = state[k] == 'x' ? 2 : (uint8_t)(state[k] - '0');
    for (uint32_t k = 0; k < a; k++, g += 3)
        value[g[0] / 2] = and3[valued(value, g[1])][valued(value, g[2])];
    for (uint32_t k = 0; k < o; k++)
        outs[k] = (uint8_t) "01x"[valued(value, c->table[OUTPUTS][k])];
    for (uint32_t k = 0; k < l; k++)
        state[k] = (uint8_t) "01x"[valued(value, c->table[LATCHES][2 * k + 1])];
}

void count3(uint32_t *numbers, const uint8_t *values, const uint8_t *before, size_t length) {
    for (size_t k = 0; k < length; k++, numbers += 4) {
        numbers[values[k] == 'x' ? 2 : values[k] - '0']++;
        numbers[3] += before != NULL && before[k] != values[k];
    }
}

/* The planes of all literals after one step of 64 rows. */
static void sweep_planes(struct base *b, const struct circuit *c, const uint8_t *ins) {
    const uint32_t *g = c->table[GATES], i = (uint32_t)c->counts[I], l = (uint32_t)c->counts[L];
    const uint32_t a = (uint32_t)c->counts[A];
    uint64_t *p = b->plane;
    p[0] = 0, p[1] = UINT64_MAX;
    for (uint32_t j = 0; j < i; j++) {
        uint64_t one = 0, zero = 0;
        for (uint32_t k = 0; k < 64; k++) {
            uint8_t code = ins[(size_t)k * i + j];
            one |= (uint64_t)(code != '0') << k;
            zero |= (uint64_t)(code != '1') << k;
        }
        p[2 * (1 + j)] = one, p[2 * (1 + j) + 1] = zero;
    }
    for (uint32_t k = 0; k < l; k++)
        p[2 * (1 + i + k)] = 0, p[2 * (1 + i + k) + 1] = UINT64_MAX;
    for (uint32_t k = 0; k < a; k++, g += 3) {
        p[g[0]] = p[g[1]] & p[g[2]];
        p[g[0] + 1] = p[g[1] ^ 1] | p[g[2] ^ 1];
    }
}

/* Row by row, the codes of n literals that stand `stride` words apart. */
static void put_rows(const uint64_t *plane, const uint32_t *literals, int stride, uint32_t n, uint8_t *to) {
    for (uint32_t j = 0; j < n; j++) {
        uint64_t one = plane[literals[stride * j]], both = one & plane[literals[stride * j] ^ 1];
        for (uint32_t k = 0; k < 64; k++)
            to[(size_t)k * n + j] = (uint8_t)('0' + (one >> k & 1) + 71 * (both >> k & 1));
    }
}

void lanes(struct base *b, const struct circuit *c, const uint8_t *ins, uint8_t *nexts, uint8_t *outs) {
    sweep_planes(b, c, ins);
    put_rows(b->plane, c->table[LATCHES] + 1, 2, (uint32_t)c->counts[L], nexts);
    put_rows(b->plane, c->table[OUTPUTS], 1, (uint32_t)c->counts[O], outs);
}

void lane_counts(struct base *b, const struct circuit *c, const uint8_t *ins, uint32_t *report) {
    sweep_planes(b, c, ins);
    for (uint32_t j = 0; j < c->counts[O]; j++) {
        uint32_t l = c->table[OUTPUTS][j];
        uint64_t one = b->plane[l], zero = b->plane[l ^ 1];
        report[3 * j] = (uint32_t)__builtin_popcountll(zero & ~one);
        report[3 * j + 1] = (uint32_t)__builtin_popcountll(one & ~zero);
        report[3 * j + 2] = (uint32_t)__builtin_popcountll(one & zero);
    }
}

static uint8_t *put_number(uint8_t *to, uint32_t n, uint8_t stop) {
    uint8_t digits[10];
    int k = 0;
    do
        digits[k++] = (uint8_t)('0' + n % 10);
    while ((n /= 10) > 0);
    while (k > 0)
        *to++ = digits[--k];
    *to++ = stop;
    return to;
}

static uint8_t *put_header(uint8_t *to, const char *form, const uint64_t *counts) {
    memcpy(to, form, 4);
    to += 4;
    for (int k = 0; k < 5; k++)
        to = put_number(to, (uint32_t)counts[k], k < 4 ? ' ' : '\n');
    return to;
}

/* Every reset is 0, and is left off. */
size_t print(const struct circuit *c, uint8_t *out) {
    static const int wide[] = {1, 2, 1, 3};
    uint8_t *to = put_header(out, "aag ", c->counts);
    for (int t = INPUTS; t <= GATES; t++)
        for (const uint32_t *w = c->table[t], *end = w + c->length[t]; w < end; w += wide[t]) {
            for (int k = 0; k + 1 < wide[t]; k++)
                to = put_number(to, w[k], ' ');
            to = put_number(to, w[wide[t] - 1], '\n');
        }
    return (size_t)(to - out);
}

static inline uint8_t *put_difference(uint8_t *to, uint32_t d) {
    for (; d > 127; d >>= 7)
        *to++ = (uint8_t)(d | 128);
    *to++ = (uint8_t)d;
    return to;
}

size_t encode(const struct circuit *c, uint8_t *out) {
    uint8_t *to = put_header(out, "aig ", c->counts);
    const uint32_t *g = c->table[GATES], a = (uint32_t)c->counts[A];
    for (uint32_t i = 0; i < c->counts[L]; i++)
        to = put_number(to, c->table[LATCHES][2 * i + 1], '\n');
    for (uint32_t i = 0; i < c->counts[O]; i++)
        to = put_number(to, c->table[OUTPUTS][i], '\n');
    for (uint32_t i = 0; i < a; i++, g += 3) {
        to = put_difference(to, g[0] - g[1]);
        to = put_difference(to, g[1] - g[2]);
    }
    return (size_t)(to - out);
}
