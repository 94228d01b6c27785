#include "classes.h"

#include <stdlib.h>

/* A gate's sides by their classes, the larger first, and its own class, which is 0 where there is none. */
struct known {
    uint32_t sides[2], of;
};

/* A table of known gates, at most half full, with open addressing. */
struct gates {
    struct known *at;
    size_t mask;
};

uint32_t class_literal(const struct classes *classes, int side, uint32_t literal) {
    return 2 * classes->of[side][literal / 2] + literal % 2;
}

static size_t place_of(const uint32_t sides[2], size_t mask) {
    uint64_t mixed = ((uint64_t)sides[0] << 32 | sides[1]) * 0x9E3779B97F4A7C15;
    return (size_t)(mixed >> 32) & mask;
}

/* The gate with these sides, or the empty place where it would be. */
static struct known *find(const struct gates *gates, const uint32_t sides[2]) {
    size_t k = place_of(sides, gates->mask);
    while (gates->at[k].of != 0 && (gates->at[k].sides[0] != sides[0] || gates->at[k].sides[1] != sides[1]))
        k = (k + 1) & gates->mask;
    return &gates->at[k];
}

/* Gates come after what they take; the number of classes grows. */
static void add_gates(const struct plan *plan, int side, struct classes *classes, struct gates *gates,
                      uint32_t *number) {
    uint32_t given = (uint32_t)(plan->counts[PLAN_I] + plan->counts[PLAN_L]);
    for (uint32_t v = 0; v <= given; v++)
        classes->of[side][v] = v;
    for (uint64_t k = 0; k < plan->counts[PLAN_A]; k++) {
        const uint32_t *gate = plan->table[PLAN_GATES] + 3 * k;
        uint32_t a = class_literal(classes, side, gate[1]), b = class_literal(classes, side, gate[2]);
        struct known *known = find(gates, a > b ? (uint32_t[2]){a, b} : (uint32_t[2]){b, a});
        if (known->of == 0)
            *known = (struct known){{a > b ? a : b, a > b ? b : a}, (*number)++};
        classes->of[side][gate[0] / 2] = known->of;
        classes->in[known->of] |= (uint8_t)(1 + side);
    }
}

int put_in_classes(const struct plan *first, const struct plan *second, struct classes *classes) {
    size_t all = (size_t)(first->counts[PLAN_A] + second->counts[PLAN_A]), room = 2;
    uint32_t number = 1 + (uint32_t)(first->counts[PLAN_I] + first->counts[PLAN_L]);
    while (room < 2 * all)
        room *= 2;
    struct gates gates = {calloc(room, sizeof *gates.at), room - 1};
    classes->of[0] = malloc(4 * (size_t)(first->counts[PLAN_M] + 1));
    classes->of[1] = malloc(4 * (size_t)(second->counts[PLAN_M] + 1));
    classes->in = calloc(number + all, 1);
    int lent = gates.at != NULL && classes->of[0] != NULL && classes->of[1] != NULL && classes->in != NULL;
    if (lent) {
        add_gates(first, 0, classes, &gates, &number);
        add_gates(second, 1, classes, &gates, &number);
    }
    free(gates.at);
    return lent;
}

void free_classes(struct classes *classes) {
    free(classes->of[0]);
    free(classes->of[1]);
    free(classes->in);
}
