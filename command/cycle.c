#include "cycle.h"

#include <stdlib.h>

#include "say.h"

/* So many gates of a cycle are said. */
enum { SAID = 12 };

/* How far the search went with a gate: not there; its first or its second side is next; both were; it was left. */
enum turn { UNSEEN, FIRST, SECOND, BOTH, LEFT };

/* A gate of a text file: its sides, the place of its line (0: no gate has this variable), the search's turn, and the
   variable of the gate that the search came from (0: none). */
struct gate {
    uint32_t side[2], above;
    enum turn turn;
    size_t at;
};

/* The gates by variable. */
static struct gate *read_gates(const struct scan *scan) {
    uint64_t variables = scan->counts[PLAN_M];
    struct gate *gates = calloc(variables + 1, sizeof *gates);
    struct row row = {.line = 0};
    while (gates != NULL && next_row(scan, &row)) {
        uint64_t v = row.value[0] / 2;
        if (row.section == GATES && row.fields == FIELDS && v <= variables)
            gates[v] = (struct gate){{(uint32_t)row.value[1], (uint32_t)row.value[2]}, 0, UNSEEN, row.at[0]};
    }
    return gates;
}

/* Goes down from a gate, side after side, until one is met that the search came through. Gives the last gate of this cycle,
   from which `above` leads back to `first`, the one that it takes; 0 if there is no cycle. */
static uint32_t go_down(struct gate *gates, uint64_t variables, uint32_t from, uint32_t *first) {
    uint32_t v = from;
    gates[v].turn = FIRST;
    while (v != 0) {
        struct gate *gate = &gates[v];
        if (gate->turn == BOTH) {
            gate->turn = LEFT;
            v = gate->above;
            continue;
        }
        uint32_t next = gate->side[gate->turn++ == SECOND] / 2;
        if (next > variables || gates[next].at == 0 || gates[next].turn == LEFT)
            continue;
        *first = next;
        if (gates[next].turn != UNSEEN)
            return v;
        gates[next].turn = FIRST;
        gates[next].above = v;
        v = next;
    }
    return 0;
}

/* The cycle's variables, each taking the next, the last the first; how many. */
static size_t cycle_from(struct gate *gates, uint32_t last, uint32_t first, uint32_t *cycle) {
    size_t count = 1;
    for (uint32_t v = last; v != first; v = gates[v].above)
        count++;
    for (size_t k = count; k > 0; k--, last = gates[last].above)
        cycle[k - 1] = last;
    return count;
}

/* Where the cycle has a variable; its length if it has not. */
static size_t place_in(const uint32_t *cycle, size_t count, uint32_t variable) {
    size_t at = 0;
    while (at < count && cycle[at] != variable)
        at++;
    return at;
}

/* "variable v takes variable w", with the mark under that side. */
static void say_link(const struct scan *scan, const struct gate *gate, uint32_t v, uint32_t w, const char *again) {
    size_t at = gate->at + digits_at(scan->of, gate->at) + 1;
    if (gate->side[0] / 2 != w)
        at += digits_at(scan->of, at) + 1;
    say_note(scan, (struct spot){at, digits_at(scan->of, at)}, "variable %u takes variable %u%s", v, w, again);
}

/* From one gate on, around to it; of many the first ones and the last. */
static void say_links(const struct scan *scan, const struct gate *gates, const uint32_t *cycle, size_t count,
                      size_t from) {
    for (size_t k = 0; k < count; k++) {
        uint32_t v = cycle[(from + k) % count], w = cycle[(from + k + 1) % count];
        if (k >= SAID - 1 && k + 1 < count)
            continue;
        if (count > SAID && k + 1 == count)
            say_more("and so on through %zu more gates", count - SAID);
        say_link(scan, &gates[v], v, w, k + 1 < count ? "" : count == 1 ? ", itself" : " again");
    }
}

static void say_gates(const struct scan *scan, struct plan_end end, struct gate *gates, uint32_t *cycle) {
    uint32_t named = (uint32_t)end.place, first = 0;
    uint32_t last = go_down(gates, scan->counts[PLAN_M], named, &first);
    size_t count = last == 0 ? 0 : cycle_from(gates, last, first, cycle), from = place_in(cycle, count, named);
    struct spot spot = {gates[named].at, digits_at(scan->of, gates[named].at)};
    say_refused(scan, end, spot, "variable %u depends on %s", named,
                from < count ? "itself" : "a gate that depends on itself");
    say_links(scan, gates, cycle, count, from < count ? from : 0);
}

void say_cycle(const struct scan *scan, struct plan_end end) {
    size_t variables = (size_t)scan->counts[PLAN_M];
    struct gate *gates = read_gates(scan);
    uint32_t *cycle = calloc(variables + 1, sizeof *cycle);
    if (gates != NULL && cycle != NULL && end.place <= variables && gates[end.place].at != 0)
        say_gates(scan, end, gates, cycle);
    else
        say_number(scan->of->name, end);
    free(gates);
    free(cycle);
}
