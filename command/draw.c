/* The verb draw: a plan as a drawing for Graphviz. Dotted edges negate. */
#include <stdlib.h>

#include "command.h"
#include "symbols.h"

typedef unsigned long long ull;

/* More nodes than these make no drawing that people read. */
enum { MOST_NODES = 300 };

/* What stands for each list of named entries. */
static const char *const shapes[NAMED] = {"shape=box", "shape=box, peripheries=2", "shape=box, style=rounded",
                                          "shape=octagon, color=red", "shape=hexagon, color=blue"};

/* A label has escapes and characters by name: both are spelled out. */
static void print_label(const struct symbol *symbol, int list, uint64_t entry, FILE *to) {
    fprintf(to, "%c%llu", letters[list], (ull)entry);
    if (symbol->length > 0)
        fputs("\\n", to);
    for (size_t k = 0; k < symbol->length; k++) {
        if (symbol->name[k] == '"' || symbol->name[k] == '\\')
            fputc('\\', to);
        fputc(symbol->name[k], to);
        if (symbol->name[k] == '&')
            fputs("amp;", to);
    }
}

/* Inputs and latches are nodes of their variables, the others of their places. */
static void print_node(const struct plan *plan, const struct symbol *symbol, int list, uint64_t entry, FILE *to) {
    if (list == NAMED_INPUTS)
        fprintf(to, "  v%u", plan->table[PLAN_INPUTS][entry] / 2);
    else if (list == NAMED_LATCHES)
        fprintf(to, "  v%u", plan->table[PLAN_LATCHES][2 * entry] / 2);
    else
        fprintf(to, "  %c%llu", letters[list], (ull)entry);
    fputs(" [label=\"", to);
    print_label(symbol, list, entry, to);
    if (list == NAMED_LATCHES && plan->table[PLAN_RESETS][entry] != 0)
        fprintf(to, "\\nstarts as %c", plan->table[PLAN_RESETS][entry] == 1 ? '1' : 'x');
    fprintf(to, "\", %s];\n", shapes[list]);
}

/* Inputs and latches at the left, what is observed at the right, gates between. */
static void print_nodes(const struct plan *plan, const struct names *names, FILE *to) {
    fputs("  { rank=source;\n", to);
    for (int list = 0; list < NAMED; list++) {
        if (list == NAMED_OUTPUTS)
            fputs("  }\n  { rank=sink;\n", to);
        for (uint64_t k = 0; k < entries(plan, list); k++)
            print_node(plan, &names->of[list][k], list, k, to);
    }
    fputs("  }\n", to);
    for (uint64_t k = 0; k < plan->counts[PLAN_A]; k++)
        fprintf(to, "  v%u [label=\"%u\"];\n", plan->table[PLAN_GATES][3 * k] / 2, plan->table[PLAN_GATES][3 * k]);
}

/* From the variable of a literal; the constants are a node for each use, since nothing is to be followed there. An edge back
   to a latch moves nothing. */
static void print_edge(uint32_t literal, const char *node, int back, FILE *to) {
    static unsigned constants;
    char from[32];
    int dotted = literal > 1 && literal % 2 == 1;
    if (literal > 1) {
        snprintf(from, sizeof from, "v%u", literal / 2);
    } else {
        snprintf(from, sizeof from, "k%u", constants++);
        fprintf(to, "  %s [label=\"%u\", shape=plaintext];\n", from, literal);
    }
    fprintf(to, "  %s -> %s", from, node);
    if (dotted || back)
        fprintf(to, " [%s%s%s]", dotted ? "style=dotted" : "", dotted && back ? ", " : "",
                back ? "constraint=false" : "");
    fputs(";\n", to);
}

static void print_gates(const struct plan *plan, FILE *to) {
    char node[32];
    for (uint64_t k = 0; k < plan->counts[PLAN_A]; k++) {
        const uint32_t *gate = plan->table[PLAN_GATES] + 3 * k;
        snprintf(node, sizeof node, "v%u", gate[0] / 2);
        print_edge(gate[1], node, 0, to);
        print_edge(gate[2], node, 0, to);
    }
}

static void print_edges(const struct plan *plan, FILE *to) {
    static const int tables[NAMED] = {0, 0, PLAN_OUTPUTS, PLAN_BADS, PLAN_CONSTRAINTS};
    char node[32];
    print_gates(plan, to);
    for (uint64_t k = 0; k < plan->counts[PLAN_L]; k++) {
        snprintf(node, sizeof node, "v%u", plan->table[PLAN_LATCHES][2 * k] / 2);
        print_edge(plan->table[PLAN_LATCHES][2 * k + 1], node, 1, to);
    }
    for (int list = NAMED_OUTPUTS; list < NAMED; list++)
        for (uint64_t k = 0; k < entries(plan, list); k++) {
            snprintf(node, sizeof node, "%c%llu", letters[list], (ull)k);
            print_edge(plan->table[tables[list]][k], node, 0, to);
        }
}

static uint64_t nodes(const struct plan *plan) {
    uint64_t sum = plan->counts[PLAN_A];
    for (int list = 0; list < NAMED; list++)
        sum += entries(plan, list);
    return sum;
}

int run_draw(const struct request *request, const struct source *file, struct plan *plan) {
    struct names names;
    struct output output;
    if (nodes(plan) > MOST_NODES && !request->large)
        return fail(
            "%s has %llu inputs, latches, gates, outputs, bad states and constraints; a drawing of more than %d "
            "is hardly read: --large draws it",
            file->name, (ull)nodes(plan), MOST_NODES);
    int status = read_names(plan, &names);
    if (status != DONE)
        return status;
    status = open_output(&output, request->out);
    if (status == DONE) {
        fputs("digraph plan {\n  rankdir=LR;\n  node [fontname=\"Helvetica\"];\n", output.to);
        print_nodes(plan, &names, output.to);
        print_edges(plan, output.to);
        fputs("}\n", output.to);
        status = close_output(&output);
    }
    free_names(&names);
    return status;
}
