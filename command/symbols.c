#include "symbols.h"

#include <stdlib.h>
#include <string.h>

const char letters[NAMED + 1] = "ilobc";
const int list_counts[NAMED] = {PLAN_I, PLAN_L, PLAN_O, PLAN_B, PLAN_C};
const char *const nouns[NAMED] = {"input", "latch", "output", "bad state", "constraint"};

static int is_digit(uint8_t b) { return '0' <= b && b <= '9'; }

int next_symbol(const uint8_t *bytes, size_t length, size_t *at, struct symbol *symbol) {
    size_t k = *at + 1;
    const char *letter = *at < length && bytes[*at] != 0 ? strchr(letters, bytes[*at]) : NULL;
    if (letter == NULL || k >= length || !is_digit(bytes[k]))
        return 0;
    *symbol = (struct symbol){(int)(letter - letters), 0, *at, 0, NULL};
    for (; k < length && is_digit(bytes[k]); k++)
        if (symbol->entry < UINT32_MAX)
            symbol->entry = 10 * symbol->entry + (bytes[k] - '0');
    const uint8_t *end = k < length && bytes[k] == ' ' ? memchr(bytes + k, '\n', length - k) : NULL;
    if (end == NULL)
        return 0;
    symbol->name = bytes + k + 1;
    symbol->length = (size_t)(end - symbol->name);
    *at = (size_t)(end - bytes) + 1;
    return 1;
}

size_t symbols_end(const struct plan *plan) {
    struct symbol symbol;
    size_t at = 0;
    while (next_symbol(plan->tail, plan->tail_length, &at, &symbol))
        continue;
    return at;
}

void put_name(const struct symbol *symbol, FILE *to) { fwrite(symbol->name, 1, symbol->length, to); }

uint64_t entries(const struct plan *plan, int list) { return plan->counts[list_counts[list]]; }

int read_names(const struct plan *plan, struct names *names) {
    struct symbol symbol;
    size_t at = 0;
    int all = 1;
    for (int list = 0; list < NAMED; list++) {
        names->of[list] = calloc(entries(plan, list) + 1, sizeof symbol);
        all = all && names->of[list] != NULL;
    }
    while (all && next_symbol(plan->tail, plan->tail_length, &at, &symbol))
        if (symbol.entry < entries(plan, symbol.list))
            names->of[symbol.list][symbol.entry] = symbol;
    if (!all)
        free_names(names);
    return all ? DONE : no_memory();
}

void free_names(struct names *names) {
    for (int list = 0; list < NAMED; list++) {
        free(names->of[list]);
        names->of[list] = NULL;
    }
}

void json_entry(struct json *json, const struct names *names, int list, uint64_t entry) {
    const struct symbol *symbol = &names->of[list][entry];
    json_text(json, "list", nouns[list]);
    json_number(json, "position", entry);
    if (symbol->name != NULL)
        json_bytes(json, "name", symbol->name, symbol->length);
}

void json_names(struct json *json, const struct plan *plan, const struct names *names) {
    json_open(json, "names", '[');
    for (int list = 0; list < NAMED; list++)
        for (uint64_t k = 0; k < entries(plan, list); k++) {
            if (names->of[list][k].name == NULL)
                continue;
            json_open(json, NULL, '{');
            json_entry(json, names, list, k);
            json_close(json, '}');
        }
    json_close(json, ']');
}
