#include "entry.h"

#include <string.h>

int read_position(const char *word, uint64_t *number) {
    *number = 0;
    if (*word == '\0' || word[strspn(word, "0123456789")] != '\0')
        return 0;
    for (; *word != '\0'; word++)
        if (*number < UINT32_MAX)
            *number = 10 * *number + (uint64_t)(*word - '0');
    return 1;
}

/* The first entry of this name; as many as there are if none has it. */
static uint64_t entry_named(const struct plan *plan, const struct names *names, int list, const char *name) {
    uint64_t k = 0;
    size_t length = strlen(name);
    for (; k < entries(plan, list); k++) {
        const struct symbol *symbol = &names->of[list][k];
        if (symbol->name != NULL && symbol->length == length && memcmp(symbol->name, name, length) == 0)
            break;
    }
    return k;
}

int find_entry(const struct plan *plan, const struct names *names, int list, const char *word, uint64_t *entry) {
    int is_position = read_position(word, entry) || (word[0] == letters[list] && read_position(word + 1, entry));
    if (is_position && *entry < entries(plan, list))
        return 1;
    *entry = entry_named(plan, names, list, word);
    return *entry < entries(plan, list);
}

/* A literal is cut at what is above all of them. */
static uint32_t cut(uint64_t literal) { return literal < UINT32_MAX ? (uint32_t)literal : UINT32_MAX; }

int find_literal(const struct plan *plan, const struct names *names, const char *word, uint32_t *literal) {
    uint64_t number;
    if (read_position(word, &number)) {
        *literal = cut(number);
        return 1;
    }
    uint32_t negated = *word == '!';
    word += negated;
    if (word[0] == 'v' && read_position(word + 1, &number))
        *literal = cut(2 * number + negated);
    else if (read_position(word, &number))
        return 0;
    else if (find_entry(plan, names, NAMED_INPUTS, word, &number))
        *literal = plan->table[PLAN_INPUTS][number] + negated;
    else if (find_entry(plan, names, NAMED_LATCHES, word, &number))
        *literal = plan->table[PLAN_LATCHES][2 * number] + negated;
    else
        return 0;
    return 1;
}

void print_entry(const struct names *names, int list, uint64_t entry, FILE *to) {
    const struct symbol *symbol = &names->of[list][entry];
    if (symbol->name != NULL)
        put_name(symbol, to);
    fprintf(to, symbol->name == NULL ? "%c%llu" : " (%c%llu)", letters[list], (unsigned long long)entry);
}
