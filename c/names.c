/* The names that a plan's tail gives. The library has judged the tail when it was read (docs/PAPER.md, "Reading"), so
   that what does not look like a symbol is the comment or the tail's end. */
#include <string.h>

#include "plan.h"

static int is_digit(uint8_t byte) { return '0' <= byte && byte <= '9'; }

/* A letter, a position, a space and a name to the end of the line. A comment begins with "c" and a new line. */
int plan_next_symbol(const struct plan *plan, size_t *at, struct plan_symbol *symbol) {
    static const char letters[] = "ilobc";
    const uint8_t *tail = plan->tail;
    size_t k = *at, length = plan->tail_length;
    const char *letter = k < length && tail[k] != 0 ? strchr(letters, tail[k]) : NULL;
    uint64_t entry = 0;
    if (letter == NULL || ++k >= length || !is_digit(tail[k]))
        return 0;
    for (; k < length && is_digit(tail[k]) && entry < UINT32_MAX; k++)
        entry = 10 * entry + (uint64_t)(tail[k] - '0');
    const uint8_t *end = k < length && tail[k] == ' ' ? memchr(tail + k, '\n', length - k) : NULL;
    if (end == NULL)
        return 0;
    symbol->list = (enum plan_list)(letter - letters);
    symbol->entry = entry;
    symbol->name = tail + k + 1;
    symbol->length = (size_t)(end - symbol->name);
    *at = (size_t)(end - tail) + 1;
    return 1;
}

const uint8_t *plan_name(const struct plan *plan, enum plan_list list, uint64_t entry, size_t *length) {
    struct plan_symbol symbol;
    size_t at = 0;
    while (plan_next_symbol(plan, &at, &symbol))
        if (symbol.list == list && symbol.entry == entry) {
            *length = symbol.length;
            return symbol.name;
        }
    *length = 0;
    return NULL;
}
