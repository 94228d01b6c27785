/* The names that a tail gives. */
#ifndef SYMBOLS_H
#define SYMBOLS_H

#include "command.h"
#include "json.h"

/* Lists that symbols name, in the order of a file: their letters, what an entry is called, which count they have. */
enum { NAMED_INPUTS, NAMED_LATCHES, NAMED_OUTPUTS, NAMED_BADS, NAMED_CONSTRAINTS, NAMED };
extern const char letters[NAMED + 1];
extern const char *const nouns[NAMED];
extern const int list_counts[NAMED];

struct symbol {
    int list;
    uint64_t entry;
    size_t at, length;
    const uint8_t *name;
};

/* The symbol line at *at of these bytes, *at going past it; 0 if no symbol line stands there. */
int next_symbol(const uint8_t *bytes, size_t length, size_t *at, struct symbol *symbol);

/* Where the symbols of a plan's tail end; a comment may start there. */
size_t symbols_end(const struct plan *plan);

/* The names of a plan's entries; `name` is null for an entry that has none. */
struct names {
    struct symbol *of[NAMED];
};

/* Writes a name of any length, also one that no %.*s takes. */
void put_name(const struct symbol *symbol, FILE *to);

int read_names(const struct plan *plan, struct names *names);
void free_names(struct names *names);

/* An entry for scripts: its list, its position, and its name, if it has one; and all that have names, below "names". */
void json_entry(struct json *json, const struct names *names, int list, uint64_t entry);
void json_names(struct json *json, const struct plan *plan, const struct names *names);

/* How many entries a list of a plan has. */
uint64_t entries(const struct plan *plan, int list);

#endif
