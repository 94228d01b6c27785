#define _GNU_SOURCE
#include "vcd.h"

#include <search.h>
#include <stdlib.h>
#include <string.h>

#include "symbols.h"

typedef unsigned long long ull;

/* The short name of a signal in the file: digits from "!" to "~". */
static const char *code(uint64_t signal) {
    static char text[16];
    size_t k = 0;
    do
        text[k++] = (char)('!' + signal % 94);
    while ((signal /= 94) > 0);
    text[k] = '\0';
    return text;
}

/* Whether a word is that of one bit: "bus[3]". Any other bracket would be taken for a range of bits. */
static int is_bit(const char *word) {
    const char *open = strchr(word, '[');
    if (open == NULL || open == word)
        return 0;
    size_t digits = strspn(open + 1, "0123456789");
    return digits > 0 && strcmp(open + 1 + digits, "]") == 0;
}

/* A name there is one word, and no keyword. */
static char *spelled(const struct symbol *symbol) {
    char *word = malloc(symbol->length + 1);
    if (word == NULL)
        return NULL;
    memcpy(word, symbol->name, symbol->length);
    word[symbol->length] = '\0';
    int bit = is_bit(word);
    for (char *at = word; *at != '\0'; at++)
        if (*at == ' ' || (*at == '$' && at == word))
            *at = '_';
        else if (!bit && (*at == '[' || *at == ']'))
            *at = *at == '[' ? '(' : ')';
    return word;
}

static int by_text(const void *a, const void *b) { return strcmp(a, b); }

/* The word of an entry, to which letter and position are put where another of the list has it; the tree holds those that are had.
   Null without memory. */
static const char *word_of(const struct symbol *symbol, int list, uint64_t entry, void **had) {
    char *word, *longer;
    if (symbol->length > 0)
        word = spelled(symbol);
    else if (asprintf(&word, "%c%llu", letters[list], (ull)entry) < 0)
        word = NULL;
    while (word != NULL && tfind(word, had, by_text) != NULL) {
        if (asprintf(&longer, "%s_%c%llu", word, letters[list], (ull)entry) < 0)
            longer = NULL;
        free(word);
        word = longer;
    }
    if (word == NULL || tsearch(word, had, by_text) != NULL)
        return word;
    free(word);
    return NULL;
}

/* The signals of one list, from number `first` on; 0 without memory. */
static int print_signals(const struct plan *plan, const struct names *names, int list, uint64_t first, FILE *to) {
    void *had = NULL;
    const char *word = "";
    for (uint64_t k = 0; k < entries(plan, list) && word != NULL; k++) {
        word = word_of(&names->of[list][k], list, k, &had);
        if (word != NULL)
            fprintf(to, "$var wire 1 %s %s $end\n", code(first + k), word);
    }
    tdestroy(had, free);
    return word != NULL;
}

static int print_head(const struct wave *wave, const struct plan *plan, const struct names *names, FILE *to) {
    static const char *const scopes[NAMED] = {"inputs", "latches", "outputs", "bad_states", "constraints"};
    uint64_t first = 0;
    int all = 1;
    fputs("$version Golvanzo $end\n$timescale 1 ns $end\n$scope module plan $end\n", to);
    for (int list = 0; list < wave->lists && all; first += entries(plan, list++)) {
        fprintf(to, "$scope module %s $end\n", scopes[list]);
        all = print_signals(plan, names, list, first, to);
        fputs("$upscope $end\n", to);
    }
    fputs("$upscope $end\n$enddefinitions $end\n", to);
    return all;
}

int begin_wave(struct wave *wave, const struct plan *plan, int all, FILE *to) {
    struct names names;
    const uint64_t *n = plan->counts;
    int status = read_names(plan, &names);
    if (status != DONE)
        return status;
    wave->lists = all ? NAMED : NAMED_OUTPUTS + 1;
    wave->shown = calloc(n[PLAN_I] + n[PLAN_L] + n[PLAN_O] + n[PLAN_B] + n[PLAN_C] + 1, 1);
    int good = wave->shown != NULL && print_head(wave, plan, &names, to);
    free_names(&names);
    if (good)
        return DONE;
    free_wave(wave);
    return no_memory();
}

void free_wave(struct wave *wave) { free(wave->shown); }

/* The values of one list, whose signals start at `first`, as far as they are others than those shown. */
static void print_list(const struct wave *wave, uint64_t first, const uint8_t *values, uint64_t count, FILE *to) {
    for (uint64_t k = 0; k < count; k++)
        if (wave->shown[first + k] != values[k]) {
            wave->shown[first + k] = values[k];
            fprintf(to, "%c%s\n", values[k], code(first + k));
        }
}

/* Nothing is shown before the first step, so that it has every value. */
void print_changes(const struct wave *wave, const struct plan *plan, const struct run *run, FILE *to) {
    const uint64_t *n = plan->counts;
    fprintf(to, "#%llu\n", (ull)run->step);
    print_list(wave, 0, run->inputs, n[PLAN_I], to);
    print_list(wave, n[PLAN_I], run->state, n[PLAN_L], to);
    print_list(wave, n[PLAN_I] + n[PLAN_L], run->outputs, n[PLAN_O], to);
    if (!run->all)
        return;
    print_list(wave, n[PLAN_I] + n[PLAN_L] + n[PLAN_O], run->seen[VIEW_BADS], n[PLAN_B], to);
    print_list(wave, n[PLAN_I] + n[PLAN_L] + n[PLAN_O] + n[PLAN_B], run->seen[VIEW_CONSTRAINTS], n[PLAN_C], to);
}

void print_wave_end(const struct wave *wave, const struct plan *plan, const struct run *run, FILE *to) {
    const uint64_t *n = plan->counts;
    fprintf(to, "#%llu\n", (ull)run->step);
    print_list(wave, n[PLAN_I], run->next, n[PLAN_L], to);
}
