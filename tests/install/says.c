/* A program over the installed headers and library, as C and as C++: the version, the sentences of refusals, the
   names of a plan, and a step by the calls on tables. Its argument is the version to be met; its last line is 'N
   passed, M failed'. */
#include <stdio.h>
#include <stdlib.h>
#include <string.h>

#include "plan.h"

static int passed, failed;

static void expect(int holds, const char *what) {
    if (holds)
        passed++;
    else
        failed++, printf("%s\n", what);
}

static void expect_version(const char *version) {
    char of_numbers[64];
    snprintf(of_numbers, sizeof of_numbers, "%d.%d.%d", GOLVANZO_VERSION_MAJOR, GOLVANZO_VERSION_MINOR,
             GOLVANZO_VERSION_PATCH);
    expect(strcmp(golvanzo_version(), version) == 0, "the library's version");
    expect(strcmp(GOLVANZO_VERSION_STRING, version) == 0, "the header's version");
    expect(strcmp(of_numbers, version) == 0, "the version's numbers");
    expect(sizeof(golvanzo_size) == 8, "a length has 64 bits");
}

static int said(const char *text) { return text != NULL && text[0] != 0; }

/* Every refusal has words, and no other number. */
static void expect_sentences(void) {
    for (uint64_t number = GOLVANZO_WRONG_BYTE; number <= GOLVANZO_NOT_ALIKE; number++) {
        const char *sentence = plan_sentence(number);
        expect(said(sentence) && said(plan_place(number)) && said(plan_advice(number)), "a refusal's words");
        for (uint64_t other = GOLVANZO_WRONG_BYTE; other < number; other++)
            expect(sentence == NULL || strcmp(sentence, plan_sentence(other)) != 0, "two refusals say the same");
    }
    expect(said(plan_sentence(PLAN_NO_MEMORY)) && said(plan_advice(PLAN_NO_MEMORY)), "the words of no memory");
    expect(plan_sentence(GOLVANZO_NOT_ALIKE + 1) == NULL, "a sentence past the last refusal");
    expect(plan_sentence(UINT32_MAX) == NULL && plan_advice(UINT32_MAX) == NULL, "words of no refusal");
}

static int is_named(const struct plan *plan, enum plan_list list, uint64_t entry, const char *name) {
    size_t length;
    const uint8_t *found = plan_name(plan, list, entry, &length);
    if (name == NULL)
        return found == NULL && length == 0;
    return found != NULL && length == strlen(name) && memcmp(found, name, length) == 0;
}

/* A latch that is its own reset, a bad state, names of every list, two of them with spaces, and a comment like a
   name. */
static const char named[] =
    "aag 2 1 1 1 0 1 1\n2\n4 5 4\n4\n4\n3\ni0 lift\nl0 odd row\no0 a b\nb0 !\nc0 no turn\nc\ni0 x\n";

static void expect_names(void) {
    struct plan plan;
    struct plan_symbol symbol;
    size_t at = 0;
    int symbols = 0;
    expect(plan_read(&plan, (const uint8_t *)named, sizeof named - 1).number == 0, "the named plan is read");
    expect(is_named(&plan, PLAN_LIST_INPUTS, 0, "lift") && is_named(&plan, PLAN_LIST_LATCHES, 0, "odd row"), "names");
    expect(is_named(&plan, PLAN_LIST_OUTPUTS, 0, "a b") && is_named(&plan, PLAN_LIST_BADS, 0, "!"), "more names");
    expect(is_named(&plan, PLAN_LIST_CONSTRAINTS, 0, "no turn"), "a constraint's name");
    expect(is_named(&plan, PLAN_LIST_INPUTS, 1, NULL), "a name that is not there");
    while (plan_next_symbol(&plan, &at, &symbol))
        expect(symbol.entry == 0 && symbol.list == (enum plan_list)symbols++, "a symbol, in the file's order");
    expect(symbols == PLAN_LISTS, "five symbols, and the comment is none");
    plan_free(&plan);
    expect(is_named(&plan, PLAN_LIST_INPUTS, 0, NULL), "an empty plan has no names");
}

/* The same plan by the calls on tables, from x: its output is the latch, whose next state is not the latch. */
static void expect_step(void) {
    struct plan plan;
    uint8_t state[1], outputs[1];
    plan_read(&plan, (const uint8_t *)named, sizeof named - 1);
    expect(plan_convert(&plan).number == 0, "the named plan is converted");
    struct plan_tables tables = plan_tables_of(&plan);
    plan_first(&plan, state);
    expect(state[0] == 'x', "the first state");
    expect(plan_tables_step(&tables, state, (const uint8_t *)"1", outputs).number == 0, "a step");
    expect(state[0] == 'x' && outputs[0] == 'x', "a step from x");
    state[0] = '0';
    expect(plan_tables_step(&tables, state, (const uint8_t *)"1", outputs).number == 0, "a step");
    expect(state[0] == '1' && outputs[0] == '0', "a step from 0");
    tables.words[PLAN_BADS] = 0;
    struct plan_end end = plan_tables_check(&tables);
    expect(end.number == GOLVANZO_SHORT_TABLE && end.place == GOLVANZO_TABLE_BADS, "a table that is too short");
    plan_free(&plan);
}

/* A run of the same plan: its latch is turned at each step. No step is half done: a wrong byte leaves zeros. */
static void expect_run(void) {
    struct plan plan;
    struct plan_bytes out;
    uint8_t states[4] = "0", outputs[3];
    plan_read(&plan, (const uint8_t *)named, sizeof named - 1);
    expect(plan_run(&plan, 3, (const uint8_t *)"01x", states, outputs).number == 0, "a run");
    expect(memcmp(states, "0101", 4) == 0 && memcmp(outputs, "010", 3) == 0, "the states and outputs of a run");
    struct plan_end end = plan_run(&plan, 3, (const uint8_t *)"01y", states, outputs);
    expect(end.number == GOLVANZO_BAD_VECTOR && end.place == 2, "a run with a wrong byte");
    expect(memcmp(states, "0\0\0\0", 4) == 0 && memcmp(outputs, "\0\0\0", 3) == 0, "what it leaves");
    expect(plan_run(&plan, 0, NULL, states, outputs).number == 0 && states[0] == '0', "a run of no steps");
    plan.words[PLAN_RESETS] = 0;
    expect(plan_run(&plan, 0, NULL, states, outputs).number == GOLVANZO_SHORT_TABLE, "of which the plan is judged");
    plan.words[PLAN_RESETS] = 1;
    expect(plan_write_text(&plan, &out).number == 0 && out.length == sizeof named - 1, "the plan is written");
    plan_free_bytes(&out);
    expect(out.at == NULL && out.length == 0, "bytes given back");
    plan_free(&plan);
}

int main(int argc, char **argv) {
    expect_version(argc == 2 ? argv[1] : "");
    expect_sentences();
    expect_names();
    expect_step();
    expect_run();
    printf("%d passed, %d failed\n", passed, failed);
    return failed != 0;
}
