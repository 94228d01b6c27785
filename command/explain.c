/* The verb explain: which inputs and latches made an output, a bad state or a constraint 0 or 1 at a step. */
#include <stdlib.h>
#include <string.h>

#include "command.h"
#include "entry.h"
#include "run.h"
#include "say.h"

typedef unsigned long long ull;

/* What is explained, and what is known there: the plan whose outputs have it, the state before the step, the inputs, the outputs
   and the marks. */
struct asked {
    int list;
    const char *word;
    uint64_t entry, step;
    struct plan view;
    uint8_t *state, *next, *outputs, *marks;
    const uint8_t *inputs;
};

/* Parsing has seen that one of them is there. */
static struct asked asked_for(const struct request *request) {
    if (request->output != NULL)
        return (struct asked){.list = NAMED_OUTPUTS, .word = request->output};
    if (request->bad != NULL)
        return (struct asked){.list = NAMED_BADS, .word = request->bad};
    return (struct asked){.list = NAMED_CONSTRAINTS, .word = request->constraint};
}

static void print_marked(const struct names *names, int list, uint64_t number, const uint8_t *marks,
                         const uint8_t *values, FILE *to) {
    for (uint64_t k = 0; k < number; k++)
        if (marks[k] == '1') {
            print_entry(names, list, k, to);
            fprintf(to, " is %c\n", values[k]);
        }
}

/* The output and its value, then the latches and inputs that are marked. */
static void print_asked(const struct plan *plan, const struct names *names, const struct asked *asked, FILE *to) {
    uint64_t latches = plan->counts[PLAN_L], inputs = plan->counts[PLAN_I];
    int any = memchr(asked->marks, '1', latches + inputs) != NULL;
    print_entry(names, asked->list, asked->entry, to);
    fprintf(to, " is %c at step %llu, %s\n", asked->outputs[asked->entry], (ull)asked->step,
            any ? "because" : "whatever the inputs and latches are");
    print_marked(names, NAMED_LATCHES, latches, asked->marks, asked->state, to);
    print_marked(names, NAMED_INPUTS, inputs, asked->marks + latches, asked->inputs, to);
}

static void json_marked(struct json *json, const struct names *names, int list, uint64_t number, const uint8_t *marks,
                        const uint8_t *values) {
    for (uint64_t k = 0; k < number; k++)
        if (marks[k] == '1') {
            json_open(json, NULL, '{');
            json_entry(json, names, list, k);
            json_bytes(json, "value", values + k, 1);
            json_close(json, '}');
        }
}

static void print_object(const struct source *file, const struct plan *plan, const struct names *names,
                         const struct asked *asked, FILE *to) {
    uint64_t latches = plan->counts[PLAN_L];
    struct json json = json_line(to);
    json_text(&json, "file", file->name);
    json_text(&json, "status", "explained");
    json_entry(&json, names, asked->list, asked->entry);
    json_number(&json, "step", asked->step);
    json_bytes(&json, "value", asked->outputs + asked->entry, 1);
    json_open(&json, "because", '[');
    json_marked(&json, names, NAMED_LATCHES, latches, asked->marks, asked->state);
    json_marked(&json, names, NAMED_INPUTS, plan->counts[PLAN_I], asked->marks + latches, asked->inputs);
    json_close(&json, ']');
    json_end(&json);
}

/* 17 in words: the library says that there is no such output, or that it is x. */
static int say_not_explained(const struct request *request, const struct plan *plan, const struct source *file,
                             const struct asked *asked, struct plan_end end) {
    const char *noun = nouns[asked->list], *other = asked->word[0] == '\0' ? NULL : strchr(letters, asked->word[0]);
    uint64_t number;
    if (end.place == 1)
        say_refused_of(file->name, end, "there is no %s \"%s\": the plan has %llu, counted from 0", noun, asked->word,
                       (ull)entries(plan, asked->list));
    else
        say_refused_of(file->name, end, "%s \"%s\" is x at step %s, and only 0 and 1 are explained", noun, asked->word,
                       request->step);
    if (end.place == 1 && other != NULL && *other != letters[asked->list] && read_position(asked->word + 1, &number))
        say_more("%s is %s %llu; an output, a bad state or a constraint is explained, each by its own option",
                 asked->word, nouns[other - letters], (ull)number);
    return REFUSED;
}

/* From the resets up to the step, which is explained and then done, for the value of the output. */
static struct plan_end explain_step(const struct vectors *vectors, struct asked *asked) {
    struct plan *plan = &asked->view;
    uint64_t inputs = plan->counts[PLAN_I];
    struct plan_end end = {0, 0};
    plan_first(plan, asked->next);
    for (uint64_t k = 0; k < asked->step && end.number == 0; k++)
        end = plan_step(plan, asked->next, vector(vectors, inputs, k), asked->outputs);
    memcpy(asked->state, asked->next, plan->counts[PLAN_L]);
    asked->inputs = vector(vectors, inputs, asked->step);
    if (end.number == 0)
        end = plan_explain(plan, asked->state, asked->inputs, asked->entry, asked->marks);
    if (end.number == 0)
        end = plan_step(plan, asked->next, asked->inputs, asked->outputs);
    return end;
}

static int lend_asked(struct asked *asked) {
    const uint64_t *n = asked->view.counts;
    asked->state = malloc(n[PLAN_L] + 1);
    asked->next = malloc(n[PLAN_L] + 1);
    asked->outputs = malloc(n[PLAN_O] + 1);
    asked->marks = malloc(n[PLAN_L] + n[PLAN_I] + 1);
    return asked->state != NULL && asked->next != NULL && asked->outputs != NULL && asked->marks != NULL;
}

static void free_asked(struct asked *asked) {
    free(asked->state);
    free(asked->next);
    free(asked->outputs);
    free(asked->marks);
    free_view(&asked->view);
}

static int explain_to(const struct request *request, const struct source *file, struct plan *plan,
                      const struct vectors *vectors, const struct names *names, struct asked *asked) {
    struct output output;
    if (!lend_asked(asked))
        return no_memory();
    find_entry(plan, names, asked->list, asked->word, &asked->entry);
    struct plan_end end = explain_step(vectors, asked);
    if (end.number == GOLVANZO_NOT_EXPLAINED)
        return say_not_explained(request, plan, file, asked, end);
    int status = ended(end, file);
    if (status == DONE)
        status = open_output(&output, request->out);
    if (status != DONE)
        return status;
    if (request->json)
        print_object(file, plan, names, asked, output.to);
    else
        print_asked(plan, names, asked, output.to);
    return close_output(&output);
}

/* All refusals of the plan come before the vectors are read; then the step must be there; then the output is judged. */
int run_explain(const struct request *request, const struct source *file, struct plan *plan) {
    struct asked asked = asked_for(request);
    struct vectors vectors;
    struct names names;
    int status;
    if (!read_position(request->step, &asked.step))
        return fail("a step is a number, the first being 0, not \"%s\"", request->step);
    status = put_in_order(plan, file);
    if (status == DONE)
        status = read_vectors(request, plan->counts[PLAN_I], &vectors);
    if (status != DONE)
        return status;
    asked.view = view_of(plan, asked.list);
    status = read_names(plan, &names);
    if (status == DONE && asked.step >= vectors.number)
        status = fail("there is no step %s: there are %llu vectors", request->step, (ull)vectors.number);
    if (status == DONE)
        status = explain_to(request, file, plan, &vectors, &names, &asked);
    free_names(&names);
    free_asked(&asked);
    free_source(&vectors.source);
    return status;
}
