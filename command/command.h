/* The command for people: what its parts share. */
#ifndef COMMAND_H
#define COMMAND_H

#include <stddef.h>
#include <stdint.h>
#include <stdio.h>

#include "../c/golvanzo.h"
#include "../c/plan.h"

/* Exit statuses. FAILED is wrong usage, or a system that can't do what is asked. */
enum { DONE = 0, REFUSED = 1, DIFFERENT = 1, FAILED = 2 };

/* A file as it was read, with the name that people know it by. */
struct source {
    const char *name;
    uint8_t *at;
    size_t length;
};

/* What is asked. `words` are the words of the command line that are no options; `file` is the first, `second` the file of vectors
   or the other plan, which may be null, as `out`. `output`, `bad` or `constraint` and `step` say what to explain, `edit` are the
   words of a gate's number and its right sides. With `many` the file is one of many, and has one line. */
enum { EDIT_WORDS = 3 };
struct request {
    char **words;
    int number;
    const char *file, *second, *out, *output, *bad, *constraint, *step, *allow, *list, *edit[EDIT_WORDS];
    int vcd, all, large, names, comments, three, count, plan, json, quiet, many, cards;
};

/* files.c. What is opened must not take the place of standard input, output or error where one of these is closed. */
void keep_standard_files(void);

/* It says itself why a file can't be read, as 14. Of a plan and of cards no more is read than what is refused whatever follows; the
   third reads whatever there is. */
int read_source(const char *name, struct source *source);
int read_cards(const char *name, struct source *source);
int read_bytes(const char *name, struct source *source);
void free_source(struct source *source);

/* The name as it is typed: standard input is -. */
const char *typed_name(const struct source *source);

/* Where results go: standard output, or a file that appears under its name only when all of it is written. `people` is whether it is
   a terminal that -o did not name. */
struct output {
    FILE *to;
    const char *name;
    char *target, *temporary;
    int people;
};

int open_output(struct output *output, const char *name);
int close_output(struct output *output);
void drop_output(struct output *output);

/* Files that are written between these to one folder are brought to the disk together, at the end. */
void begin_folder(void);
int end_folder(const char *name);

/* Opens, writes all and closes. */
int write_output(const char *name, const uint8_t *bytes, size_t length);

/* say.c: one line to people, "plan: " before it; the status that goes with it. */
int fail(const char *format, ...) __attribute__((format(printf, 1, 2)));
int no_memory(void);

/* refusal.c: a call on the plan of this file ended; says why it is refused, and gives the status. */
int ended(struct plan_end end, const struct source *file);

/* convert.c: puts a plan in binary order; the status. What a call wrote, to where it is asked for; it is given back. */
int put_in_order(struct plan *plan, const struct source *file);
int deliver(const struct request *request, const struct source *file, struct plan_end end,
            const struct plan_bytes *made);

/* reduce.c: the same, and reduced. */
int put_reduced(struct plan *plan, const struct source *file);

/* vectors.c: the lines of a file of input vectors, judged as the tracer judges them. */
struct vectors {
    struct source source;
    uint64_t number;
};

int read_vectors(const struct request *request, uint64_t inputs, struct vectors *vectors);
const uint8_t *vector(const struct vectors *vectors, uint64_t inputs, uint64_t k);

/* Vectors one after another: those of a file when all its lines are judged, those of standard input as they come. Of the latter
   `source` is a buffer of `room` bytes, of which those from `from` on are not given yet; `given` vectors and `gone` bytes came before. */
struct feed {
    struct vectors vectors;
    int streams, over, status;
    uint64_t given;
    size_t room, from, gone;
};

int open_feed(const struct request *request, uint64_t inputs, struct feed *feed);
void close_feed(struct feed *feed);

/* The next vector, kept until one more is asked for; null after the last, and where one is refused, as `status` says. What was
   written is on its way before one is waited for. */
const uint8_t *next_vector(struct feed *feed, uint64_t inputs, FILE *to);

/* Whether the next vector has to be waited for. */
int must_wait(const struct feed *feed);

/* The same as a list without the ends of lines, as the library takes it; `file` is its name. */
struct list {
    const char *file;
    uint64_t number;
    uint8_t *at;
    size_t length;
};

/* A verb that takes the plan in binary order and a list: all refusals of the plan come before the vectors are read. */
typedef int list_verb(const struct request *request, const struct source *file, struct plan *plan,
                      const struct list *list);
int with_list(const struct request *request, const struct source *file, struct plan *plan, list_verb *verb);

/* trace.c: a step's line. */
void print_line(FILE *to, const struct plan *plan, const uint8_t *state, const uint8_t *inputs, const uint8_t *outputs,
                const uint8_t *next);

/* The verbs. */
int run_check(const struct request *request, const struct source *file, struct plan *plan);
int run_convert(const struct request *request, const struct source *file, struct plan *plan);
int run_reduce(const struct request *request, const struct source *file, struct plan *plan);
int run_drop(const struct request *request, const struct source *file, struct plan *plan);
int run_rewire(const struct request *request, const struct source *file, struct plan *plan);
int run_trace(const struct request *request, const struct source *file, struct plan *plan);
int run_plain(const struct request *request, const struct source *file, struct plan *plan);
int run_explain(const struct request *request, const struct source *file, struct plan *plan);
int run_witness(const struct request *request, const struct source *file, struct plan *plan);
int run_report(const struct request *request, const struct source *file, struct plan *plan);
int run_rows(const struct request *request, const struct source *file, struct plan *plan);
int run_same(const struct request *request);
int run_pairs(const struct request *request);
int run_draw(const struct request *request, const struct source *file, struct plan *plan);
int run_words(const struct request *request, const struct source *file);
int run_strip(const struct request *request, const struct source *file, struct plan *plan);
int run_mend(const struct request *request);
int run_file(const struct request *request);
int run_card(const struct request *request);

#endif
