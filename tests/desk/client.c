/* A C program over the desk as the pattern office would write it: asks for the sizes of tables, lends exactly that
   much, and holds the answers to the worked examples of the paper. Everything lent ends at a page that may not be
   touched, so that a call which goes past its end is a crash. The last line is 'N passed, M failed'. */
#define _DEFAULT_SOURCE
#include <stdint.h>
#include <stdio.h>
#include <stdlib.h>
#include <string.h>
#include <sys/mman.h>

#include "golvanzo.h"

enum { TABLES = 8, SCRATCH = 7, ROOM = 100 };

/* The numbers of the tables, in the order in which they are lent. */
static const uint64_t numbers[TABLES] = {1, 2, 3, 4, 7, 8, 9, 5};

static int passed, failed;

static void expect(int holds, const char *what, const char *of) {
    if (holds)
        passed++;
    else
        failed++, printf("%s: %s\n", of, what);
}

/* Memory of exactly this many bytes, after which a page stands that may not be touched. It is never given back. */
static void *lend(size_t bytes) {
    size_t page = 4096, pages = (bytes + page - 1) / page * page;
    uint8_t *all = mmap(NULL, pages + page, PROT_READ | PROT_WRITE, MAP_PRIVATE | MAP_ANONYMOUS, -1, 0);
    if (all == MAP_FAILED || mprotect(all + pages, page, PROT_NONE) != 0) {
        printf("no memory\n0 passed, 1 failed\n");
        exit(1);
    }
    return all + pages - bytes;
}

struct bytes {
    uint8_t *at;
    size_t length;
};

static struct bytes bytes_of(const char *text, size_t length) {
    struct bytes b = {lend(length), length};
    memcpy(b.at, text, length);
    return b;
}

/* A file given as a string; sizeof counts the 0 at its end. */
#define FILE_OF(text) bytes_of(text, sizeof(text) - 1)

/* A circuit in tables, with the scratch as the last and the answer of the call that wrote it. */
struct circuit {
    uint32_t *table[TABLES];
    size_t words[TABLES];
    uint64_t answer[9], tail;
};

#define TABLE(c, t) (c).table[t], (c).words[t]
#define SEVEN(c) TABLE(c, 0), TABLE(c, 1), TABLE(c, 2), TABLE(c, 3), TABLE(c, 4), TABLE(c, 5), TABLE(c, 6)
#define COUNTS(c) ((c).answer + 2)

/* The words are not zero before a call, so that the call must make them so. */
static struct circuit tables_like(const size_t *words) {
    struct circuit c;
    for (int t = 0; t < TABLES; t++) {
        c.words[t] = words[t];
        c.table[t] = lend(4 * words[t]);
        memset(c.table[t], 0xA5, 4 * words[t]);
    }
    return c;
}

/* Tables of exactly the words that the desk names for a file. */
static struct circuit tables_for(struct bytes file) {
    size_t words[TABLES];
    for (int t = 0; t < TABLES; t++) {
        uint64_t asked = golvanzo_words(file.at, file.length, numbers[t]);
        words[t] = asked == UINT64_MAX ? 0 : (size_t)asked;
    }
    return tables_like(words);
}

static struct circuit read_alone(struct bytes file) {
    struct circuit c = tables_for(file);
    c.tail = golvanzo_read(file.at, file.length, SEVEN(c), TABLE(c, SCRATCH), c.answer);
    return c;
}

/* The same circuit by the reader of 2007. */
static struct circuit read_file_2007(struct bytes file) {
    struct circuit c = tables_for(file);
    c.tail = golvanzo_read2007(file.at, file.length, SEVEN(c), TABLE(c, SCRATCH), c.answer);
    return c;
}

/* Scratch for the calls on tables: a binary file's reader needs less. */
static struct circuit to_work(struct circuit c) {
    const uint64_t *n = COUNTS(c);
    c.words[SCRATCH] = (size_t)(4 * (n[0] + 1) + n[3] + n[5] + n[6]);
    c.table[SCRATCH] = lend(4 * c.words[SCRATCH]);
    memset(c.table[SCRATCH], 0xA5, 4 * c.words[SCRATCH]);
    return c;
}

static struct circuit read_file(struct bytes file) { return to_work(read_alone(file)); }

static int all_zero(const uint32_t *words, size_t n) {
    for (size_t k = 0; k < n; k++)
        if (words[k] != 0)
            return 0;
    return 1;
}

/* What was written as a file of this form: "aag" or "aig". */
static struct bytes written(struct circuit c, int binary, struct bytes tail) {
    uint64_t answer[3];
    struct bytes out = {lend(ROOM), ROOM};
    if (binary)
        golvanzo_write_binary(COUNTS(c), SEVEN(c), TABLE(c, SCRATCH), tail.at, tail.length, out.at, out.length, answer);
    else
        golvanzo_write_text(COUNTS(c), SEVEN(c), TABLE(c, SCRATCH), tail.at, tail.length, out.at, out.length, answer);
    out.length = answer[0] == 0 ? (size_t)answer[2] : 0;
    return out;
}

static int same(struct bytes a, struct bytes b) { return a.length == b.length && memcmp(a.at, b.at, a.length) == 0; }

enum change { CONVERT, REDUCE, DROP };

static struct circuit changed(struct circuit c, enum change how) {
    static const char *const names[] = {"convert", "reduce", "drop"};
    struct circuit to = tables_like(c.words);
    if (how == CONVERT)
        golvanzo_convert(COUNTS(c), SEVEN(c), SEVEN(to), TABLE(to, SCRATCH), to.answer);
    else if (how == REDUCE)
        golvanzo_reduce(COUNTS(c), SEVEN(c), SEVEN(to), TABLE(to, SCRATCH), to.answer);
    else
        golvanzo_drop(COUNTS(c), SEVEN(c), SEVEN(to), TABLE(to, SCRATCH), to.answer);
    expect(all_zero(to.table[SCRATCH], to.words[SCRATCH]), "scratch is zero", names[how]);
    return to;
}

/* The toggle circuit of the AIGER report, as text and as binary. */
static const char toggle_text[] = "aag 7 2 1 2 4\n2\n4\n6 8\n6\n7\n8 4 10\n10 13 15\n12 2 6\n14 3 7\n";
static const char toggle_binary[] = "aig 7 2 1 2 4\n14\n6\n7\n\x02\x04\x03\x04\x01\x02\x02\x08";

static void sizes(void) {
    struct bytes file = FILE_OF(toggle_text);
    static const uint64_t words[TABLES] = {2, 2, 2, 12, 1, 0, 0, 4 * 8 + 2};
    for (int t = 0; t < TABLES; t++)
        expect(golvanzo_words(file.at, file.length, numbers[t]) == words[t], "words of a table", "words");
    expect(golvanzo_words(file.at, file.length, 0) == UINT64_MAX, "no table 0", "words");
    expect(golvanzo_words(file.at, file.length, 6) == UINT64_MAX, "no table 6", "words");
    expect(golvanzo_words(file.at, file.length, 10) == UINT64_MAX, "no table 10", "words");
    expect(golvanzo_words(NULL, 0, 1) == UINT64_MAX, "an empty file has no header", "words");
    file = FILE_OF(toggle_binary);
    expect(golvanzo_words(file.at, file.length, 5) == 2 + 1 + 2, "I + L + O words of scratch in binary", "words");
    file = FILE_OF("aig 3 1 1 0 1 2 3\n");
    expect(golvanzo_words(file.at, file.length, 5) == 1 + 1 + 2 + 3, "I + L + O + B + C words in binary", "words");
}

static void toggle_both_forms(void) {
    struct bytes text = FILE_OF(toggle_text), binary = FILE_OF(toggle_binary), none = {NULL, 0};
    static const uint64_t counts[7] = {7, 2, 1, 2, 4};
    struct circuit c = read_alone(text);
    expect(c.answer[0] == 0 && c.tail == text.length, "T is read to its end", "read");
    expect(memcmp(COUNTS(c), counts, sizeof counts) == 0, "T has the counts 7 2 1 2 4 0 0", "read");
    expect(all_zero(c.table[SCRATCH], c.words[SCRATCH]), "scratch is zero", "read");
    c = to_work(c);
    expect(same(written(c, 0, none), text), "T is written as it was", "write_text");
    expect(written(c, 1, none).length == 0, "T is not in binary order", "write_binary");
    struct circuit to = changed(c, CONVERT);
    expect(to.answer[0] == 0, "T converts", "convert");
    expect(same(written(to, 1, none), binary), "T converts to its binary form", "convert");
    struct circuit again = changed(read_file(binary), CONVERT);
    expect(same(written(again, 1, none), binary), "binary order is left alone", "convert");
}

static void tails(void) {
    struct bytes file = FILE_OF("aag 1 1 0 1 0\n2\n2\ni0 pedal\nc\nany bytes\n");
    struct circuit c = read_file(file);
    expect(c.answer[0] == 0 && c.tail == 18, "the tail starts after the outputs", "read");
    struct bytes tail = {file.at + c.tail, file.length - (size_t)c.tail};
    expect(same(written(c, 0, tail), file), "the tail is written as it was", "write_text");
    expect(same(written(c, 1, tail), FILE_OF("aig 1 1 0 1 0\n2\ni0 pedal\nc\nany bytes\n")), "the tail follows",
           "write_binary");
}

/* A latch that starts as x, one that starts as 1, a bad state, a constraint: all of AIGER 1.9 there and back. */
static const char guard_text[] = "aag 3 1 2 0 0 1 1\n2\n4 2 4\n6 6 1\n4\n6\nb0 p\nc0 q\n";
static const char guard_binary[] = "aig 3 1 2 0 0 1 1\n2 4\n6 1\n4\n6\nb0 p\nc0 q\n";

static void aiger_19(void) {
    struct bytes text = FILE_OF(guard_text), binary = FILE_OF(guard_binary), plain = FILE_OF(toggle_text);
    struct circuit c = read_file(text), old = read_file_2007(text), same_again = read_file_2007(plain);
    struct bytes tail = {text.at + c.tail, text.length - (size_t)c.tail};
    expect(c.answer[0] == 0 && c.answer[7] == 1 && c.answer[8] == 1, "B and C are 1", "read");
    expect(c.table[4][0] == 4 && c.table[4][1] == 1, "the resets are 4 and 1", "read");
    expect(c.table[5][0] == 4 && c.table[6][0] == 6, "the bad state is 4, the constraint 6", "read");
    expect(same(written(c, 0, tail), text), "it is written as it was", "write_text");
    expect(same(written(changed(c, CONVERT), 1, tail), binary), "it converts to its binary form", "convert");
    expect(old.answer[0] == 1 && old.answer[1] == 13 && old.tail == text.length, "1 at 13", "read2007");
    expect(same_again.answer[0] == 0 && all_zero(same_again.table[4], 1), "T is read, its reset 0", "read2007");
    expect(same(written(read_file(FILE_OF("aag 1 0 1 0 0 0 0\n2 3 0\n")), 0, (struct bytes){NULL, 0}),
                FILE_OF("aag 1 0 1 0 0\n2 3\n")),
           "zeros are left off", "write_text");
}

/* Steps once on one input x; gives the output. */
static uint8_t output_on_x(struct circuit c) {
    struct bytes in = FILE_OF("x"), out = FILE_OF("?");
    uint64_t answer[2];
    golvanzo_step(COUNTS(c), SEVEN(c), TABLE(c, SCRATCH), NULL, 0, in.at, 1, out.at, 1, answer);
    return answer[0] == 0 ? out.at[0] : '?';
}

static void contradiction(void) {
    struct bytes none = {NULL, 0};
    struct circuit c = changed(read_file(FILE_OF("aag 2 1 0 1 1\n2\n5\n4 2 3\n")), CONVERT), to = changed(c, REDUCE);
    expect(to.answer[0] == 0 && to.answer[6] == 0, "no gate is retained", "reduce");
    expect(same(written(to, 1, none), FILE_OF("aig 1 1 0 1 0\n1\n")), "the contradiction is gone", "reduce");
    expect(output_on_x(c) == 'x', "before it, x gives x", "step");
    expect(output_on_x(to) == '1', "after it, x gives 1", "step");
}

/* Of three gates the second is used by nothing: the third takes its variable, and the words it leaves are zero. */
static void unused_gates(void) {
    struct bytes none = {NULL, 0};
    struct circuit c = read_file(FILE_OF("aag 5 2 0 1 3\n2\n4\n10\n6 4 2\n8 5 3\n10 7 3\n")), to = changed(c, DROP);
    expect(to.answer[0] == 0 && to.answer[2] == 4 && to.answer[6] == 2, "M is 4 and A 2", "drop");
    expect(same(written(to, 1, none), FILE_OF("aig 4 2 0 1 2\n8\n\x02\x02\x01\x04")), "the gap is closed", "drop");
    expect(all_zero(to.table[3] + 6, to.words[3] - 6), "freed words are zero", "drop");
    to = changed(read_file(FILE_OF("aag 3 1 1 0 1\n2\n4 6\n6 4 2\n")), DROP);
    expect(to.answer[0] == 0 && to.answer[6] == 1, "a next state reaches", "drop");
    to = changed(read_file(FILE_OF("aag 3 1 0 0 2 1 1\n2\n4\n6\n4 2 2\n6 3 3\n")), DROP);
    expect(to.answer[0] == 0 && to.answer[6] == 2, "a bad state and a constraint reach", "drop");
    to = changed(read_file(FILE_OF(toggle_text)), DROP);
    expect(to.answer[0] == 15 && to.answer[1] == 0, "15 at 0", "drop");
}

/* A file of tests/cards; the folder that a run starts in is the project's. */
static struct bytes stored(const char *name) {
    static uint8_t buffer[1000];
    FILE *f = fopen(name, "rb");
    if (f == NULL) {
        printf("%s can't be read\n0 passed, 1 failed\n", name);
        exit(1);
    }
    size_t length = fread(buffer, 1, sizeof buffer, f);
    fclose(f);
    return bytes_of((const char *)buffer, length);
}

static struct circuit read_cards(struct bytes file, size_t short_by) {
    size_t words[TABLES] = {2, 2, 2, 12, 1, 0, 0, 34 - short_by};
    struct circuit c = tables_like(words);
    golvanzo_read_cards(file.at, file.length, SEVEN(c), TABLE(c, SCRATCH), c.answer);
    return c;
}

static struct bytes cards_of(struct circuit c, struct bytes tail, size_t room, uint64_t *answer) {
    struct bytes out = {lend(room), room};
    golvanzo_write_cards(COUNTS(c), SEVEN(c), TABLE(c, SCRATCH), tail.at, tail.length, out.at, out.length, answer);
    out.length = answer[0] == 0 ? (size_t)answer[2] : 0;
    return out;
}

static void cards_refused(struct bytes file, size_t at, int byte, uint64_t number, uint64_t place, const char *what) {
    struct bytes damaged = bytes_of((const char *)file.at, file.length);
    if (byte >= 0)
        damaged.at[at] = (uint8_t)byte;
    else
        damaged.length = at;
    struct circuit c = read_cards(damaged, 0);
    expect(c.answer[0] == number && c.answer[1] == place && c.answer[2] == 0, what, "cards");
    expect(all_zero(c.table[3], c.words[3]) && all_zero(c.table[SCRATCH], c.words[SCRATCH]), "all is zero", what);
}

/* The toggle's cards, worked by hand, and its binary file, each written from the other. */
static void cards(void) {
    static const uint32_t latches[] = {6, 14}, gates[] = {8, 6, 2, 10, 7, 3, 12, 11, 9, 14, 12, 4};
    static const uint64_t counts[] = {7, 2, 1, 2, 4, 0, 0};
    struct bytes file = stored("tests/cards/toggle.cards"), none = {NULL, 0};
    uint64_t answer[3];
    struct circuit c = read_cards(file, 0);
    expect(c.answer[0] == 0 && memcmp(COUNTS(c), counts, sizeof counts) == 0, "the counts of toggle.expected", "cards");
    expect(memcmp(c.table[1], latches, sizeof latches) == 0 && memcmp(c.table[3], gates, sizeof gates) == 0 &&
               c.table[4][0] == 0,
           "the tables of toggle.expected", "cards");
    expect(same(written(c, 1, none), FILE_OF(toggle_binary)), "written as binary", "cards");
    struct circuit b = read_file(FILE_OF(toggle_binary));
    expect(same(cards_of(b, none, 80, answer), file), "written from binary", "cards");
    cards_of(b, none, 79, answer);
    expect(answer[0] == 11 && answer[1] == 80, "11 at 80", "cards");
    cards_of(b, FILE_OF("i0 p\n"), 0, answer);
    expect(answer[0] == 19 && answer[1] == 0, "19 comes before 11", "cards");
    struct circuit g = read_file(FILE_OF(guard_binary));
    cards_of(g, none, ROOM, answer);
    expect(answer[0] == 19 && answer[1] == 0, "a reset, a bad state and a constraint are no cards", "cards");
    c = read_cards(file, 1);
    expect(c.answer[0] == 4 && c.answer[1] == 5, "scratch as for calls on tables", "cards");
    cards_refused(file, 79, -1, 1, 79, "ends early");
    cards_refused(file, 10, 0, 1, 74, "goes on past what the counts ask");
    cards_refused(file, 13, 255, 1, 80, "a count of four bytes");
    cards_refused(file, 23, 'O', 18, 22, "a wrong mark");
    cards_refused(file, 4, 16, 2, 2, "a count over the limit");
    cards_refused(file, 2, 8, 3, 0, "a sum that is not equal");
    cards_refused(file, 24, 16, 5, 2, "a next state out of range");
    cards_refused(file, 42, 8, 15, 0, "a gate of itself");
}

/* The tracer's four lines for T, by one of the engines. */
static void trace(__typeof__(golvanzo_step) *engine, const char *of) {
    static const char *const lines[4] = {"0 11 01 1", "1 11 10 0", "0 x1 01 x", "x 10 xx 0"};
    struct circuit c = read_file(FILE_OF(toggle_binary));
    struct bytes state = FILE_OF("0"), outs = FILE_OF("??");
    for (int k = 0; k < 4; k++) {
        uint64_t answer[2];
        struct bytes ins = bytes_of(lines[k] + 2, 2);
        char line[10];
        line[0] = (char)state.at[0];
        engine(COUNTS(c), SEVEN(c), TABLE(c, SCRATCH), state.at, 1, ins.at, 2, outs.at, 2, answer);
        snprintf(line + 1, sizeof line - 1, " %.2s %.2s %c", (char *)ins.at, (char *)outs.at, state.at[0]);
        expect(answer[0] == 0 && strcmp(line, lines[k]) == 0, lines[k], of);
    }
}

/* The selector of examples/, with its four places: the row, the borders and the pattern. */
static const char selector_text[] =
    "aag 10 3 1 2 6\n2\n4\n6\n8 9\n15\n21\n10 8 2\n12 6 3\n14 13 11\n16 9 4\n18 6 5\n20 19 17\n";

/* Marks of a step, given as a state and three inputs; "." for a byte that stays. */
static void explained(const char *step, uint64_t output, const char *marks, const char *what) {
    struct circuit c = read_file(FILE_OF(selector_text));
    struct bytes state = bytes_of(step, 1), ins = bytes_of(step + 1, 3), out = FILE_OF("......");
    uint64_t answer[2];
    golvanzo_explain(COUNTS(c), SEVEN(c), TABLE(c, SCRATCH), state.at, 1, ins.at, 3, output, out.at, 6, answer);
    expect(answer[0] == 0 && memcmp(out.at, marks, 6) == 0, what, "explain");
    expect(all_zero(TABLE(c, SCRATCH)), "scratch is zero", "explain");
    expect(memcmp(state.at, step, 1) == 0 && memcmp(ins.at, step + 1, 3) == 0, "the vectors stay", "explain");
}

static void not_explained(const char *step, uint64_t output, size_t room, uint64_t number, uint64_t place) {
    struct circuit c = read_file(FILE_OF(selector_text));
    struct bytes state = bytes_of(step, 1), ins = bytes_of(step + 1, strlen(step) - 1), out = bytes_of("......", room);
    uint64_t answer[2];
    golvanzo_explain(COUNTS(c), SEVEN(c), TABLE(c, SCRATCH), state.at, 1, ins.at, ins.length, output, out.at, room,
                     answer);
    expect(answer[0] == number && answer[1] == place, step, "explain is refused");
    expect(memcmp(out.at, "......", room) == 0 && all_zero(TABLE(c, SCRATCH)), "nothing is left", "explain is refused");
}

/* By hand: an odd row in both borders lifts the left needle by the row and the left border; the right one rests since there is
   no pattern outside the border and the row is odd in it. */
static void needles(void) {
    explained("1110", 0, "1100..", "the row and the left border lift the left needle");
    explained("1110", 1, "1001..", "without pattern and in an odd row the right needle rests");
    explained("0x11", 1, "1010..", "an unknown left border is not to blame");
    explained("x001", 1, "0011..", "outside the border the pattern lifts it, whatever the row is");
    not_explained("111", 7, 0, 12, 2);
    not_explained("1110", 2, 0, 17, 1);
    not_explained("1110", UINT64_MAX, 4, 17, 1);
    not_explained("1xx1", 0, 0, 17, 2);
    not_explained("1110", 0, 3, 11, 4);
}

/* A binary file with one input and a chain of gates, each the And of the one below with itself; the last is the output. */
static struct bytes chain(int gates) {
    char head[64];
    int length = snprintf(head, sizeof head, "aig %d 1 0 1 %d\n%d\n", 1 + gates, gates, 2 + 2 * gates);
    struct bytes file = {lend((size_t)length + 2 * (size_t)gates), (size_t)length + 2 * (size_t)gates};
    memcpy(file.at, head, (size_t)length);
    for (int k = 0; k < gates; k++)
        memcpy(file.at + length + 2 * k, "\x02\x00", 2);
    return file;
}

/* The plain engine: 0, 1, 24 and 25 gates, the order of its refusals, and latches that take their values at once. */
static void plain_engine(void) {
    static const int sizes[4] = {0, 1, 24, 25};
    uint64_t answer[2];
    for (int k = 0; k < 4; k++) {
        struct circuit c = read_file(chain(sizes[k]));
        struct bytes in = FILE_OF("1"), out = FILE_OF("?");
        golvanzo_step_plain(COUNTS(c), SEVEN(c), TABLE(c, SCRATCH), NULL, 0, in.at, 1, out.at, 1, answer);
        if (sizes[k] <= 24)
            expect(answer[0] == 0 && out.at[0] == '1', "up to 24 gates are stepped", "step_plain");
        else
            expect(answer[0] == 24 && answer[1] == 25 && out.at[0] == '?', "24 at 25", "step_plain");
        expect(all_zero(c.table[SCRATCH], c.words[SCRATCH]), "scratch is zero", "step_plain");
        golvanzo_step_plain(COUNTS(c), SEVEN(c), TABLE(c, SCRATCH), NULL, 0, in.at, 0, out.at, 1, answer);
        expect(answer[0] == (sizes[k] <= 24 ? 12 : 24), "24 comes before 12", "step_plain");
    }
    struct circuit c = read_file(FILE_OF("aag 2 0 2 2 0\n2 4\n4 2\n2\n4\n"));
    struct bytes state = FILE_OF("01"), outs = FILE_OF("??");
    golvanzo_step_plain(COUNTS(c), SEVEN(c), TABLE(c, SCRATCH), state.at, 2, NULL, 0, outs.at, 2, answer);
    expect(memcmp(state.at, "10", 2) == 0 && memcmp(outs.at, "01", 2) == 0, "latches exchange", "step_plain");
    c = read_file(FILE_OF(toggle_text));
    golvanzo_step_plain(COUNTS(c), SEVEN(c), TABLE(c, SCRATCH), state.at, 1, outs.at, 2, outs.at, 2, answer);
    expect(answer[0] == 15 && answer[1] == 0, "15 at 0", "step_plain");
}

static void witness3(struct circuit c, uint64_t number, struct bytes list, uint64_t says, const char *what) {
    uint64_t answer[3];
    golvanzo_witness3(COUNTS(c), SEVEN(c), TABLE(c, SCRATCH), number, list.at, list.length, answer);
    expect(answer[0] == 0 && answer[2] == says, what, "witness3");
}

/* tests/accepted/counter.aag: it starts at 1, counts where the first input is 1, is bad at 3; the second input must stay 0. */
static void counted(void) {
    struct circuit c = read_file(FILE_OF("aig 11 2 2 0 7 1 1\n14 1\n20\n22\n5\n"
                                         "\x04\x04\x05\x04\x01\x02\x06\x02\x07\x02\x01\x02\x0e\x02"));
    witness3(c, 3, FILE_OF("101000"), 1, "1, 2, 3: the third step is bad");
    witness3(c, 2, FILE_OF("1010"), 0, "1, 2: not yet");
    witness3(c, 3, FILE_OF("001000"), 0, "1, 1, 2: not yet");
    witness3(c, 3, FILE_OF("101001"), 0, "the constraint is 0 at the step that is bad");
    witness3(c, 3, FILE_OF("101100"), 0, "the constraint was 0 at the step before");
    witness3(c, 3, FILE_OF("101x00"), 0, "a constraint that is x is not 1");
    witness3(c, 3, FILE_OF("10x000"), 0, "2 or 3 is not 3");
}

static void witnesses3(void) {
    struct circuit c = read_file(FILE_OF("aig 3 2 0 1 1\n6\n\x02\x02"));
    uint64_t answer[3];
    struct bytes odd = FILE_OF("011");
    witness3(c, 0, FILE_OF(""), 0, "an empty list gives no");
    witness3(c, 2, FILE_OF("011x"), 0, "0 and 1, 1 and x: no");
    witness3(c, 2, FILE_OF("0111"), 1, "0 and 1, 1 and 1: yes");
    golvanzo_witness3(COUNTS(c), SEVEN(c), TABLE(c, SCRATCH), 2, odd.at, odd.length, answer);
    expect(answer[0] == 12 && answer[1] == 2, "three bytes are no two vectors of two", "witness3");
    c = read_file(FILE_OF(guard_binary));
    witness3(c, 2, FILE_OF("01"), 0, "x and 0 are no 1");
    witness3(c, 2, FILE_OF("11"), 1, "the bad state is 1 in the second step");
    witness3(read_file(FILE_OF("aig 2 1 1 0 0 1 1\n3 1\n1\n4\n")), 1, FILE_OF("0"), 1, "the constraint starts as 1");
    witness3(read_file(FILE_OF("aig 2 1 1 0 0 1 1\n3\n1\n4\n")), 2, FILE_OF("00"), 0, "the constraint starts as 0");
    counted();
}

/* The toggle circuit over the four vectors of the paper, worked by hand from its trace (outputs 01, 10, 01, xx; states 0, 1, 0, x). */
static void reports(void) {
    static const uint32_t by_hand[12] = {2, 1, 1, 3, 1, 2, 1, 3, 2, 1, 1, 3};
    struct circuit c = read_file(FILE_OF("aig 7 2 1 2 4\n14\n6\n7\n\x02\x04\x03\x04\x01\x02\x02\x08"));
    struct bytes list = FILE_OF("1111x110");
    uint32_t six[16];
    uint64_t answer[2];
    memset(six, 0xff, sizeof six);
    golvanzo_report(COUNTS(c), SEVEN(c), TABLE(c, SCRATCH), 4, list.at, list.length, six, 16, answer);
    expect(answer[0] == 0 && memcmp(six, by_hand, sizeof by_hand) == 0, "the toggle circuit, by hand", "report");
    expect(all_zero(six + 12, 4), "zero past the numbers", "report");
    memset(six, 0xff, sizeof six);
    golvanzo_report(COUNTS(c), SEVEN(c), TABLE(c, SCRATCH), 4, list.at, list.length, six, 11, answer);
    expect(answer[0] == 4 && answer[1] == 6 && all_zero(six, 11), "table 6 of 11 words is too short, and zero",
           "report");
    golvanzo_report(COUNTS(c), SEVEN(c), TABLE(c, SCRATCH), 65537, list.at, list.length, six, 16, answer);
    expect(answer[0] == 13 && answer[1] == 65536, "13 comes before 12", "report");
    golvanzo_report(COUNTS(c), SEVEN(c), TABLE(c, SCRATCH), 3, list.at, list.length, six, 16, answer);
    expect(answer[0] == 12 && answer[1] == 2, "eight bytes are no three vectors of two", "report");
}

enum { NO, YES, UNDECIDED };

static void witness(struct circuit c, uint64_t number, struct bytes list, uint64_t allowance, uint64_t says,
                    uint64_t tried, const char *what) {
    uint64_t answer[4];
    golvanzo_witness(COUNTS(c), SEVEN(c), TABLE(c, SCRATCH), number, list.at, list.length, allowance, answer);
    expect(answer[0] == 0 && answer[1] == 0 && answer[2] == says && answer[3] == tried, what, "witness");
    expect(all_zero(c.table[SCRATCH], c.words[SCRATCH]), "scratch is zero", "witness");
}

static void not_asked(struct circuit c, uint64_t number, struct bytes list, uint64_t refusal, uint64_t place,
                      const char *what) {
    uint64_t answer[4] = {7, 7, 7, 7};
    golvanzo_witness(COUNTS(c), SEVEN(c), TABLE(c, SCRATCH), number, list.at, list.length, 0, answer);
    expect(answer[0] == refusal && answer[1] == place && answer[2] == 0 && answer[3] == 0, what, "witness");
}

/* An input and its negation on two outputs: in three values x shows no 1, but each filling does. On one output alone both
   questions agree. */
static void fillings(void) {
    struct circuit either = read_file(FILE_OF("aig 1 1 0 2 0\n2\n3\n"));
    struct circuit alone = read_file(FILE_OF("aig 1 1 0 1 0\n2\n")), turned = read_file(FILE_OF("aig 1 1 0 1 0\n3\n"));
    witness3(either, 1, FILE_OF("x"), 0, "x or not x: in three values no");
    witness(either, 1, FILE_OF("x"), 2, YES, 2, "x or not x: both fillings show a 1");
    witness(either, 1, FILE_OF("x"), UINT64_MAX, YES, 2, "more are allowed than there are");
    witness(either, 1, FILE_OF("x"), 1, UNDECIDED, 1, "one filling of two does not decide");
    witness(either, 1, FILE_OF("x"), 0, UNDECIDED, 0, "none is allowed");
    witness(either, 0, FILE_OF(""), 1, NO, 1, "an empty list shows no 1");
    witness3(alone, 1, FILE_OF("x"), 0, "x alone: no");
    witness(alone, 1, FILE_OF("x"), 2, NO, 1, "x alone: filling 0 fails");
    witness3(alone, 1, FILE_OF("1"), 1, "1 alone: yes");
    witness(alone, 1, FILE_OF("1"), 1, YES, 1, "a list without x has one filling");
    witness(turned, 2, FILE_OF("xx"), 4, NO, 4, "the last of four fillings fails");
    witness(turned, 2, FILE_OF("xx"), 3, UNDECIDED, 3, "and is not reached by three");
    not_asked(alone, 21, FILE_OF("xxxxxxxxxxxxxxxxxxxxx"), 20, 21, "21 x");
    not_asked(alone, 21, FILE_OF("xxxxxxxxxxxxxxxxxxxx"), 12, 2, "12 comes first");
}

/* A latch that starts as x and then is 0; its negation is an output. The x of the start come first. A constraint counts
   from its step on. */
static void fillings_of_starts(void) {
    struct circuit c = read_file(FILE_OF("aig 2 1 1 1 0\n0 4\n5\n"));
    struct circuit kept = read_file(FILE_OF("aig 2 1 1 1 0 0 1\n1\n4\n2\n"));
    witness(c, 1, FILE_OF("x"), 4, NO, 2, "filling 1 has the start at 1");
    witness(c, 1, FILE_OF("x"), 1, UNDECIDED, 1, "filling 0 has the start at 0");
    witness(c, 2, FILE_OF("xx"), 8, YES, 8, "the second step shows it");
    not_asked(c, 20, FILE_OF("xxxxxxxxxxxxxxxxxxxx"), 20, 21, "20 x and one of the start");
    witness(kept, 2, FILE_OF("11"), 1, YES, 1, "1 at the second step");
    witness(kept, 2, FILE_OF("x1"), 2, NO, 1, "but the constraint was 0 at the first");
}

/* One step of each row by itself, from the resets: next states, outputs, and per output the rows at 0, 1 and x. */
static void row_by_row(struct circuit c, uint64_t rows, const uint8_t *ins, uint8_t *nexts, uint8_t *outs,
                       uint32_t *report) {
    const uint64_t *n = COUNTS(c);
    for (uint64_t k = 0; k < rows; k++) {
        uint8_t *state = nexts + k * n[2], *out = outs + k * n[3];
        uint64_t answer[2];
        for (uint64_t i = 0; i < n[2]; i++)
            state[i] = (uint8_t) "01x"[c.table[4][i] < 2 ? c.table[4][i] : 2];
        golvanzo_step(n, SEVEN(c), TABLE(c, SCRATCH), state, n[2], ins + k * n[1], n[1], out, n[3], answer);
        expect(answer[0] == 0, "a row steps", "step");
        for (uint64_t j = 0; j < n[3]; j++)
            report[3 * j + (out[j] == 'x' ? 2 : out[j] - '0')]++;
    }
}

/* So many rows at once are the same rows one by one, and the report has their numbers; 65 rows have no lanes. */
static void rows_of(struct circuit c, uint64_t rows) {
    const uint64_t *n = COUNTS(c), refused = rows > 64 ? 13 : 0, place = rows > 64 ? 64 : 0;
    size_t l = rows * n[2], i = rows * n[1], o = rows * n[3], words = 3 * n[3], spare = words + 5;
    uint8_t *nexts = lend(l), *ins = lend(i), *outs = lend(o), *nexts_one = lend(l), *outs_one = lend(o);
    uint32_t *report = lend(4 * spare), *counts = calloc(words + 1, 4);
    uint64_t answer[2];
    for (size_t k = 0; k < i; k++)
        ins[k] = (uint8_t) "01x"[(k * k + k / 3) % 3];
    memset(nexts, '?', l), memset(outs, '?', o), memset(report, 0xA5, 4 * spare);
    golvanzo_rows(n, SEVEN(c), TABLE(c, SCRATCH), rows, nexts, l, ins, i, outs, o, answer);
    expect(answer[0] == refused && answer[1] == place, "done, or 13 at 64", "rows");
    expect(all_zero(c.table[SCRATCH], c.words[SCRATCH]), "scratch is zero", "rows");
    golvanzo_report_rows(n, SEVEN(c), TABLE(c, SCRATCH), rows, ins, i, report, spare, answer);
    expect(answer[0] == refused && answer[1] == place, "done, or 13 at 64", "report_rows");
    expect(all_zero(c.table[SCRATCH], c.words[SCRATCH]), "scratch is zero", "report_rows");
    if (refused)
        memset(nexts_one, '?', l), memset(outs_one, '?', o);
    else
        row_by_row(c, rows, ins, nexts_one, outs_one, counts);
    expect(memcmp(nexts, nexts_one, l) == 0, "next states are those of each row", "rows");
    expect(memcmp(outs, outs_one, o) == 0, "outputs are those of each row", "rows");
    expect(memcmp(report, counts, 4 * words) == 0, "each output's rows are counted", "report_rows");
    expect(all_zero(report + words, 5), "zero past them", "report_rows");
    free(counts);
}

/* Three latches, which start as 0, 1 and x, two inputs, three gates, four outputs. */
static void rows(void) {
    struct circuit c = read_file(FILE_OF("aig 8 2 3 4 3\n12\n15 1\n16 10\n16\n15\n3\n0\n\x02\x06\x02\x05\x02\x03"));
    uint64_t answer[2];
    struct bytes two = FILE_OF("01"), none = {NULL, 0};
    uint32_t *report = lend(4 * 11);
    expect(c.answer[0] == 0 && c.table[4][0] == 0 && c.table[4][1] == 1 && c.table[4][2] == 10, "starts 0, 1, x",
           "read");
    rows_of(c, 0), rows_of(c, 1), rows_of(c, 63), rows_of(c, 64), rows_of(c, 65);
    golvanzo_rows(COUNTS(c), SEVEN(c), TABLE(c, SCRATCH), 1, none.at, 0, two.at, 2, none.at, 0, answer);
    expect(answer[0] == 12 && answer[1] == 1, "12 at 1", "rows");
    golvanzo_report_rows(COUNTS(c), SEVEN(c), TABLE(c, SCRATCH), 65, two.at, 2, report, 11, answer);
    expect(answer[0] == 4 && answer[1] == 6 && all_zero(report, 11), "4 at 6, before 13", "report_rows");
}

/* An edit of one of three gates, 8 = 4 & 2, 10 = 8 & 6 and 12 = 11 & 9, over two inputs and a latch: what is answered, the
   right sides and the values afterwards. */
struct edit {
    uint64_t gate;
    uint32_t rhs0, rhs1;
    const char *values;
    uint64_t number, place;
    const uint32_t *sides;
    const char *after;
};

static void rewired(const struct edit *e, const char *what) {
    struct circuit c = read_file(FILE_OF("aag 6 2 1 1 3\n2\n4\n6 12\n13\n8 4 2\n10 8 6\n12 11 9\n"));
    struct bytes values = bytes_of(e->values, strlen(e->values));
    uint64_t answer[2];
    golvanzo_rewire(COUNTS(c), SEVEN(c), TABLE(c, SCRATCH), e->gate, e->rhs0, e->rhs1, values.at, values.length,
                    answer);
    expect(answer[0] == e->number && answer[1] == e->place, what, "rewire");
    expect(memcmp(values.at, e->after, values.length) == 0, "the values afterwards", what);
    for (uint32_t k = 0; k < 3; k++)
        expect(c.table[3][3 * k] == 2 * (k + 4) && c.table[3][3 * k + 1] == e->sides[2 * k] &&
                   c.table[3][3 * k + 2] == e->sides[2 * k + 1],
               "the gates afterwards", what);
    expect(all_zero(c.table[SCRATCH], c.words[SCRATCH]), "scratch is zero", what);
}

#define SIDES(...) ((const uint32_t[6]){__VA_ARGS__})

static void edits(void) {
    static const char now[] = "01x1xxx";
    static const uint32_t stays[6] = {4, 2, 8, 6, 11, 9};
    rewired(&(struct edit){0, 2, 2, now, 0, 0, SIDES(2, 2, 8, 6, 11, 9), "01x1110"}, "the first gate, equal sides");
    rewired(&(struct edit){1, 3, 8, now, 0, 0, SIDES(4, 2, 8, 3, 11, 9), "01x1x0x"},
            "the middle one, smaller side first");
    rewired(&(struct edit){1, 8, 3, now, 0, 0, SIDES(4, 2, 8, 3, 11, 9), "01x1x0x"},
            "the middle one, larger side first");
    rewired(&(struct edit){2, 1, 2, now, 0, 0, SIDES(4, 2, 8, 6, 2, 1), "01x1xx1"}, "the last one, with a constant");
    rewired(&(struct edit){3, 14, 14, "1", 22, 3, stays, "1"}, "22 at the number, before all that follow");
    rewired(&(struct edit){UINT64_MAX, 2, 2, now, 22, UINT64_MAX, stays, now}, "22 at the largest number");
    rewired(&(struct edit){0, 2, 14, "1", 5, 4, stays, "1"}, "5 at 4");
    rewired(&(struct edit){1, 10, 2, "1", 15, 0, stays, "1"}, "15 at 0, of a gate's own left side");
    rewired(&(struct edit){1, 8, 3, "11x1xx", 12, 4, stays, "11x1xx"}, "12 at 4");
    rewired(&(struct edit){1, 8, 3, "11x1xxx", 23, 0, stays, "11x1xxx"}, "23 at the constant");
    rewired(&(struct edit){1, 8, 3, "01y1000", 23, 2, stays, "01y1000"}, "23 at a byte but 0, 1, x");
    rewired(&(struct edit){1, 8, 3, "01x1x0x", 23, 5, stays, "01x1x0x"}, "23 at the least gate that is wrong");
}

/* Tables that are refused before an edit is looked at: they stay as they are. */
static void no_edits(void) {
    struct circuit c = read_file(FILE_OF(toggle_text)), b = read_file(FILE_OF(toggle_binary));
    struct bytes values = FILE_OF("????????");
    uint64_t answer[2];
    golvanzo_rewire(COUNTS(c), SEVEN(c), TABLE(c, SCRATCH), 9, 0, 0, values.at, values.length, answer);
    expect(answer[0] == 15 && answer[1] == 0, "15 at 0, of tables", "rewire");
    expect(c.table[3][1] == 4 && c.table[3][2] == 10, "the gates stay", "rewire");
    golvanzo_rewire(COUNTS(b), SEVEN(b), b.table[SCRATCH], b.words[SCRATCH] - 1, 9, 0, 0, values.at, values.length,
                    answer);
    expect(answer[0] == 4 && answer[1] == 5, "4 at 5", "rewire");
    expect(memcmp(values.at, "????????", values.length) == 0, "the values stay", "rewire");
}

/* A file, the number and the place of its refusal. */
static const struct refused {
    const char *file;
    size_t length;
    uint64_t number, place;
} refused_files[] = {
#define REFUSED(file, number, place)                                                                                   \
    { file, sizeof file - 1, number, place }
    REFUSED("aag 0 0 0 0 0", 1, 13),
    REFUSED("", 1, 0),
    REFUSED("aag 1048576 0 0 0 0\n", 2, 4),
    REFUSED("aag 1 1 1 0 0\n", 3, 0),
    REFUSED("aag 1 1 0 1 0\n2\n4\n", 5, 16),
    REFUSED("aag 1 0 1 0 0\n2 3 3\n", 5, 18),
    REFUSED("aag 2 2 0 0 0\n2\n2\n", 6, 16),
    REFUSED("aag 2 1 0 1 0\n2\n4\n", 7, 2),
    REFUSED("aag 2 0 0 0 2\n2 4 1\n4 2 1\n", 8, 1),
    REFUSED("aig 1 0 0 0 1\n\x02\x01", 9, 15),
    REFUSED("aag 1 1 0 1 0\n2\n2\ni1 p\n", 10, 18),
    REFUSED("aig 1 0 0 0 1\n\x82\x00", 16, 14),
    REFUSED("aag 0 0 0 0 0 0 0 1\n", 21, 18),
};

static void refusals(void) {
    for (size_t k = 0; k < sizeof refused_files / sizeof refused_files[0]; k++) {
        const struct refused *r = &refused_files[k];
        struct circuit c = read_alone(bytes_of(r->file, r->length));
        expect(c.answer[0] == r->number && c.answer[1] == r->place, "the number and the place", r->file);
        expect(c.tail == r->length, "after a refusal the tail is empty", r->file);
        for (int t = 0; t < TABLES; t++)
            expect(all_zero(c.table[t], c.words[t]), "after a refusal every table is zero", r->file);
    }
}

/* Refusals of calls on tables: too short a table, buffer and vector, and no binary order. */
static void table_refusals(void) {
    struct circuit c = read_file(FILE_OF(toggle_text)), b = read_file(FILE_OF(toggle_binary));
    struct bytes out = FILE_OF("unchanged"), in = FILE_OF("12"), state = FILE_OF("0"), outs = FILE_OF("??");
    uint64_t answer[3];
    golvanzo_check(COUNTS(c), SEVEN(c), TABLE(c, SCRATCH), answer);
    expect(answer[0] == 0, "T is a circuit", "check");
    golvanzo_check(COUNTS(c), SEVEN(c), c.table[SCRATCH], c.words[SCRATCH] - 1, answer);
    expect(answer[0] == 4 && answer[1] == 5, "4 at 5", "check");
    golvanzo_write_text(COUNTS(c), SEVEN(c), TABLE(c, SCRATCH), NULL, 0, out.at, out.length, answer);
    expect(answer[0] == 11 && answer[1] == sizeof toggle_text - 1, "11 at the length needed", "write_text");
    expect(memcmp(out.at, "unchanged", out.length) == 0, "a refusal changes no byte", "write_text");
    golvanzo_write_binary(COUNTS(c), SEVEN(c), TABLE(c, SCRATCH), NULL, 0, out.at, out.length, answer);
    expect(answer[0] == 15 && answer[1] == 0, "15 at 0", "write_binary");
    golvanzo_step(COUNTS(b), SEVEN(b), TABLE(b, SCRATCH), state.at, 1, in.at, 2, outs.at, 2, answer);
    expect(answer[0] == 12 && answer[1] == 2, "12 at 2", "step");
    expect(state.at[0] == '0' && memcmp(outs.at, "??", 2) == 0, "a refusal changes no byte", "step");
}

/* A binary file of a million gates, each of the two variables below it, with a symbol for every other entry. */
static struct bytes million(void) {
    static const char head[] = "aig 1000003 2 1 1 1000000\n2000006\n2000007\n", tail[] = "i0 p\ni1 q\nl0 r\no0 s\n";
    enum { HEAD = sizeof head - 1, GATES = 2 * 1000000, TAIL = sizeof tail - 1 };
    struct bytes file = {lend(HEAD + GATES + TAIL), HEAD + GATES + TAIL};
    memcpy(file.at, head, HEAD);
    memset(file.at + HEAD, 2, GATES);
    memcpy(file.at + HEAD + GATES, tail, TAIL);
    return file;
}

static int each_of_the_two_below(const uint32_t *gates) {
    for (uint32_t k = 0; k < 1000000; k++)
        if (gates[3 * k] != 2 * (k + 4) || gates[3 * k + 1] != 2 * (k + 3) || gates[3 * k + 2] != 2 * (k + 2))
            return 0;
    return 1;
}

/* Table 5 of a million gates' binary file: I + L + O words to read it, one fewer is refused; other calls need more. */
static void little_scratch(void) {
    struct bytes file = million();
    struct circuit c = read_alone(file), old = read_file_2007(file), fewer = tables_for(file);
    uint64_t answer[2];
    expect(c.words[SCRATCH] == 2 + 1 + 1, "four words of scratch", "words");
    expect(c.answer[0] == 0 && c.tail == file.length - 20, "a million gates are read with them", "read");
    expect(each_of_the_two_below(c.table[3]), "each gate is of the two variables below it", "read");
    expect(all_zero(c.table[SCRATCH], c.words[SCRATCH]), "scratch is zero", "read");
    expect(old.answer[0] == 0 && each_of_the_two_below(old.table[3]), "and by the reader of 2007", "read2007");
    golvanzo_read(file.at, file.length, SEVEN(fewer), fewer.table[SCRATCH], 3, fewer.answer);
    expect(fewer.answer[0] == 4 && fewer.answer[1] == 5, "not with three", "read");
    golvanzo_check(COUNTS(c), SEVEN(c), TABLE(c, SCRATCH), answer);
    expect(answer[0] == 4 && answer[1] == 5, "four are too few to check it", "check");
    c = to_work(c);
    golvanzo_check(COUNTS(c), SEVEN(c), TABLE(c, SCRATCH), answer);
    expect(c.words[SCRATCH] == 4000017 && answer[0] == 0, "4 x (M + 1) + O are enough", "check");
}

int main(void) {
    sizes();
    toggle_both_forms();
    tails();
    aiger_19();
    contradiction();
    unused_gates();
    reports();
    witnesses3();
    fillings();
    fillings_of_starts();
    rows();
    needles();
    trace(golvanzo_step, "step");
    trace(golvanzo_step_plain, "step_plain");
    plain_engine();
    edits();
    no_edits();
    cards();
    refusals();
    table_refusals();
    little_scratch();
    printf("%d passed, %d failed\n", passed, failed);
    return failed != 0;
}
