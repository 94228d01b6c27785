/* pipe desk|base IN OUT: reads a binary file, reduces the circuit and writes it as a binary file, by the desk's calls
   or by the baseline. pipe text|binary IN OUT: reads a file of the other form and writes it in this one, by the desk's
   calls. pipe make GATES OUT writes a random circuit. */
#include <stdint.h>
#include <stdio.h>
#include <stdlib.h>
#include <string.h>

#include "work.h"

static uint8_t *slurp(const char *name, size_t *length) {
    FILE *f = fopen(name, "rb");
    if (f == NULL || fseek(f, 0, SEEK_END) != 0)
        give_up("a file can't be opened");
    *length = (size_t)ftell(f);
    rewind(f);
    uint8_t *bytes = malloc(*length + 1);
    if (bytes == NULL || fread(bytes, 1, *length, f) != *length)
        give_up("a file can't be read");
    bytes[*length] = 0;
    fclose(f);
    return bytes;
}

static void spill(const char *name, const uint8_t *bytes, size_t length) {
    FILE *f = fopen(name, "wb");
    if (f == NULL || fwrite(bytes, 1, length, f) != length || fclose(f) != 0)
        give_up("a file can't be written");
}

/* No byte of a table is touched before it is used. */
static void *lent(size_t bytes) {
    void *memory = malloc(bytes + 8);
    if (memory == NULL)
        give_up("no memory");
    return memory;
}

static struct circuit lent_circuit(const uint8_t *file, size_t length) {
    static const uint64_t numbers[CIRCUIT] = {1, 2, 3, 4, 7, 8, 9};
    struct circuit c = {.counts = {0}};
    for (int t = 0; t < CIRCUIT; t++) {
        c.length[t] = golvanzo_words(file, length, numbers[t]);
        c.table[t] = lent(4 * c.length[t]);
    }
    return c;
}

/* As many bytes as a binary file of these counts can have, and as a text file can. */
static size_t longest(const uint64_t *counts) { return 60 + 8 * (counts[L] + counts[O]) + 6 * counts[A]; }

static size_t longest_text(const uint64_t *counts) {
    return 60 + 8 * (counts[I] + 2 * counts[L] + counts[O] + 3 * counts[A]);
}

struct scratch {
    uint32_t *at;
    size_t length;
};

/* Table 5 to read a file and for every later call: a binary file's M is that of its other tables. */
static struct scratch scratch_for(const uint8_t *file, size_t length) {
    size_t asked = golvanzo_words(file, length, 5), n[10] = {0};
    for (int t = 1; t < 10; t++)
        n[t] = t == 5 || t == 6 ? 0 : golvanzo_words(file, length, (uint64_t)t);
    size_t later = 4 * (n[1] + n[2] / 2 + n[4] / 3 + 1) + n[3] + n[8] + n[9], most = asked > later ? asked : later;
    return (struct scratch){lent(4 * most), most};
}

static struct circuit read_file(const uint8_t *file, size_t length, struct scratch s) {
    struct circuit c = lent_circuit(file, length);
    uint64_t answer[2 + COUNTS];
    golvanzo_read(file, length, TABLES(c), s.at, s.length, answer);
    if (answer[0] != 0)
        give_up("the desk refuses the file");
    memcpy(c.counts, answer + 2, sizeof c.counts);
    return c;
}

typedef void writer(const uint64_t *, GOLVANZO_GIVEN, GOLVANZO_SCRATCH, const uint8_t *, size_t, uint8_t *, size_t,
                    uint64_t *);

static void write_file(struct circuit c, struct scratch s, writer *write, size_t most, const char *to) {
    uint8_t *out = lent(most);
    uint64_t answer[3];
    write(c.counts, TABLES(c), s.at, s.length, NULL, 0, out, most, answer);
    if (answer[0] != 0)
        give_up("the desk refuses to write");
    spill(to, out, answer[2]);
}

typedef void changer(const uint64_t *counts, GOLVANZO_GIVEN, GOLVANZO_WRITTEN, GOLVANZO_SCRATCH, uint64_t *answer);

/* The changed circuit in binary form. */
static void change_file(const uint8_t *file, size_t length, changer *change, const char *to) {
    struct scratch s = scratch_for(file, length);
    struct circuit c = read_file(file, length, s), made = lent_circuit(file, length);
    uint64_t answer[2 + COUNTS];
    change(c.counts, TABLES(c), TABLES(made), s.at, s.length, answer);
    if (answer[0] != 0)
        give_up("the desk refuses the circuit");
    memcpy(made.counts, answer + 2, sizeof made.counts);
    write_file(made, s, golvanzo_write_binary, longest(made.counts), to);
}

static void by_desk(const uint8_t *file, size_t length, const char *to) {
    change_file(file, length, golvanzo_reduce, to);
}

static void to_binary(const uint8_t *file, size_t length, const char *to) {
    change_file(file, length, golvanzo_convert, to);
}

static void to_text(const uint8_t *file, size_t length, const char *to) {
    struct scratch s = scratch_for(file, length);
    struct circuit c = read_file(file, length, s);
    write_file(c, s, golvanzo_write_text, longest_text(c.counts), to);
}

static void by_base(const uint8_t *file, size_t length, const char *to) {
    struct circuit c = lent_circuit(file, length), made = lent_circuit(file, length);
    if (decodec(file, file + length, &c) == NULL)
        give_up("the baseline refuses the file");
    struct base b = base_for(c.counts);
    strash(&b, &c, &made);
    memcpy(made.counts, c.counts, sizeof made.counts);
    made.counts[A] = b.retained;
    made.counts[M] = c.counts[I] + c.counts[L] + b.retained;
    uint8_t *out = lent(longest(made.counts));
    spill(to, out, encode(&made, out));
}

static void make(uint32_t gates, const char *to) {
    struct circuit c = random_circuit(gates, 12);
    uint8_t *out = lent(longest(c.counts));
    spill(to, out, encode(&c, out));
}

int main(int argc, char **argv) {
    static const struct {
        const char *name;
        void (*run)(const uint8_t *, size_t, const char *);
    } ways[] = {{"desk", by_desk}, {"base", by_base}, {"text", to_text}, {"binary", to_binary}};
    size_t length;
    if (argc != 4)
        give_up("pipe desk|base|text|binary IN OUT, or pipe make GATES OUT");
    if (strcmp(argv[1], "make") == 0) {
        make((uint32_t)atoi(argv[2]), argv[3]);
        return 0;
    }
    uint8_t *file = slurp(argv[2], &length);
    for (size_t k = 0; k < sizeof ways / sizeof ways[0]; k++)
        if (strcmp(argv[1], ways[k].name) == 0)
            ways[k].run(file, length, argv[3]);
    return 0;
}
