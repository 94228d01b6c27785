/* What the server is sent and sends: a file is u64 length and its bytes. Counts and an answer (of u64), a table (of u32),
   a tail, a buffer, a vector and a list (of u8) are u64 margin, u64 length and (margin + length + margin) elements, of which the middle is
   lent; their reply is all of those elements. */
#ifndef WIRE_H
#define WIRE_H

#include <stdint.h>
#include <stdio.h>
#include <stdlib.h>

#define TABLES 8
#define CIRCUIT 7

struct file {
    uint8_t *bytes;
    size_t length;
};

struct memory {
    void *all, *lent;
    size_t bytes, length;
};

/* Two arguments: where the memory starts and how many elements it has. */
#define LENT(memory) (memory).lent, (memory).length

/* What every call on tables is lent. */
struct given {
    struct memory counts, table[CIRCUIT], scratch;
};

/* A circuit's tables as arguments: 1 to 4, then 7 to 9. */
#define LENT_ALL(t) LENT((t)[0]), LENT((t)[1]), LENT((t)[2]), LENT((t)[3]), LENT((t)[4]), LENT((t)[5]), LENT((t)[6])

/* The first arguments of such a call. */
#define CIRCUIT_OF(given) (given).counts.lent, LENT_ALL((given).table)

static void give_up(const char *why) {
    fprintf(stderr, "server: %s\n", why);
    exit(1);
}

static void get(void *to, size_t length) {
    if (length > 0 && fread(to, length, 1, stdin) != 1)
        give_up("a request ends early");
}

static void put(const void *from, size_t length) {
    if (length > 0 && fwrite(from, length, 1, stdout) != 1)
        give_up("a reply can't be written");
}

static uint64_t get_number(void) {
    uint64_t number;
    get(&number, sizeof number);
    return number;
}

static void put_number(uint64_t number) { put(&number, sizeof number); }

/* Memory of exactly this length, so that a checker of addresses sees what lies outside; filled from the request. */
static void *get_bytes(size_t length) {
    void *bytes = malloc(length);
    if (bytes == NULL && length > 0)
        give_up("no memory");
    get(bytes, length);
    return bytes;
}

static struct file get_file(void) {
    size_t length = get_number();
    return (struct file){get_bytes(length), length};
}

static struct memory get_memory(size_t element) {
    size_t margin = get_number(), length = get_number(), bytes = (margin + length + margin) * element;
    uint8_t *all = get_bytes(bytes);
    return (struct memory){all, all + margin * element, bytes, length};
}

static void put_memory(struct memory memory) {
    put(memory.all, memory.bytes);
    free(memory.all);
}

static struct memory get_table(void) { return get_memory(sizeof(uint32_t)); }

static struct memory get_numbers(void) { return get_memory(sizeof(uint64_t)); }

static struct memory get_vector(void) { return get_memory(sizeof(uint8_t)); }

static struct given get_given(void) {
    struct given given;
    given.counts = get_numbers();
    for (int k = 0; k < CIRCUIT; k++)
        given.table[k] = get_table();
    given.scratch = get_table();
    return given;
}

static void put_all(const struct memory *memory, int number) {
    for (int k = 0; k < number; k++)
        put_memory(memory[k]);
}

static void put_given(struct given given) {
    put_memory(given.counts);
    put_all(given.table, CIRCUIT);
    put_memory(given.scratch);
}

/* The reply of a call on tables: what is given, and then what else is lent. */
#define REPLY(given, ...)                                                                                              \
    do {                                                                                                               \
        const struct memory lent_too[] = {__VA_ARGS__};                                                                \
        put_given(given);                                                                                              \
        put_all(lent_too, sizeof lent_too / sizeof lent_too[0]);                                                       \
    } while (0)

#endif
