/* Makes the files that the command is tried on.

   make large GATES FOLDER       a plan of so many gates in both forms, the same with its gates and names shuffled, and what
                                 the baseline of bench/ makes of them: converted, reduced, stepped
   make cycle GATES FILE         a plan whose gates all lie on one cycle
   make damaged N FOLDER FILE..  N damaged copies of each file */
#include <stdio.h>
#include <stdlib.h>
#include <string.h>

#include "../../bench/baseline.h"
#include "../../bench/circuit.h"

static void spill(const char *folder, const char *name, const uint8_t *bytes, size_t length) {
    char path[4096];
    snprintf(path, sizeof path, "%s%s%s", folder, folder[0] == '\0' ? "" : "/", name);
    FILE *f = fopen(path, "wb");
    if (f == NULL || fwrite(bytes, 1, length, f) != length || fclose(f) != 0)
        give_up("a file can't be written");
}

/* As many bytes as a file of these counts can have in either form. */
static uint8_t *room_for(const struct circuit *c) {
    return room(60 + 8 * (c->counts[I] + 2 * c->counts[L] + c->counts[O]) + 24 * c->counts[A]);
}

static void spill_text(const struct circuit *c, const char *folder, const char *name) {
    uint8_t *out = room_for(c);
    spill(folder, name, out, print(c, out));
    free(out);
}

static void spill_binary(const struct circuit *c, const char *folder, const char *name) {
    uint8_t *out = room_for(c);
    spill(folder, name, out, encode(c, out));
    free(out);
}

static void spill_reduced(struct base *b, const struct circuit *c, const char *folder, const char *name) {
    struct circuit made = tables_for(c->counts);
    strash(b, c, &made);
    memcpy(made.counts, c->counts, sizeof made.counts);
    made.counts[A] = b->retained;
    made.counts[M] = c->counts[I] + c->counts[L] + b->retained;
    spill_binary(&made, folder, name);
    free_circuit(&made);
}

/* Some steps from all 0: the vectors, and a line for each as the tracer writes it. */
static void spill_steps(struct base *b, const struct circuit *c, const char *folder) {
    enum { STEPS = 5 };
    size_t i = c->counts[I], l = c->counts[L], o = c->counts[O], line = 2 * l + i + o + 4;
    uint8_t *vectors = room(STEPS * (i + 1)), *lines = room(STEPS * line), *state = room(l + 1);
    memset(state, '0', l);
    for (size_t k = 0; k < STEPS; k++) {
        uint8_t *ins = vectors + k * (i + 1), *to = lines + k * line;
        for (size_t j = 0; j < i; j++)
            ins[j] = (uint8_t) "01x"[below(3)];
        ins[i] = '\n';
        memcpy(to, state, l), to[l] = ' ';
        memcpy(to + l + 1, ins, i), to[l + 1 + i] = ' ';
        step3(b, c, state, ins, to + l + i + 2);
        to[l + i + 2 + o] = ' ', memcpy(to + l + i + o + 3, state, l), to[line - 1] = '\n';
    }
    spill(folder, "vectors", vectors, STEPS * (i + 1));
    spill(folder, "trace", lines, STEPS * line);
    free(vectors), free(lines), free(state);
}

static void make_large(uint32_t gates, const char *folder) {
    struct circuit c = random_circuit(gates, 12), converted = tables_for(c.counts);
    struct base b = base_for(c.counts);
    uint32_t *order = shuffled(gates), *names = shuffled(gates);
    struct circuit mixed = arranged(&c, order, names);
    convert(&b, &mixed, &converted);
    spill_binary(&c, folder, "plan.aig");
    spill_text(&c, folder, "plan.aag");
    spill_text(&mixed, folder, "mixed.aag");
    spill_binary(&converted, folder, "converted.aig");
    spill_reduced(&b, &c, folder, "reduced.aig");
    spill_reduced(&b, &converted, folder, "mixed-reduced.aig");
    spill_steps(&b, &c, folder);
    free_circuit(&c), free_circuit(&mixed), free_circuit(&converted);
    free_base(&b), free(order), free(names);
}

/* Each gate takes the next, the last the first. */
static void make_cycle(uint32_t gates, const char *name) {
    FILE *f = fopen(name, "wb");
    if (f == NULL)
        give_up("a file can't be written");
    fprintf(f, "aag %u 0 0 0 %u\n", gates, gates);
    for (uint32_t k = 0; k < gates; k++)
        fprintf(f, "%u %u 1\n", 2 * (k + 1), 2 * ((k + 1) % gates + 1));
    if (fclose(f) != 0)
        give_up("a file can't be written");
}

/* What stands there instead: a digit, what parts numbers, a letter of the format, or any byte. */
static uint8_t some_byte(void) {
    static const char likely[] = "0123456789 \n\n  aigclobjf";
    return below(4) > 0 ? (uint8_t)likely[below(sizeof likely - 1)] : (uint8_t)below(256);
}

/* One byte changed, put in or left out, or the end cut off; the new length. */
static size_t damage(uint8_t *bytes, size_t length) {
    size_t at = below((uint32_t)length + 1);
    switch (length == 0 || at == length ? 1 : below(8)) {
    case 0:
        return at;
    case 1:
    case 2:
        memmove(bytes + at + 1, bytes + at, length - at);
        bytes[at] = some_byte();
        return length + 1;
    case 3:
        memmove(bytes + at, bytes + at + 1, length - at - 1);
        return length - 1;
    default:
        bytes[at] = some_byte();
        return length;
    }
}

static void make_damaged(uint32_t copies, const char *folder, const char *name) {
    enum { MOST = 1 << 20 };
    static uint8_t bytes[MOST], copy[MOST + 8];
    static unsigned made;
    char to[32];
    FILE *f = fopen(name, "rb");
    if (f == NULL)
        give_up("a file can't be read");
    size_t length = fread(bytes, 1, sizeof bytes, f);
    fclose(f);
    for (uint32_t k = 0; k < copies; k++) {
        size_t left = length;
        memcpy(copy, bytes, length);
        for (uint32_t times = 1 + below(3); times > 0; times--)
            left = damage(copy, left);
        snprintf(to, sizeof to, "%05u", made++);
        spill(folder, to, copy, left);
    }
}

int main(int argc, char **argv) {
    if (argc == 4 && strcmp(argv[1], "large") == 0)
        make_large((uint32_t)atoi(argv[2]), argv[3]);
    else if (argc == 4 && strcmp(argv[1], "cycle") == 0)
        make_cycle((uint32_t)atoi(argv[2]), argv[3]);
    else if (argc > 4 && strcmp(argv[1], "damaged") == 0)
        for (int k = 4; k < argc; k++)
            make_damaged((uint32_t)atoi(argv[2]), argv[3], argv[k]);
    else
        give_up("make large GATES FOLDER, make cycle GATES FILE, make damaged N FOLDER FILE..");
    return 0;
}
