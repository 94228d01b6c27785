/* Calls the desk for another process, so that a program of any machine can hold it to its answers. Requests come on
   standard input, one after another, and replies go to standard output in the same order; every number is little
   endian, as this program's machine has it:

   u32 call     what follows                                              the reply
   0 send       nothing                                                   nothing: all replies are sent now
   1 words      file, u64 n, n times u64 table                            n times u64
   2 read       file, tables by number, answer                            these tables, answer, u64 tail
   3 check      given, answer                                             all of these
   4 text       given, tail, buffer, answer                               all of these
   5 binary     the same                                                  all of these
   6 convert    given, a circuit's tables to write, answer                all of these
   7 reduce     the same                                                  all of these
   8 step       given, state, inputs, outputs, answer                     all of these
   9 witness    given, u64 number, u64 allowance, list, answer            all of these but the numbers
   10 read2007  as read                                                   as read
   11 drop      as reduce                                                 as reduce
   12 report    given, table 6, u64 number, list, answer                  all of these but the number
   13 witness3  given, u64 number, list, answer                           all of these but the number
   14 rows      given, u64 rows, next states, inputs, outputs, answer     all of these but the number
   15 rowreport given, table 6, u64 rows, inputs, answer                  all of these but the number
   16 explain   given, u64 output, state, inputs, marks, answer           all of these but the number
   17 plain     as step                                                   as step
   18 rewire    given, u64 gate, u64 rhs0, u64 rhs1, values, answer       all of these but the numbers
   19 cards     file, tables by number, answer                            these tables, answer
   20 to cards  as text                                                   as text

   Given are counts, a circuit's tables (1 to 4, 7 to 9) and scratch. What these are is said in wire.h. */
#include <stdint.h>
#include <stdio.h>

#include "golvanzo.h"
#include "wire.h"

static void call_words(void) {
    struct file file = get_file();
    for (uint64_t left = get_number(); left > 0; left--)
        put_number(golvanzo_words(file.bytes, file.length, get_number()));
    free(file.bytes);
}

/* The tables of a reader, by number, and its answer. */
struct tables {
    struct memory table[TABLES], answer;
};

static struct tables get_tables(void) {
    struct tables tables;
    for (int k = 0; k < TABLES; k++)
        tables.table[k] = get_table();
    tables.answer = get_numbers();
    return tables;
}

static void put_tables(struct tables tables) {
    put_all(tables.table, TABLES);
    put_memory(tables.answer);
}

/* Tables 1 to 4, 7 to 9, scratch and the answer, as a reader takes them. */
#define LENT_BY_NUMBER(t)                                                                                              \
    LENT((t).table[0]), LENT((t).table[1]), LENT((t).table[2]), LENT((t).table[3]), LENT((t).table[5]),                \
        LENT((t).table[6]), LENT((t).table[7]), LENT((t).table[4]), (t).answer.lent

typedef uint64_t reader(const uint8_t *, golvanzo_size, uint32_t *, golvanzo_size, uint32_t *, golvanzo_size,
                        uint32_t *, golvanzo_size, uint32_t *, golvanzo_size, uint32_t *, golvanzo_size, uint32_t *,
                        golvanzo_size, uint32_t *, golvanzo_size, uint32_t *, golvanzo_size, uint64_t *);

static void call_read(reader *read) {
    struct file file = get_file();
    struct tables tables = get_tables();
    uint64_t tail = read(file.bytes, file.length, LENT_BY_NUMBER(tables));
    put_tables(tables);
    put_number(tail);
    free(file.bytes);
}

static void call_read_cards(void) {
    struct file file = get_file();
    struct tables tables = get_tables();
    golvanzo_read_cards(file.bytes, file.length, LENT_BY_NUMBER(tables));
    put_tables(tables);
    free(file.bytes);
}

static void call_check(void) {
    struct given given = get_given();
    struct memory answer = get_numbers();
    golvanzo_check(CIRCUIT_OF(given), LENT(given.scratch), answer.lent);
    REPLY(given, answer);
}

typedef void writer(const uint64_t *, GOLVANZO_GIVEN, GOLVANZO_SCRATCH, const uint8_t *, golvanzo_size, uint8_t *,
                    golvanzo_size, uint64_t *);

static void call_write(writer *write) {
    struct given given = get_given();
    struct memory tail = get_vector(), out = get_vector(), answer = get_numbers();
    write(CIRCUIT_OF(given), LENT(given.scratch), LENT(tail), LENT(out), answer.lent);
    REPLY(given, tail, out, answer);
}

typedef void change(const uint64_t *, GOLVANZO_GIVEN, GOLVANZO_WRITTEN, GOLVANZO_SCRATCH, uint64_t *);

static void call_change(change *change) {
    struct given given = get_given();
    struct memory w[CIRCUIT];
    for (int k = 0; k < CIRCUIT; k++)
        w[k] = get_table();
    struct memory answer = get_numbers();
    change(CIRCUIT_OF(given), LENT_ALL(w), LENT(given.scratch), answer.lent);
    put_given(given);
    put_all(w, CIRCUIT);
    put_memory(answer);
}

typedef void stepper(const uint64_t *, GOLVANZO_GIVEN, GOLVANZO_SCRATCH, uint8_t *, golvanzo_size, const uint8_t *,
                     golvanzo_size, uint8_t *, golvanzo_size, uint64_t *);

static void call_step(stepper *step) {
    struct given given = get_given();
    struct memory state = get_vector(), ins = get_vector(), outs = get_vector(), answer = get_numbers();
    step(CIRCUIT_OF(given), LENT(given.scratch), LENT(state), LENT(ins), LENT(outs), answer.lent);
    REPLY(given, state, ins, outs, answer);
}

static void call_witness(void) {
    struct given given = get_given();
    uint64_t number = get_number(), allowance = get_number();
    struct memory list = get_vector(), answer = get_numbers();
    golvanzo_witness(CIRCUIT_OF(given), LENT(given.scratch), number, LENT(list), allowance, answer.lent);
    REPLY(given, list, answer);
}

static void call_witness3(void) {
    struct given given = get_given();
    uint64_t number = get_number();
    struct memory list = get_vector(), answer = get_numbers();
    golvanzo_witness3(CIRCUIT_OF(given), LENT(given.scratch), number, LENT(list), answer.lent);
    REPLY(given, list, answer);
}

typedef void report(const uint64_t *, GOLVANZO_GIVEN, GOLVANZO_SCRATCH, uint64_t, const uint8_t *, golvanzo_size,
                    uint32_t *, golvanzo_size, uint64_t *);

static void call_report(report *tell) {
    struct given given = get_given();
    struct memory report = get_table();
    uint64_t number = get_number();
    struct memory list = get_vector(), answer = get_numbers();
    tell(CIRCUIT_OF(given), LENT(given.scratch), number, LENT(list), LENT(report), answer.lent);
    REPLY(given, report, list, answer);
}

static void call_rows(void) {
    struct given given = get_given();
    uint64_t rows = get_number();
    struct memory nexts = get_vector(), ins = get_vector(), outs = get_vector(), answer = get_numbers();
    golvanzo_rows(CIRCUIT_OF(given), LENT(given.scratch), rows, LENT(nexts), LENT(ins), LENT(outs), answer.lent);
    REPLY(given, nexts, ins, outs, answer);
}

static void call_explain(void) {
    struct given given = get_given();
    uint64_t output = get_number();
    struct memory state = get_vector(), ins = get_vector(), marks = get_vector(), answer = get_numbers();
    golvanzo_explain(CIRCUIT_OF(given), LENT(given.scratch), LENT(state), LENT(ins), output, LENT(marks), answer.lent);
    REPLY(given, state, ins, marks, answer);
}

static void call_rewire(void) {
    struct given given = get_given();
    uint64_t gate = get_number();
    uint32_t rhs0 = (uint32_t)get_number(), rhs1 = (uint32_t)get_number();
    struct memory values = get_vector(), answer = get_numbers();
    golvanzo_rewire(CIRCUIT_OF(given), LENT(given.scratch), gate, rhs0, rhs1, LENT(values), answer.lent);
    REPLY(given, values, answer);
}

static void send_replies(void) {
    if (fflush(stdout) != 0)
        give_up("replies can't be sent");
}

/* A line for each call of the table above. */
static void serve(uint32_t call) {
    switch (call) {
    /* clang-format off */
    case 0: send_replies(); break;
    case 1: call_words(); break;
    case 2: call_read(golvanzo_read); break;
    case 3: call_check(); break;
    case 4: call_write(golvanzo_write_text); break;
    case 5: call_write(golvanzo_write_binary); break;
    case 6: call_change(golvanzo_convert); break;
    case 7: call_change(golvanzo_reduce); break;
    case 8: call_step(golvanzo_step); break;
    case 9: call_witness(); break;
    case 10: call_read(golvanzo_read2007); break;
    case 11: call_change(golvanzo_drop); break;
    case 12: call_report(golvanzo_report); break;
    case 13: call_witness3(); break;
    case 14: call_rows(); break;
    case 15: call_report(golvanzo_report_rows); break;
    case 16: call_explain(); break;
    case 17: call_step(golvanzo_step_plain); break;
    case 18: call_rewire(); break;
    case 19: call_read_cards(); break;
    case 20: call_write(golvanzo_write_cards); break;
    default: give_up("no such call");
        /* clang-format on */
    }
}

int main(void) {
    uint32_t call;
    while (fread(&call, sizeof call, 1, stdin) == 1)
        serve(call);
    return 0;
}
