/* Runs each of the desk's calls on a painted stack of its own, on a small and on a large circuit, and prints how many
   bytes of it the call has used: what is no longer painted, less what an empty call uses. */
#define _GNU_SOURCE
#include <stdint.h>
#include <stdio.h>
#include <stdlib.h>
#include <string.h>
#include <ucontext.h>

#include "work.h"

enum { STACK = 1 << 20, PAINT = 0xA5 };

static call *running;
static struct work *worked_on;

static void empty(struct work *w) { w->answer[0] = 0; }

static void start(void) { running(worked_on); }

/* Bytes of the stack that are no longer painted. */
static size_t used_by(call *run, struct work *w) {
    ucontext_t here, there;
    uint8_t *stack = room(STACK), *at = stack;
    memset(stack, PAINT, STACK);
    if (getcontext(&there) != 0)
        give_up("no context");
    there.uc_stack.ss_sp = stack;
    there.uc_stack.ss_size = STACK;
    there.uc_link = &here;
    running = run;
    worked_on = w;
    makecontext(&there, start, 0);
    if (swapcontext(&here, &there) != 0 || w->answer[0] != 0)
        give_up("a call on a stack of its own fails");
    while (*at == PAINT)
        at++;
    size_t used = (size_t)(stack + STACK - at);
    free(stack);
    return used;
}

/* A circuit in binary order, and the same shuffled and renamed, which calls that take any order are given. */
struct pair {
    struct work easy, hard;
};

static struct pair pair_of(uint32_t gates) {
    struct circuit c = random_circuit(gates, 12);
    uint32_t *order = shuffled(gates), *names = shuffled(gates);
    struct pair p = {.hard = work_on(arranged(&c, order, names)), .easy = work_on(c)};
    /* so that an output can be explained */
    memset(p.easy.ins, '1', p.easy.given.counts[I]);
    base_encode(&p.easy);
    base_print(&p.hard);
    free(order);
    free(names);
    return p;
}

int main(void) {
    static const struct {
        const char *name;
        call *run;
        int hard;
    } rows[] = {{"read, binary", desk_read, 0},
                {"read, text", desk_read, 1},
                {"check", desk_check, 1},
                {"write_text", desk_write_text, 1},
                {"write_binary", desk_write_binary, 0},
                {"convert", desk_convert, 1},
                {"reduce", desk_reduce, 0},
                {"drop", desk_drop, 0},
                {"step", desk_step, 0},
                {"explain", desk_explain, 0},
                {"rows", desk_rows, 0},
                {"report_rows", desk_report_rows, 0},
                {"witness", desk_witness, 0},
                {"witness3", desk_witness3, 0},
                {"report", desk_report, 0}};
    struct pair small = pair_of(10000), large = pair_of(1000000);
    /* The first call finds its own way through the dynamic linker. */
    used_by(desk_read, &small.easy);
    printf("| bytes of stack | 10000 gates | 1000000 gates |\n|---|--:|--:|\n");
    for (size_t k = 0; k < sizeof rows / sizeof rows[0]; k++) {
        size_t none = used_by(empty, &small.easy);
        printf("| `golvanzo_%s` | %zu | %zu |\n", rows[k].name,
               used_by(rows[k].run, rows[k].hard ? &small.hard : &small.easy) - none,
               used_by(rows[k].run, rows[k].hard ? &large.hard : &large.easy) - none);
    }
    free_work(&small.easy), free_work(&small.hard), free_work(&large.easy), free_work(&large.hard);
    return 0;
}
