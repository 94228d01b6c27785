#define _GNU_SOURCE
#include "progress.h"

#include <stdint.h>
#include <stdio.h>
#include <stdlib.h>
#include <string.h>
#include <time.h>
#include <unistd.h>

#include "say.h"

/* In milliseconds: how long before the first, and between two. */
enum { PATIENCE = 1000, BETWEEN = 100, NAME = 50 };

static size_t all;
static int wanted, shown;
static int64_t began, last;

static int64_t now(void) {
    struct timespec time;
    clock_gettime(CLOCK_MONOTONIC, &time);
    return (int64_t)time.tv_sec * 1000 + time.tv_nsec / 1000000;
}

void progress_begin(size_t number) {
    const char *terminal = getenv("TERM");
    all = number;
    wanted = isatty(STDERR_FILENO) && (terminal == NULL || strcmp(terminal, "dumb") != 0);
    began = now();
    last = 0;
}

void progress_at(size_t k, const char *name) {
    char text[NAME + 1];
    if (!wanted)
        return;
    int64_t time = now();
    if (time - began < PATIENCE || time - last < BETWEEN)
        return;
    progress_clear();
    show_bytes(text, sizeof text, (const uint8_t *)name, strlen(name));
    fprintf(stderr, "%zu of %zu: %s", k + 1, all, text);
    fflush(stderr);
    last = time;
    shown = 1;
}

void progress_clear(void) {
    if (shown)
        fputs("\r\33[K", stderr);
    shown = 0;
}
