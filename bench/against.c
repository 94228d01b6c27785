/* against GATES EMPTY COMMAND..: runs commands by turns, without a shell, and prints for each the least CPU time of its
   process, user and system; from the EMPTY-th on, which does nothing, also without that one's; and the first's ratio to
   it. A command is a label and words, parted by tabs. */
#define _GNU_SOURCE
#include <stdio.h>
#include <stdlib.h>
#include <string.h>
#include <sys/resource.h>
#include <sys/wait.h>
#include <unistd.h>

enum { ROUNDS = 7, MOST = 12, WORDS = 8 };

static double cpu(const struct rusage *u) {
    return (double)(u->ru_utime.tv_sec + u->ru_stime.tv_sec) +
           1e-6 * (double)(u->ru_utime.tv_usec + u->ru_stime.tv_usec);
}

static void become(char *command) {
    char *words[WORDS + 1] = {NULL};
    int n = 0;
    for (char *word = strtok(command, "\t"); word != NULL && n < WORDS; word = strtok(NULL, "\t"))
        words[n++] = word;
    if (freopen("/dev/null", "w", stdout) != NULL)
        execvp(words[0], words);
    _exit(127);
}

/* Seconds of CPU time that one run takes. */
static double run(const char *command) {
    struct rusage usage;
    int status;
    char *copy = strdup(command);
    pid_t child = fork();
    if (child == 0)
        become(copy);
    free(copy);
    if (child < 0 || wait4(child, &status, 0, &usage) != child || status != 0) {
        fprintf(stderr, "against: %s fails\n", command);
        exit(1);
    }
    return cpu(&usage);
}

static void print_row(const char *command, const char *gates, double time, double start, double first) {
    int label = (int)strcspn(command, "\t");
    printf("| %.*s | %s | %.1f | ", label, command, gates, 1e3 * time);
    if (time - start > start / 4)
        printf("%.1f | %.2f |\n", 1e3 * (time - start), first / (time - start));
    else
        printf("%s | |\n", time == start ? "" : "lost in it");
}

int main(int argc, char **argv) {
    double best[MOST];
    int n = argc - 3, empty = argc > 2 ? atoi(argv[2]) : 0;
    if (n < 1 || n > MOST || empty >= n)
        return 2;
    for (int k = 0; k < n; k++)
        best[k] = 1e9;
    for (int round = 0; round < ROUNDS; round++)
        for (int k = 0; k < n; k++) {
            double time = run(strchr(argv[3 + k], '\t') + 1);
            best[k] = time < best[k] ? time : best[k];
        }
    for (int k = 0; k < n; k++)
        print_row(argv[3 + k], argv[1], best[k], k < empty ? 0 : best[empty], best[0]);
    return 0;
}
