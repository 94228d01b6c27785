/* A plan from C, over c/plan.h: reads the file that is named, reduces the plan and writes it in binary form to standard
   output. README.md beside it says how it is built. */
#include <stdio.h>
#include <stdlib.h>

#include "plan.h"

int main(int argc, char **argv) {
    static uint8_t file[1 << 20];
    FILE *from = argc == 2 ? fopen(argv[1], "rb") : NULL;
    if (from == NULL)
        return 2;
    size_t length = fread(file, 1, sizeof file, from);
    int whole = length < sizeof file && !ferror(from);
    fclose(from);
    if (!whole)
        return 2;

    struct plan plan;
    struct plan_bytes out = {NULL, 0};
    struct plan_end end = plan_read(&plan, file, length);
    if (end.number == 0)
        end = plan_convert(&plan);
    if (end.number == 0)
        end = plan_reduce(&plan);
    if (end.number == 0)
        end = plan_write_binary(&plan, &out);
    int written = end.number == 0 && fwrite(out.at, 1, out.length, stdout) == out.length && fflush(stdout) == 0;
    if (end.number != 0)
        fprintf(stderr, "refused %llu at %llu\n", (unsigned long long)end.number, (unsigned long long)end.place);
    free(out.at);
    plan_free(&plan);
    return end.number != 0 ? 1 : written ? 0 : 2;
}
