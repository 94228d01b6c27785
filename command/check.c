/* The verb check: the form, the counts and the names of a plan, or why it is refused. */
#include <stdlib.h>

#include "command.h"
#include "json.h"
#include "progress.h"
#include "say.h"
#include "symbols.h"
#include "tables.h"

static void print_names(const struct plan *plan, const struct names *names, FILE *to) {
    for (int list = 0; list < NAMED; list++)
        for (uint64_t k = 0; k < entries(plan, list); k++) {
            const struct symbol *symbol = &names->of[list][k];
            if (symbol->name == NULL)
                continue;
            fprintf(to, "%s %llu ", nouns[list], (unsigned long long)k);
            put_name(symbol, to);
            fputc('\n', to);
        }
}

static const char *form(const struct request *request, const struct plan *plan) {
    return request->cards ? "cards" : plan->binary ? "binary" : "text";
}

static void print_counts(const struct request *request, const struct plan *plan, FILE *to) {
    fputs(form(request, plan), to);
    for (int k = 0; k < PLAN_COUNTS; k++)
        fprintf(to, " %s %llu", count_letters[k], (unsigned long long)plan->counts[k]);
    fputc('\n', to);
}

/* The same for scripts; of a file of many the names are left out. */
static void print_object(const struct request *request, const struct source *file, const struct plan *plan,
                         const struct names *names, FILE *to) {
    struct json json = json_line(to);
    json_text(&json, "file", file->name);
    json_text(&json, "status", "accepted");
    json_text(&json, "form", form(request, plan));
    for (int k = 0; k < PLAN_COUNTS; k++)
        json_number(&json, count_letters[k], plan->counts[k]);
    if (names != NULL)
        json_names(&json, plan, names);
    json_end(&json);
}

/* One of many: its lines go together, and the names are left out. */
static void print_one(const struct request *request, const struct source *file, const struct plan *plan) {
    if (request->json) {
        print_object(request, file, plan, NULL, stdout);
    } else if (!request->quiet) {
        progress_clear();
        put_text(stdout, file->name);
        fputs(": ", stdout);
        print_counts(request, plan, stdout);
    }
}

static void print_all(const struct request *request, const struct source *file, const struct plan *plan,
                      const struct names *names, FILE *to) {
    if (request->json) {
        print_object(request, file, plan, names, to);
    } else if (!request->quiet) {
        print_counts(request, plan, to);
        print_names(plan, names, to);
    }
}

int run_check(const struct request *request, const struct source *file, struct plan *plan) {
    struct names names;
    struct output output;
    if (request->many) {
        print_one(request, file, plan);
        return DONE;
    }
    int status = read_names(plan, &names);
    if (status != DONE)
        return status;
    status = open_output(&output, request->out);
    if (status == DONE) {
        print_all(request, file, plan, &names, output.to);
        status = close_output(&output);
    }
    free_names(&names);
    return status;
}
