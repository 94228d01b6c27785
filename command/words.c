/* The verb words: the desk question, table by table. It is asked for the header alone. */
#include "command.h"
#include "json.h"
#include "tables.h"

static void print_object(FILE *to, const struct source *file, const struct table *table, uint64_t words) {
    struct json json = json_line(to);
    json_text(&json, "file", file->name);
    json_number(&json, "table", table->number);
    json_text(&json, "name", table->name);
    json_number(&json, "words", words);
    json_end(&json);
}

int run_words(const struct request *request, const struct source *file) {
    uint64_t words[PLAN_TABLES + 1];
    struct output output;
    int status = ended(plan_words(file->at, file->length, words), file);
    if (status == DONE)
        status = open_output(&output, request->out);
    if (status != DONE)
        return status;
    for (int k = 0; k < TABLES; k++)
        if (request->json)
            print_object(output.to, file, &tables[k], words[tables[k].at]);
        else
            fprintf(output.to, "%d %s %llu\n", tables[k].number, tables[k].name,
                    (unsigned long long)words[tables[k].at]);
    return close_output(&output);
}
