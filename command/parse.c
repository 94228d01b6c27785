/* The words after a command, and what is wrong with them. */
#include <stdarg.h>
#include <string.h>
#include <unistd.h>

#include "commands.h"

/* How many letters must be put in, left out or exchanged to make one word the other; long words are far from all. */
static size_t distance(const char *from, const char *to) {
    enum { LONGEST = 16 };
    size_t row[LONGEST + 1], n = strlen(to);
    if (n > LONGEST || strlen(from) > LONGEST)
        return LONGEST;
    for (size_t k = 0; k <= n; k++)
        row[k] = k;
    for (; *from != '\0'; from++) {
        size_t corner = row[0]++;
        for (size_t k = 1; k <= n; k++) {
            size_t above = row[k], least = above < row[k - 1] ? above + 1 : row[k - 1] + 1;
            size_t exchanged = corner + (*from != to[k - 1]);
            row[k] = exchanged < least ? exchanged : least;
            corner = above;
        }
    }
    return row[n];
}

/* Keeps the nearest word; those that have little in common are not near. */
static void keep_nearest(const char *typed, const char *word, size_t *least, const char **nearest) {
    size_t now = distance(typed, word);
    if (now < *least && 2 * now <= strlen(word))
        *least = now, *nearest = word;
}

/* Words that other programs have for the same. */
static const char *other_word(const char *typed) {
    static const struct {
        const char *other, *ours;
    } words[] = {{"diff", "same"},        {"cmp", "same"},      {"sim", "trace"},   {"simulate", "trace"},
                 {"stats", "check"},      {"info", "check"},    {"cat", "convert"}, {"show", "draw"},
                 {"dot", "draw"},         {"optimize", "drop"}, {"sweep", "drop"},  {"aigtoaig", "convert"},
                 {"version", "--version"}};
    for (size_t k = 0; k < sizeof words / sizeof words[0]; k++)
        if (strcmp(words[k].other, typed) == 0)
            return words[k].ours;
    return NULL;
}

/* Many forget the command and begin with the file. */
int no_command(const char *typed) {
    const char *nearest = other_word(typed);
    size_t least = SIZE_MAX;
    if (nearest == NULL)
        for (int k = 0; k < command_count; k++)
            keep_nearest(typed, commands[k].name, &least, &nearest);
    if (nearest != NULL)
        fail("there is no command \"%s\", but \"%s\"", typed, nearest);
    else if (access(typed, F_OK) == 0)
        fail("\"%s\" is no command, which comes before the file: \"plan check %s\"", typed, typed);
    else
        fail("there is no command \"%.60s\"", typed);
    fputs("\"plan --help\" lists the commands.\n", stderr);
    return FAILED;
}

/* What is wrong with the words of a command, in a sentence, and how it is used. */
__attribute__((format(printf, 2, 3))) static int misuse(const struct command *command, const char *format, ...) {
    char why[200];
    va_list more;
    va_start(more, format);
    vsnprintf(why, sizeof why, format, more);
    va_end(more);
    fail("%s", why);
    print_usage(stderr, command);
    fprintf(stderr, "\"plan %s --help\" says more.\n", command->name);
    return FAILED;
}

int takes_option(const struct command *command, const struct option *option) {
    return (command->takes & option->takes) != 0 || option->takes == 0;
}

static int no_option(const struct command *command, const char *typed) {
    const char *nearest = NULL;
    size_t least = SIZE_MAX;
    for (int k = 0; k < option_count; k++)
        if (takes_option(command, &options[k]) && options[k].word[1] == '-')
            keep_nearest(typed, options[k].word, &least, &nearest);
    if (nearest != NULL)
        return misuse(command, "%s has no option %.40s, but %s", command->name, typed, nearest);
    return misuse(command, "%s has no option %.40s", command->name, typed);
}

/* Sets the option that stands here if the command takes it, and goes to its last word; status. */
static int set_option(const struct command *command, char ***words, struct request *request) {
    const char *word = **words;
    int k = 0;
    while (k < option_count && (!takes_option(command, &options[k]) || strcmp(options[k].word, word) != 0))
        k++;
    if (k == option_count)
        return no_option(command, word);
    char *sets = (char *)request + options[k].sets;
    if (options[k].name == NULL) {
        *(int *)sets = 1;
        return DONE;
    }
    if (*(const char **)sets != NULL)
        return misuse(command, "%s stands there twice", word);
    *(const char **)sets = *++*words;
    return **words != NULL ? DONE : misuse(command, "after %s a word is missing", word);
}

/* How many words that are no options a command takes. */
static int most_words(const struct command *command) {
    return 1 + ((command->takes & TAKES_SECOND) != 0) + (command->takes & NEEDS_EDIT ? EDIT_WORDS : 0);
}

/* Many files and folders: standard input has no name to be told apart by. */
static int complete_many(const struct command *command, struct request *request) {
    for (int k = 0; k < request->number; k++)
        if (strcmp(request->words[k], "-") == 0)
            return misuse(command, "standard input can't be one of several files");
    if (command->makes != MAKES_NOTHING && (request->out == NULL || strcmp(request->out, "-") == 0))
        return misuse(command, "several files or a folder: -o must name the folder to write to");
    if (command->makes == MAKES_NOTHING && request->out != NULL)
        return misuse(command, "the lines of several files go to standard output, without -o");
    return DONE;
}

static int complete_edit(const struct command *command, struct request *request) {
    for (int k = 0; k < EDIT_WORDS; k++)
        request->edit[k] = 1 + k < request->number ? request->words[1 + k] : NULL;
    return request->number == 1 + EDIT_WORDS ? DONE
                                             : misuse(command, "a gate and two right sides must follow the file");
}

/* Exactly one of the lists, and a step. */
static int complete_entry(const struct command *command, const struct request *request) {
    int asked = (request->output != NULL) + (request->bad != NULL) + (request->constraint != NULL);
    if (asked == 0)
        return misuse(command, "--output is missing");
    if (asked > 1)
        return misuse(command, "one thing is explained at a time");
    return request->step != NULL ? DONE : misuse(command, "--step is missing");
}

/* What must be there is there, and standard input is not both files. */
static int complete(const struct command *command, struct request *request) {
    if (request->number == 0)
        return misuse(command, "a file is missing");
    request->file = request->words[0];
    if (command->takes & TAKES_SECOND && request->number > 1)
        request->second = request->words[1];
    if (is_many(command, request))
        return complete_many(command, request);
    if (command->takes & NEEDS_SECOND && request->second == NULL)
        return misuse(command, "a second file is missing");
    if (request->number > most_words(command))
        return misuse(command, "\"%.100s\" is one word too many", request->words[most_words(command)]);
    if (command->takes & NEEDS_EDIT)
        return complete_edit(command, request);
    if (command->takes & NEEDS_ENTRY && complete_entry(command, request) != DONE)
        return FAILED;
    if (command->takes & TAKES_SECOND && strcmp(request->file, "-") == 0 &&
        (request->second == NULL || strcmp(request->second, "-") == 0))
        return misuse(command, "standard input can't be both files");
    return DONE;
}

/* Words that are no options are kept in the room of those that were gone through. */
int parse(const struct command *command, char **words, struct request *request) {
    int may_be_option = 1, status = DONE;
    char **kept = words;
    request->words = words;
    for (; *words != NULL && status == DONE; words++) {
        char *word = *words;
        if (may_be_option && strcmp(word, "--") == 0)
            may_be_option = 0;
        else if (may_be_option && word[0] == '-' && word[1] != '\0')
            status = set_option(command, &words, request);
        else
            *kept++ = word;
        if (*words == NULL)
            break;
    }
    request->number = (int)(kept - request->words);
    return status == DONE ? complete(command, request) : status;
}
