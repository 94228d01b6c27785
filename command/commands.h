/* The commands and their options, of which main.c has the one table: parsing, help, the manual page and completion go by it. */
#ifndef COMMANDS_H
#define COMMANDS_H

#include "command.h"

/* What a command may take, beside FILE, -o OUT and --help, which all take: a second file, which some need, many files and
   folders, options, and an edit. */
enum {
    TAKES_SECOND = 1,
    NEEDS_SECOND = 2,
    TAKES_VCD = 4,
    TAKES_LARGE = 8,
    TAKES_NAMES = 16,
    TAKES_FILLINGS = 32,
    TAKES_COUNT = 64,
    NEEDS_ENTRY = 128,
    NEEDS_EDIT = 256,
    TAKES_MANY = 512,
    TAKES_ALL = 1024,
    TAKES_JSON = 2048,
    TAKES_PLAN = 4096,
    TAKES_CARDS = 8192,
    TAKES_STRIP = 16384
};

/* The form of what a command writes, by which its file is named where many are written. */
enum makes { MAKES_NOTHING, MAKES_BINARY, MAKES_OTHER_FORM, MAKES_SAME_FORM };

/* A command is given the plan of its file, the file alone where only the header is looked at, or what is asked alone where it
   opens files itself. One that takes many files is given each by itself, or all of them as `on_many`. */
struct command {
    const char *name, *words, *what, *more;
    int takes;
    enum makes makes;
    int (*on_plan)(const struct request *, const struct source *, struct plan *);
    int (*on_file)(const struct request *, const struct source *);
    int (*on_request)(const struct request *);
    int (*on_many)(const struct request *);
};

extern const struct command commands[];
extern const int command_count;

/* An option: the commands that take it, what it sets in a request, and whether that is the word after it, as it is called, or 1. */
struct option {
    const char *word, *name, *what;
    int takes;
    size_t sets;
};

extern const struct option options[];
extern const int option_count;

/* Whether a command takes an option. */
int takes_option(const struct command *command, const struct option *option);

const struct command *command_named(const char *name);

/* parse.c: the words after a command. What is wrong is said; the status. */
int parse(const struct command *command, char **words, struct request *request);

/* A word that is no command. */
int no_command(const char *typed);

/* help.c: how a command is used; the same and what it does; `plan help WORD`, where the word may be a command, a refusal's
   number, "refusals" or null. */
void print_usage(FILE *to, const struct command *command);
void print_help(FILE *to, const struct command *command);
int help(const char *word);

/* pages.c: the version; the manual page; completion for a shell. */
int print_version(void);
int print_man(void);
int print_completion(const char *shell);

/* many.c: whether more than the files of one plain run are asked for, and running a command on them, each with one line. */
int is_many(const struct command *command, const struct request *request);
int run_many(const struct command *command, const struct request *request);

#endif
