/* The manual page and completion for shells, made from the one table of commands. */
#include <string.h>

#include "commands.h"
#include "meaning.h"

#ifndef GOLVANZO_VERSION
#define GOLVANZO_VERSION "unknown"
#endif

int print_version(void) {
    return write_output(NULL, (const uint8_t *)("plan " GOLVANZO_VERSION "\n"), strlen("plan " GOLVANZO_VERSION "\n"));
}

/* Text for roff: what it would take for its own is written so that it doesn't. */
static void put_roff(FILE *to, const char *text) {
    int starts = 1;
    for (; *text != '\0'; text++) {
        if (starts && (*text == '.' || *text == '\''))
            fputs("\\&", to);
        if (*text == '\\')
            fputs("\\e", to);
        else if (*text == '-')
            fputs("\\-", to);
        else
            fputc(*text, to);
        starts = *text == '\n';
    }
}

static void put_roff_line(FILE *to, const char *before, const char *text) {
    fputs(before, to);
    put_roff(to, text);
    fputc('\n', to);
}

static void man_command(FILE *to, const struct command *command) {
    fputs(".TP\n\\fBplan ", to);
    fprintf(to, "%s\\fR [\\-o OUT] ", command->name);
    put_roff_line(to, "", command->words);
    put_roff(to, command->what);
    put_roff_line(to, ".\n.br\n", command->more);
}

/* The commands that take an option. */
static void put_takers(FILE *to, const struct option *option) {
    const char *before = "";
    if (option->takes == 0) {
        fputs("all", to);
        return;
    }
    for (int k = 0; k < command_count; k++)
        if (takes_option(&commands[k], option)) {
            fprintf(to, "%s%s", before, commands[k].name);
            before = ", ";
        }
}

static void man_options(FILE *to) {
    fputs(".SH OPTIONS\n", to);
    for (int k = 0; k < option_count; k++) {
        const char *name = options[k].name;
        fputs(".TP\n\\fB", to);
        put_roff(to, options[k].word);
        fprintf(to, "\\fR%s%s\n", name == NULL ? "" : " ", name == NULL ? "" : name);
        put_roff(to, options[k].what);
        fputs(" (", to);
        put_takers(to, &options[k]);
        fputs(")\n", to);
    }
}

static void man_refusals(FILE *to) {
    fputs(".SH REFUSALS\n", to);
    for (uint64_t number = 1; is_refusal(number); number++) {
        fprintf(to, ".TP\n\\fB%llu\\fR\n", (unsigned long long)number);
        put_roff_line(to, "", plan_sentence(number));
        put_roff_line(to, ".br\n", plan_advice(number));
    }
}

int print_man(void) {
    struct output output;
    int status = open_output(&output, NULL);
    if (status != DONE)
        return status;
    fputs(".TH PLAN 1 \"\" \"Golvanzo " GOLVANZO_VERSION "\"\n.SH NAME\nplan \\- reads, checks, converts, reduces and "
          "steps plans in the AIGER formats\n.SH SYNOPSIS\n\\fBplan\\fR COMMAND [\\-o OUT] FILE ..\n.SH COMMANDS\n",
          output.to);
    for (int k = 0; k < command_count; k++)
        man_command(output.to, &commands[k]);
    man_options(output.to);
    fputs(".SH EXIT STATUS\n0, 1 after a refusal or a difference, 2 if something else is wrong.\n", output.to);
    man_refusals(output.to);
    return close_output(&output);
}

/* The options of a command, each after a space. */
static void put_options(FILE *to, const struct command *command) {
    for (int k = 0; k < option_count; k++)
        if (takes_option(command, &options[k]))
            fprintf(to, " %s", options[k].word);
}

static void put_names(FILE *to) {
    for (int k = 0; k < command_count; k++)
        fprintf(to, "%s ", commands[k].name);
    fputs("help", to);
}

static void complete_bash(FILE *to) {
    fputs("_plan() {\n    local word=${COMP_WORDS[COMP_CWORD]} words=\n    if [ \"$COMP_CWORD\" -eq 1 ]; then\n"
          "        words='",
          to);
    put_names(to);
    fputs(" --help --version --man --completion'\n    else\n        case ${COMP_WORDS[1]} in\n", to);
    for (int k = 0; k < command_count; k++) {
        fprintf(to, "            %s) words='--help", commands[k].name);
        put_options(to, &commands[k]);
        fputs("' ;;\n", to);
    }
    fputs("            help) words='refusals ", to);
    put_names(to);
    fputs("' ;;\n            --completion) words='bash zsh fish' ;;\n        esac\n    fi\n"
          "    mapfile -t COMPREPLY < <(compgen -W \"$words\" -- \"$word\"; [ \"$COMP_CWORD\" -eq 1 ] || compgen -f -- "
          "\"$word\")\n}\ncomplete -o filenames -F _plan plan\n",
          to);
}

/* Text between single quotes of a shell; a colon would end a word that zsh describes. */
static void put_quoted(FILE *to, const char *text, int escape_colons) {
    for (; *text != '\0'; text++)
        if (*text == '\'')
            fputs("'\\''", to);
        else
            fprintf(to, "%s%c", escape_colons && *text == ':' ? "\\" : "", *text);
}

static void complete_zsh(FILE *to) {
    fputs("#compdef plan\n_plan() {\n    local -a names\n    names=(\n", to);
    for (int k = 0; k < command_count; k++) {
        fprintf(to, "        '%s:", commands[k].name);
        put_quoted(to, commands[k].what, 1);
        fputs("'\n", to);
    }
    fputs("        'help:says how a command is used or what a refusal means'\n    )\n"
          "    if (( CURRENT == 2 )); then\n        _describe command names\n        return\n    fi\n"
          "    case $words[2] in\n",
          to);
    for (int k = 0; k < command_count; k++) {
        fprintf(to, "        %s) compadd -- --help", commands[k].name);
        put_options(to, &commands[k]);
        fputs(" ;;\n", to);
    }
    fputs("    esac\n    _files\n}\ncompdef _plan plan\n", to);
}

static void complete_fish(FILE *to) {
    for (int k = 0; k < command_count; k++) {
        fprintf(to, "complete -c plan -n __fish_use_subcommand -a %s -d '", commands[k].name);
        put_quoted(to, commands[k].what, 0);
        fputs("'\n", to);
        for (int j = 0; j < option_count; j++) {
            if (!takes_option(&commands[k], &options[j]))
                continue;
            int is_long = options[j].word[1] == '-';
            fprintf(to, "complete -c plan -n '__fish_seen_subcommand_from %s' -%c %s%s -d '", commands[k].name,
                    is_long ? 'l' : 's', options[j].word + 1 + is_long, options[j].name == NULL ? "" : " -r");
            put_quoted(to, options[j].what, 0);
            fputs("'\n", to);
        }
    }
}

int print_completion(const char *shell) {
    static const struct {
        const char *shell;
        void (*complete)(FILE *);
    } shells[] = {{"bash", complete_bash}, {"zsh", complete_zsh}, {"fish", complete_fish}};
    struct output output;
    for (size_t k = 0; shell != NULL && k < sizeof shells / sizeof shells[0]; k++)
        if (strcmp(shell, shells[k].shell) == 0) {
            int status = open_output(&output, NULL);
            if (status != DONE)
                return status;
            shells[k].complete(output.to);
            return close_output(&output);
        }
    return fail("--completion is for bash, zsh or fish");
}
