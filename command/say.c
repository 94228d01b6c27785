#define _GNU_SOURCE
#include "say.h"

#include <stdarg.h>
#include <stdlib.h>
#include <string.h>
#include <unistd.h>

#include "json.h"
#include "meaning.h"
#include "progress.h"
#include "utf8.h"

enum { WIDE = 100, BEFORE = 60, GATE_BYTES = 16, GUTTER = 7 };

/* The file of a folder that is said of in one line; null where there is room for more. */
static const char *moving;

void say_in_one_line(const char *file) { moving = file; }

/* Whether scripts are said to: an object a line, on standard output. */
static int objects;

void say_in_objects(void) { objects = 1; }

/* Where it is said: lines about the files of a folder are what was asked for. */
static FILE *told(void) {
    progress_clear();
    return moving != NULL ? stdout : stderr;
}

/* Colours, only where people look at them. */
enum tone { PLAIN, BOLD, RED, CYAN, GREEN };

static const char *tone(enum tone which) {
    static const char *const codes[] = {"\33[0m", "\33[1m", "\33[1;31m", "\33[1;36m", "\33[1;32m"};
    const char *unwanted = getenv("NO_COLOR"), *terminal = getenv("TERM");
    int none = (unwanted != NULL && unwanted[0] != '\0') || (terminal != NULL && strcmp(terminal, "dumb") == 0);
    return !none && isatty(fileno(told())) ? codes[which] : "";
}

/* How many bytes a character has that is shown as it stands there: one of ASCII, or one of UTF-8 that is no control. 0: none. */
static size_t shown_at(const uint8_t *b, size_t left) {
    int control = b[0] < 32 || b[0] == 127 || (b[0] == 0xC2 && left > 1 && b[1] < 0xA0);
    return control ? 0 : utf8_at(b, left);
}

static void put_byte(FILE *to, uint8_t b) {
    static const char known[] = "\n\r\t", letters[] = "nrt";
    const char *at = b == 0 ? NULL : strchr(known, b);
    if (at != NULL)
        fprintf(to, "\\%c", letters[at - known]);
    else
        fprintf(to, "\\x%02x", b);
}

void put_shown(FILE *to, const void *bytes, size_t length) {
    const uint8_t *b = bytes;
    for (size_t at = 0, n; at < length; at += n + (n == 0)) {
        n = shown_at(b + at, length - at);
        if (n == 0)
            put_byte(to, b[at]);
        else
            fwrite(b + at, 1, n, to);
    }
}

void put_text(FILE *to, const char *text) { put_shown(to, text, strlen(text)); }

static void say_toned(enum tone which, const char *text) {
    fputs(tone(which), told());
    put_text(told(), text);
    fprintf(told(), ": %s", tone(PLAIN));
}

/* A sentence is one line, whatever names and words it has. */
static void say_sentence(const char *format, va_list more) {
    char *sentence;
    if (vasprintf(&sentence, format, more) >= 0) {
        put_text(told(), sentence);
        free(sentence);
    }
    fputc('\n', told());
}

static int past_lines(const struct scan *scan, size_t at);
static size_t line_start(const struct scan *scan, size_t at);

/* A refusal, or without one what else is wrong, for scripts (docs/COMMANDS.md, "For scripts"). */
static void say_object(const char *file, const struct plan_end *end, const struct scan *scan, size_t at,
                       const char *format, va_list more) {
    struct json json = json_line(stdout);
    char *sentence;
    if (file != NULL)
        json_text(&json, "file", file);
    json_text(&json, "status", end != NULL ? "refused" : "failed");
    if (end != NULL) {
        json_number(&json, "number", end->number);
        json_number(&json, "place", end->place);
    }
    if (scan != NULL && past_lines(scan, at)) {
        json_number(&json, "byte", at);
    } else if (scan != NULL) {
        json_number(&json, "line", scan->before + line_at(scan->of, at));
        json_number(&json, "column", at - line_start(scan, at) + 1);
    }
    if (vasprintf(&sentence, format, more) >= 0) {
        json_text(&json, "says", sentence);
        free(sentence);
    }
    json_end(&json);
}

int fail(const char *format, ...) {
    va_list more;
    va_start(more, format);
    if (objects) {
        say_object(moving, NULL, NULL, 0, format, more);
        va_end(more);
        return FAILED;
    }
    say_toned(BOLD, moving != NULL ? moving : "plan");
    if (moving != NULL)
        fputs("not written: ", told());
    say_sentence(format, more);
    va_end(more);
    return FAILED;
}

int no_memory(void) { return fail("there is no memory for this"); }

static char shown(uint8_t b) { return 32 <= b && b <= 126 ? (char)b : '.'; }

void show_bytes(char *to, size_t room, const uint8_t *bytes, size_t length) {
    size_t k = 0;
    for (; k + 1 < room && k < length; k++)
        to[k] = shown(bytes[k]);
    to[k] = '\0';
}

const char *byte_name(const struct source *source, size_t at) {
    static char name[16];
    if (at >= source->length)
        return "the end of the file";
    uint8_t b = source->at[at];
    switch (b) {
    case ' ':
        return "a space";
    case '\n':
        return "a new line";
    case '\r':
        return "a carriage return";
    case '\t':
        return "a tab";
    default:
        break;
    }
    snprintf(name, sizeof name, shown(b) == b ? "\"%c\"" : "byte %02X", b);
    return name;
}

/* Whether a place lies past the lines of a binary file. One that ends before its gates has lines alone; cards, whose bytes start at
   0, have none. */
static int past_lines(const struct scan *scan, size_t at) {
    int ends_before = scan->gates > 0 && scan->gates == scan->of->length;
    return scan->binary && scan->counts[PLAN_A] > 0 && at >= scan->gates && !ends_before;
}

/* Where the line that a place lies in starts; a binary file's tail starts a line. */
static size_t line_start(const struct scan *scan, size_t at) {
    size_t least = past_lines(scan, at) ? scan->tail : 0;
    while (at > least && scan->of->at[at - 1] != '\n')
        at--;
    return at;
}

static void say_where(const struct scan *scan, size_t at) {
    fputs(tone(BOLD), told());
    put_text(told(), scan->of->name);
    if (past_lines(scan, at))
        fprintf(told(), ":byte %zu: ", at);
    else
        fprintf(told(), ":%llu:%zu: ", (unsigned long long)(scan->before + line_at(scan->of, at)),
                at - line_start(scan, at) + 1);
    fputs(tone(PLAIN), told());
}

/* The mark: under each of the bytes that are shown, `each` columns to a byte. */
static void say_mark(size_t before, size_t width, size_t each) {
    size_t last = width == 0 ? 1 : width * each - (each > 1);
    fprintf(told(), "%*s | %*s%s", GUTTER, "", (int)(before * each), "", tone(GREEN));
    for (size_t k = 0; k < last; k++)
        fputc(k == 0 ? '^' : '~', told());
    fprintf(told(), "%s\n", tone(PLAIN));
}

/* The line, or that part of it about the place which fits. */
static void say_line(const struct scan *scan, struct spot spot) {
    char line[WIDE + 1];
    const struct source *s = scan->of;
    size_t from = line_start(scan, spot.at), end = spot.at;
    while (end < s->length && s->at[end] != '\n' && end - spot.at < WIDE)
        end++;
    if (spot.at - from > BEFORE)
        from = spot.at - BEFORE;
    show_bytes(line, sizeof line, s->at + from, end - from);
    if (past_lines(scan, spot.at))
        fprintf(told(), "%*s | %s\n", GUTTER, "", line);
    else
        fprintf(told(), "%*llu | %s\n", GUTTER, (unsigned long long)(scan->before + line_at(s, spot.at)), line);
    size_t before = spot.at - from, most = WIDE - before,
           width = end - spot.at < spot.width ? end - spot.at : spot.width;
    say_mark(before, width < most ? width : most, 1);
}

/* Bytes of gates, in hexadecimal. */
static void say_bytes(const struct scan *scan, struct spot spot) {
    size_t from = spot.at - scan->gates > GATE_BYTES / 2 ? spot.at - GATE_BYTES / 2 : scan->gates;
    fprintf(told(), "%*s |", GUTTER, "");
    for (size_t k = from; k < scan->tail && k < from + GATE_BYTES; k++)
        fprintf(told(), " %02X", scan->of->at[k]);
    fputc('\n', told());
    size_t most = from + GATE_BYTES - spot.at;
    say_mark(spot.at - from, spot.width < most ? spot.width : most, 3);
}

static void say_spot(const struct scan *scan, struct spot spot) {
    if (moving != NULL)
        return;
    if (past_lines(scan, spot.at) && (spot.at < scan->tail || scan->tail >= scan->of->length))
        say_bytes(scan, spot);
    else
        say_line(scan, spot);
}

static void say_refusal(struct plan_end end) {
    fprintf(told(), "%srefused %llu at %llu%s", tone(RED), (unsigned long long)end.number,
            (unsigned long long)end.place, tone(PLAIN));
}

void say_refused(const struct scan *scan, struct plan_end end, struct spot spot, const char *format, ...) {
    va_list more;
    va_start(more, format);
    if (objects) {
        say_object(scan->of->name, &end, scan, spot.at, format, more);
    } else {
        say_where(scan, spot.at);
        say_refusal(end);
        fputs(": ", told());
        say_sentence(format, more);
        say_spot(scan, spot);
    }
    va_end(more);
}

void say_refused_of(const char *name, struct plan_end end, const char *format, ...) {
    va_list more;
    va_start(more, format);
    if (objects) {
        say_object(name, &end, NULL, 0, format, more);
    } else {
        say_toned(BOLD, name);
        say_refusal(end);
        fputs(": ", told());
        say_sentence(format, more);
    }
    va_end(more);
}

void say_note(const struct scan *scan, struct spot spot, const char *format, ...) {
    va_list more;
    if (moving != NULL || objects)
        return;
    va_start(more, format);
    say_where(scan, spot.at);
    say_toned(CYAN, "note");
    say_sentence(format, more);
    say_spot(scan, spot);
    va_end(more);
}

void say_change(const struct scan *scan, size_t at, const char *format, ...) {
    va_list more;
    va_start(more, format);
    say_where(scan, at);
    say_sentence(format, more);
    va_end(more);
}

void say_more(const char *format, ...) {
    va_list more;
    if (moving != NULL || objects)
        return;
    va_start(more, format);
    say_toned(CYAN, "note");
    say_sentence(format, more);
    va_end(more);
}

void say_written(const char *from, const char *to) {
    progress_clear();
    put_text(stdout, from);
    fputs(": ", stdout);
    put_text(stdout, to);
    fputc('\n', stdout);
}

void say_line_ends(const struct scan *scan, size_t at) {
    const struct source *s = scan->of;
    if (at + 1 < s->length && s->at[at] == '\r' && s->at[at + 1] == '\n')
        say_more("lines end in CR LF here, as on Windows; a new line is LF alone: \"tr -d '\\r'\" takes the CR away");
}

void say_number(const char *name, struct plan_end end) {
    const char *why = is_refusal(end.number) ? plan_sentence(end.number) : "docs/REFUSALS.md says what that means";
    say_refused_of(name, end, "%s", why);
}

void say_unreadable(const char *name, const char *why) {
    say_refused_of(name, (struct plan_end){GOLVANZO_UNREADABLE, 0}, "it can't be read: %s", why);
}
