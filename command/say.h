/* What is said to people, on standard error: a place, a sentence, the line and a mark under the place. Of the files of a folder it is
   said on standard output, the place and the sentence alone. */
#ifndef SAY_H
#define SAY_H

#include "scan.h"

/* The bytes that a sentence is about. */
struct spot {
    size_t at, width;
};

/* "file:line:column: refused N at P: sentence", or with the byte where there are no lines, then the line and the mark. */
void say_refused(const struct scan *scan, struct plan_end end, struct spot spot, const char *format, ...)
    __attribute__((format(printf, 4, 5)));

/* The same as a note to the sentence before. */
void say_note(const struct scan *scan, struct spot spot, const char *format, ...) __attribute__((format(printf, 3, 4)));

/* "file:line:column: sentence", of what was changed there. */
void say_change(const struct scan *scan, size_t at, const char *format, ...) __attribute__((format(printf, 3, 4)));

/* A note without a place. */
void say_more(const char *format, ...) __attribute__((format(printf, 1, 2)));

/* "file: refused N at P" and where to read on, for what the command has no sentence for. */
void say_number(const char *name, struct plan_end end);

/* "file: refused N at P: sentence", where the file has no place of it. */
void say_refused_of(const char *name, struct plan_end end, const char *format, ...)
    __attribute__((format(printf, 3, 4)));

/* From now on this file of a folder is gone through, and has one line; null: no folder is. */
void say_in_one_line(const char *file);

/* From now on scripts are said to: each refusal is an object on standard output, and notes are left out. */
void say_in_objects(void);

/* The line of a file of many that became another. */
void say_written(const char *from, const char *to);

/* A note where the byte of a place belongs to an end of a line that is of another kind. */
void say_line_ends(const struct scan *scan, size_t at);

/* Refusal 14. */
void say_unreadable(const char *name, const char *why);

/* Whatever comes from a file or from the command line is shown so: control bytes, and those that are no UTF-8, are spelled out, as
   "\n" or "\x1b", so that no terminal obeys them and a line stays one. The second takes a name or a word. */
void put_shown(FILE *to, const void *bytes, size_t length);
void put_text(FILE *to, const char *text);

/* Bytes of a line under which a mark is put, a column each, cut at the room. */
void show_bytes(char *to, size_t room, const uint8_t *bytes, size_t length);

/* One byte of a file in words, or its end. */
const char *byte_name(const struct source *source, size_t at);

#endif
