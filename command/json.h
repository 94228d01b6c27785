/* Objects for scripts, one a line, as RFC 8259 has them. docs/COMMANDS.md says which there are. */
#ifndef JSON_H
#define JSON_H

#include <stddef.h>
#include <stdint.h>
#include <stdio.h>

/* Where it goes, and whether something stands before in the object or list that is open. */
struct json {
    FILE *to;
    int more;
};

/* Opens the object of a line; ends it and the line. */
struct json json_line(FILE *to);
void json_end(struct json *json);

/* Opens '{' or '[' below a key, or in a list, where the key is null; closes it by '}' or ']'. */
void json_open(struct json *json, const char *key, char bracket);
void json_close(struct json *json, char bracket);

/* A value below a key, or in a list, where the key is null. Bytes that are no UTF-8 become U+FFFD. */
void json_bytes(struct json *json, const char *key, const uint8_t *bytes, size_t length);
void json_text(struct json *json, const char *key, const char *text);
void json_number(struct json *json, const char *key, uint64_t number);
void json_truth(struct json *json, const char *key, int truth);

#endif
