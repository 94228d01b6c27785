#include "json.h"

#include <string.h>

#include "utf8.h"

struct json json_line(FILE *to) {
    struct json json = {to, 0};
    fputc('{', to);
    return json;
}

void json_end(struct json *json) { fputs("}\n", json->to); }

static void put_string(FILE *to, const uint8_t *bytes, size_t length) {
    fputc('"', to);
    for (size_t k = 0, n; k < length; k += n) {
        n = utf8_at(bytes + k, length - k);
        if (n == 0)
            fputs("\\ufffd", to), n = 1;
        else if (bytes[k] < 0x20 || bytes[k] == 0x7F)
            fprintf(to, "\\u%04x", bytes[k]);
        else if (bytes[k] == '"' || bytes[k] == '\\')
            fprintf(to, "\\%c", bytes[k]);
        else
            fwrite(bytes + k, 1, n, to);
    }
    fputc('"', to);
}

/* What stands before a value. */
static void begin(struct json *json, const char *key) {
    if (json->more)
        fputc(',', json->to);
    json->more = 1;
    if (key != NULL)
        fprintf(json->to, "\"%s\":", key);
}

void json_open(struct json *json, const char *key, char bracket) {
    begin(json, key);
    fputc(bracket, json->to);
    json->more = 0;
}

void json_close(struct json *json, char bracket) {
    fputc(bracket, json->to);
    json->more = 1;
}

void json_bytes(struct json *json, const char *key, const uint8_t *bytes, size_t length) {
    begin(json, key);
    put_string(json->to, bytes, length);
}

void json_text(struct json *json, const char *key, const char *text) {
    json_bytes(json, key, (const uint8_t *)text, strlen(text));
}

void json_number(struct json *json, const char *key, uint64_t number) {
    begin(json, key);
    fprintf(json->to, "%llu", (unsigned long long)number);
}

void json_truth(struct json *json, const char *key, int truth) {
    begin(json, key);
    fputs(truth ? "true" : "false", json->to);
}
