/* UTF-8 (RFC 3629). */
#ifndef UTF8_H
#define UTF8_H

#include <stddef.h>
#include <stdint.h>

/* How many bytes the character at the start of some has, of which there is one at least; 0 if none stands there. */
size_t utf8_at(const uint8_t *bytes, size_t left);

#endif
