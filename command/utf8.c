#include "utf8.h"

/* Longer forms than needed, surrogates and what is above U+10FFFF are none. */
size_t utf8_at(const uint8_t *b, size_t left) {
    if (b[0] < 0x80)
        return 1;
    size_t length = b[0] < 0xC2 || b[0] > 0xF4 ? 0 : b[0] < 0xE0 ? 2 : b[0] < 0xF0 ? 3 : 4;
    if (length == 0 || left < length)
        return 0;
    for (size_t k = 1; k < length; k++)
        if (b[k] >> 6 != 2)
            return 0;
    int longer = (b[0] == 0xE0 && b[1] < 0xA0) || (b[0] == 0xF0 && b[1] < 0x90);
    int none = (b[0] == 0xED && b[1] >= 0xA0) || (b[0] == 0xF4 && b[1] >= 0x90);
    return longer || none ? 0 : length;
}
