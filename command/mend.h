/* What suppliers' files get wrong, and no more than this, taken right. Nothing is judged here: the library reads the result. */
#ifndef MEND_H
#define MEND_H

#include "command.h"

/* The changes, in the order in which they may stand in a file: a byte order mark before the first byte; CR before the new lines; "c"
   after the gates of a binary file with ABC's sections after it, where a new line belongs; a lone "c" at the end; a last line
   without its end. */
enum change_kind { BYTE_ORDER_MARK, CARRIAGE_RETURNS, AFTER_C, LONE_C, LAST_NEW_LINE };

/* A change: where in the file as it came, and on how many lines after this one the same was done. */
struct change {
    enum change_kind kind;
    size_t at, more;
};

struct mended {
    uint8_t *at;
    size_t length;
    struct change *changes;
    size_t number;
};

/* 0 without memory; what is mended is to be given back either way. */
int mend(const struct source *file, struct mended *mended);
void free_mended(struct mended *mended);

/* What is wrong there, and what "plan mend" does about it. */
const char *change_why(enum change_kind kind);
const char *change_done(enum change_kind kind);

#endif
