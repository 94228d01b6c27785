/* Writes a name of 2^31 + 1 bytes to standard output: pages that were never written, which take no memory, and after them one that
   may not be touched. This main stands before that of the command. */
#define _GNU_SOURCE
#include <sys/mman.h>

#include "../../command/symbols.h"

int main(void) {
    const size_t length = ((size_t)1 << 31) + 1, page = 4096, room = (length / page + 1) * page;
    uint8_t *at = mmap(NULL, room + page, PROT_READ, MAP_PRIVATE | MAP_ANONYMOUS | MAP_NORESERVE, -1, 0);
    if (at == MAP_FAILED || mprotect(at + room, page, PROT_NONE) != 0)
        return 2;
    const struct symbol symbol = {NAMED_INPUTS, 0, 0, length, at + room - length};
    put_name(&symbol, stdout);
    return fflush(stdout) != 0;
}
