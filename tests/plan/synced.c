/* The command, but that it says when a file is brought to the disk and when it is renamed; with SYNC=fails the former fails. */
#include <errno.h>
#include <stdio.h>
#include <stdlib.h>
#include <string.h>

int __real_fsync(int file);
int __real_syncfs(int file);
int __real_rename(const char *from, const char *to);

static int says(const char *what) {
    const char *sync = getenv("SYNC");
    fprintf(stderr, "%s\n", what);
    errno = EIO;
    return sync != NULL && strcmp(sync, "fails") == 0;
}

int __wrap_fsync(int file) { return says("fsync") ? -1 : __real_fsync(file); }

int __wrap_syncfs(int file) { return says("syncfs") ? -1 : __real_syncfs(file); }

int __wrap_rename(const char *from, const char *to) {
    fprintf(stderr, "rename\n");
    return __real_rename(from, to);
}
