/* Whole files in, whole files out. */
#define _GNU_SOURCE
#include <errno.h>
#include <fcntl.h>
#include <signal.h>
#include <stdlib.h>
#include <string.h>
#include <sys/stat.h>
#include <unistd.h>

#include "command.h"
#include "say.h"

/* What is closed can be neither read nor written by then, as it was before. */
void keep_standard_files(void) {
    for (int file = STDIN_FILENO; file <= STDERR_FILENO; file++)
        if (fcntl(file, F_GETFD) < 0 && open("/dev/null", file == STDIN_FILENO ? O_WRONLY : O_RDONLY) != file)
            _exit(FAILED);
}

/* What the first bytes of a file say: that it is refused whatever follows, that nothing more is to be asked of them, or nothing. */
enum first { REFUSED_WHOLE, GOES_ON, OPEN };
typedef enum first first_bytes(const uint8_t *bytes, size_t length);

/* The header decides, once all of it is there: only 1 at the end of what was read may change. */
static enum first first_of_plan(const uint8_t *bytes, size_t length) {
    uint64_t words[PLAN_TABLES + 1];
    struct plan_end end = plan_words(bytes, length, words);
    if (end.number == GOLVANZO_WRONG_BYTE && end.place >= length)
        return OPEN;
    return end.number == GOLVANZO_NOT_REFUSED ? GOES_ON : REFUSED_WHOLE;
}

/* Cards that are longer than their counts ask are refused, however long they are (docs/PAPER.md, "Plan cards"). */
static enum first first_of_cards(const uint8_t *bytes, size_t length) {
    struct plan plan;
    struct plan_end end = plan_read_cards(&plan, bytes, length);
    plan_free(&plan);
    return end.number == GOLVANZO_WRONG_BYTE && end.place < length ? REFUSED_WHOLE : OPEN;
}

static enum first first_of_any(const uint8_t *bytes, size_t length) {
    (void)bytes;
    (void)length;
    return GOES_ON;
}

/* Twice the room, or what a regular file says that it needs. */
static size_t more_room(int from, size_t room) {
    struct stat about;
    if (fstat(from, &about) == 0 && S_ISREG(about.st_mode) && (uintmax_t)about.st_size >= room)
        return (size_t)about.st_size + 1;
    return 2 * room;
}

/* Reads until the room is full or the file ends; 0 if that fails, errno saying why. */
static int fill(int from, struct source *source, size_t room) {
    ssize_t got = 1;
    while (source->length < room && got > 0) {
        got = read(from, source->at + source->length, room - source->length);
        if (got < 0 && errno == EINTR)
            got = 1;
        else if (got > 0)
            source->length += (size_t)got;
    }
    return got >= 0;
}

/* Reads to the end, or until the first bytes are refused. */
static int read_all(int from, struct source *source, first_bytes *first) {
    size_t room = 65536;
    enum first says = OPEN;
    source->at = malloc(room);
    while (source->at != NULL) {
        if (!fill(from, source, room))
            return 0;
        if (source->length < room)
            return 1;
        says = says == OPEN ? first(source->at, source->length) : says;
        if (says == REFUSED_WHOLE)
            return 1;
        room = more_room(from, room);
        uint8_t *more = realloc(source->at, room);
        if (more == NULL)
            break;
        source->at = more;
    }
    errno = ENOMEM;
    return 0;
}

static const char standard_input[] = "standard input";

const char *typed_name(const struct source *source) { return source->name == standard_input ? "-" : source->name; }

static int read_file(const char *name, struct source *source, first_bytes *first) {
    int standard = strcmp(name, "-") == 0;
    *source = (struct source){standard ? standard_input : name, NULL, 0};
    int from = standard ? STDIN_FILENO : open(name, O_RDONLY);
    int good = from >= 0 && read_all(from, source, first), why = errno;
    if (from >= 0 && !standard)
        close(from);
    if (good)
        return DONE;
    free_source(source);
    if (why == ENOMEM)
        return no_memory();
    say_unreadable(source->name, strerror(why));
    return REFUSED;
}

int read_source(const char *name, struct source *source) { return read_file(name, source, first_of_plan); }

int read_cards(const char *name, struct source *source) { return read_file(name, source, first_of_cards); }

int read_bytes(const char *name, struct source *source) { return read_file(name, source, first_of_any); }

void free_source(struct source *source) {
    free(source->at);
    source->at = NULL;
    source->length = 0;
}

static int cannot_write(const struct output *output) { return fail("%s: %s", output->name, strerror(errno)); }

/* The file that the name leads to, past links: what is renamed must not take the place of a link, nor of one that leads nowhere. */
static char *target_of(const char *name) {
    struct stat about;
    char *target = realpath(name, NULL);
    return target == NULL && errno == ENOENT && lstat(name, &about) != 0 ? strdup(name) : target;
}

/* The rights that a file opened for writing gets: what the umask leaves. */
static mode_t new_rights(void) {
    mode_t mask = umask(0);
    umask(mask);
    return 0666 & ~mask;
}

/* Owner and rights of the file that is replaced, as far as they may be given, but for the bits that lend those of its owner. Where
   the group is another its members get no more than all others. */
static int give_rights(int file, const char *target) {
    struct stat about;
    if (stat(target, &about) != 0)
        return fchmod(file, new_rights()) == 0;
    mode_t rights = about.st_mode & 0777;
    if (fchown(file, about.st_uid, about.st_gid) != 0 && fchown(file, (uid_t)-1, about.st_gid) != 0)
        rights = (rights & 0707) | (rights & 7) << 3;
    return fchmod(file, rights) == 0;
}

/* The files that a signal must not leave behind. */
enum { UNFINISHED = 4 };
static char *volatile unfinished[UNFINISHED];

static void remove_unfinished(int number) {
    for (int k = 0; k < UNFINISHED; k++)
        if (unfinished[k] != NULL)
            unlink(unfinished[k]);
    signal(number, SIG_DFL);
    raise(number);
}

/* Signals that end the command; a file that grows too large is an error of writing instead. */
static const int ends[] = {SIGHUP,    SIGINT,  SIGQUIT, SIGPIPE, SIGTERM, SIGXCPU, SIGALRM,
                           SIGVTALRM, SIGPROF, SIGUSR1, SIGUSR2, SIGPOLL, SIGABRT, SIGSYS};
enum { ENDS = sizeof ends / sizeof ends[0] };

static void heed_signals(void) {
    for (int k = 0; k < ENDS; k++)
        if (signal(ends[k], remove_unfinished) == SIG_IGN)
            signal(ends[k], SIG_IGN);
    signal(SIGXFSZ, SIG_IGN);
}

/* Puts one name in the place of another, null being none. */
static void know_unfinished(const char *before, char *now) {
    int k = 0;
    while (k < UNFINISHED && unfinished[k] != before)
        k++;
    if (k < UNFINISHED)
        unfinished[k] = now;
}

/* A file of this pattern, which no signal leaves behind: none comes between its making and its being known. */
static int make_unfinished(char *pattern) {
    sigset_t held, before;
    sigemptyset(&held);
    for (int k = 0; k < ENDS; k++)
        sigaddset(&held, ends[k]);
    heed_signals();
    sigprocmask(SIG_BLOCK, &held, &before);
    int file = mkstemp(pattern), why = errno;
    if (file >= 0)
        know_unfinished(NULL, pattern);
    sigprocmask(SIG_SETMASK, &before, NULL);
    errno = why;
    return file;
}

/* A name in the target's folder, so that it can be renamed; it is short, so that the target's may be as long as any. */
static char *beside(const char *target) {
    static const char pattern[] = ".plan-XXXXXX";
    const char *slash = strrchr(target, '/');
    size_t folder = slash == NULL ? 0 : (size_t)(slash - target) + 1;
    char *name = malloc(folder + sizeof pattern);
    if (name != NULL) {
        memcpy(name, target, folder);
        memcpy(name + folder, pattern, sizeof pattern);
    }
    return name;
}

static FILE *open_temporary(struct output *output) {
    output->temporary = beside(output->target);
    int file = output->temporary == NULL ? -1 : make_unfinished(output->temporary);
    if (file < 0) {
        free(output->temporary);
        output->temporary = NULL;
        return NULL;
    }
    FILE *to = give_rights(file, output->target) ? fdopen(file, "wb") : NULL;
    if (to == NULL)
        close(file);
    return to;
}

/* The descriptor under which a file is open to be written already; -1 if it is not. Shells redirect those below 10. */
static int descriptor_of(const struct stat *about) {
    enum { REDIRECTED = 10 };
    struct stat other;
    for (int file = STDOUT_FILENO; file < REDIRECTED; file++) {
        int how = fcntl(file, F_GETFL);
        if (how >= 0 && (how & O_ACCMODE) != O_RDONLY && fstat(file, &other) == 0 && other.st_dev == about->st_dev &&
            other.st_ino == about->st_ino)
            return file;
    }
    return -1;
}

static FILE *open_again(int file) { return file == STDOUT_FILENO ? stdout : fdopen(dup(file), "wb"); }

/* What is open already is written where it is, since who opened it would not see a file in its place; so is a device or a pipe. A
   file that may not be written is opened only for the error. */
int open_output(struct output *output, const char *name) {
    struct stat about;
    *output = (struct output){.to = stdout, .name = "standard output", .people = name == NULL && isatty(STDOUT_FILENO)};
    if (name == NULL || strcmp(name, "-") == 0)
        return DONE;
    output->name = name;
    int there = stat(name, &about) == 0, file = there ? descriptor_of(&about) : -1;
    if (file >= 0) {
        output->to = open_again(file);
    } else if (there && (!S_ISREG(about.st_mode) || access(name, W_OK) != 0)) {
        output->to = fopen(name, "wb");
    } else {
        output->target = target_of(name);
        output->to = output->target == NULL ? NULL : open_temporary(output);
    }
    if (output->to != NULL)
        return DONE;
    int status = cannot_write(output);
    drop_output(output);
    return status;
}

/* What was written is there under its name, or is gone. */
static void forget_temporary(struct output *output) {
    know_unfinished(output->temporary, NULL);
    free(output->temporary);
    output->temporary = NULL;
}

void drop_output(struct output *output) {
    if (output->to != NULL && output->to != stdout)
        fclose(output->to);
    if (output->temporary != NULL) {
        unlink(output->temporary);
        forget_temporary(output);
    }
    free(output->target);
    *output = (struct output){.to = NULL};
}

/* Whether files are brought to the disk together, when the last one is written: one by one takes longer than to write them. */
static int together;

void begin_folder(void) { together = 1; }

int end_folder(const char *name) {
    int folder = open(name, O_RDONLY | O_DIRECTORY), good = folder >= 0 && syncfs(folder) == 0, why = errno;
    together = 0;
    if (folder >= 0)
        close(folder);
    return good ? DONE : fail("%s: %s", name, strerror(why));
}

/* On the disk, so that the name never leads to a part of the file, also if the power goes. */
static int is_kept(const struct output *output) {
    return output->temporary == NULL || together || fsync(fileno(output->to)) == 0;
}

/* A full disk may be known only when the file is closed; only then it gets its name. */
int close_output(struct output *output) {
    int good = !ferror(output->to) && fflush(output->to) == 0 && is_kept(output), status = DONE;
    if (good && output->to != stdout) {
        good = fclose(output->to) == 0;
        output->to = NULL;
    }
    if (good && output->temporary != NULL) {
        good = rename(output->temporary, output->target) == 0;
        if (good)
            forget_temporary(output);
    }
    if (!good)
        status = cannot_write(output);
    drop_output(output);
    return status;
}

/* A plan in binary form, or plan cards. */
static int is_binary(const uint8_t *bytes, size_t length) {
    return (length >= 4 && memcmp(bytes, "aig ", 4) == 0) || (length >= 2 && memcmp(bytes, "PH", 2) == 0);
}

/* Text for people, in its lines. */
static void put_lines(FILE *to, const uint8_t *bytes, size_t length) {
    for (size_t at = 0; at < length; at++) {
        const uint8_t *end = memchr(bytes + at, '\n', length - at);
        size_t line = end == NULL ? length - at : (size_t)(end - (bytes + at));
        put_shown(to, bytes + at, line);
        if (end != NULL)
            fputc('\n', to);
        at += line;
    }
}

int write_output(const char *name, const uint8_t *bytes, size_t length) {
    struct output output;
    int status = open_output(&output, name);
    if (status != DONE)
        return status;
    if (output.people && is_binary(bytes, length)) {
        drop_output(&output);
        return fail("binary is not written to a terminal: \"-o FILE\" writes it to a file, \"-o -\" here all the same");
    }
    if (output.people) {
        put_lines(output.to, bytes, length);
    } else {
        setvbuf(output.to, NULL, _IONBF, 0);
        fwrite(bytes, 1, length, output.to);
    }
    return close_output(&output);
}
