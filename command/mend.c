/* The verb mend: what suppliers' files get wrong, and no more, taken right in a new file. */
#include "mend.h"

#include <stdlib.h>
#include <string.h>

#include "say.h"
#include "scan.h"

/* Where the file is read and what is written of it. `comment` is whether its lines are those of the comment by now, `keeps_cr`
   whether CR belong to them, `had_cr` whether a CR was taken off the line before. */
struct mending {
    const struct source *file;
    struct mended *to;
    size_t from;
    int comment, keeps_cr, had_cr;
};

const char *change_why(enum change_kind kind) {
    static const char *const why[] = {"the file starts with a byte order mark, as some editors write it",
                                      "lines end in CR LF here, as on Windows; a new line is LF alone",
                                      "ABC's &w writes no new line after \"c\"", "a \"c\" alone opens no comment",
                                      "the last line has no end"};
    return why[kind];
}

const char *change_done(enum change_kind kind) {
    static const char *const done[] = {"takes it off", "takes the CR off", "puts it there", "takes it off",
                                       "puts a new line there"};
    return done[kind];
}

/* A change at the place where the file is read. */
static int changes(struct mending *m, enum change_kind kind) {
    struct mended *to = m->to;
    struct change *all = realloc(to->changes, (to->number + 1) * sizeof *all);
    if (all == NULL)
        return 0;
    to->changes = all;
    all[to->number++] = (struct change){kind, m->from, 0};
    return 1;
}

static void copy(struct mending *m, size_t length) {
    memcpy(m->to->at + m->to->length, m->file->at + m->from, length);
    m->to->length += length;
    m->from += length;
}

/* The last line, which has no end. */
static int mend_last(struct mending *m, size_t length) {
    if (!m->comment && length == 1 && m->file->at[m->from] == 'c') {
        int good = changes(m, LONE_C);
        m->from += length;
        return good;
    }
    copy(m, length);
    m->to->at[m->to->length++] = '\n';
    return changes(m, LAST_NEW_LINE);
}

/* The CR of a line is gone; those of lines that follow each other are one change. */
static int take_cr(struct mending *m) {
    int good = 1;
    if (m->had_cr)
        m->to->changes[m->to->number - 1].more++;
    else
        good = changes(m, CARRIAGE_RETURNS);
    m->from++;
    return good;
}

static int mend_line(struct mending *m) {
    const uint8_t *line = m->file->at + m->from, *end = memchr(line, '\n', m->file->length - m->from);
    if (end == NULL)
        return mend_last(m, m->file->length - m->from);
    size_t length = (size_t)(end - line);
    int cr = length > 0 && line[length - 1] == '\r' && !(m->comment && m->keeps_cr), good = 1;
    size_t kept = length - (size_t)cr;
    if (!m->comment && kept == 1 && line[0] == 'c')
        m->comment = 1, m->keeps_cr = !cr;
    copy(m, kept);
    if (cr)
        good = take_cr(m);
    m->had_cr = cr;
    copy(m, 1);
    return good;
}

/* Where ABC's sections may stand: a letter and the number of bytes that follow, high byte first, as many as are there. */
static int is_section(const struct source *file, size_t at) {
    enum { SIZE = 4 };
    if (at + 1 + SIZE > file->length || file->at[at] < 'A' || file->at[at] > 'z')
        return 0;
    const uint8_t *b = file->at + at + 1;
    uint64_t size = (uint64_t)b[0] << 24 | (uint64_t)b[1] << 16 | (uint64_t)b[2] << 8 | b[3];
    return size <= file->length - (at + 1 + SIZE);
}

/* The lines of a binary file's tail: after ABC's "c" bytes stand, not lines. */
static int mend_tail(struct mending *m) {
    int good = 1;
    while (good && m->from < m->file->length) {
        if (!m->comment && m->file->at[m->from] == 'c' && is_section(m->file, m->from + 1)) {
            copy(m, 1);
            good = changes(m, AFTER_C);
            m->to->at[m->to->length++] = '\n';
            copy(m, m->file->length - m->from);
            return good;
        }
        good = mend_line(m);
    }
    return good;
}

/* So many lines, as far as there are as many. */
static int mend_lines(struct mending *m, uint64_t lines) {
    int good = 1;
    for (; good && lines > 0 && m->from < m->file->length; lines--)
        good = mend_line(m);
    return good;
}

/* The lines between the header and the gates of a binary file, and the bytes of its gates, which have no lines. */
static int mend_binary(struct mending *m) {
    const struct source head = {m->file->name, m->to->at, m->to->length};
    const struct scan scan = scan_of(&head);
    const uint64_t *n = scan.counts;
    if (!mend_lines(m, n[PLAN_L] + n[PLAN_O] + n[PLAN_B] + n[PLAN_C]))
        return 0;
    m->had_cr = m->had_cr && n[PLAN_A] == 0;
    for (uint64_t left = 2 * n[PLAN_A]; left > 0 && m->from < m->file->length;) {
        left -= m->file->at[m->from] < 128;
        copy(m, 1);
    }
    return mend_tail(m);
}

int mend(const struct source *file, struct mended *mended) {
    static const uint8_t mark[] = {0xEF, 0xBB, 0xBF};
    struct mending m = {.file = file, .to = mended};
    int good = 1;
    *mended = (struct mended){.at = malloc(file->length + 2)};
    if (mended->at == NULL)
        return 0;
    if (file->length >= sizeof mark && memcmp(file->at, mark, sizeof mark) == 0) {
        good = changes(&m, BYTE_ORDER_MARK);
        m.from = sizeof mark;
    }
    good = good && mend_lines(&m, 1);
    if (good && mended->length > 1 && mended->at[1] == 'i')
        return mend_binary(&m);
    return good && mend_lines(&m, UINT64_MAX);
}

void free_mended(struct mended *mended) {
    free(mended->at);
    free(mended->changes);
}

/* A line for each change, with its place in the file as it came. */
static void say_changes(const struct source *file, const struct mended *mended) {
    const struct scan scan = scan_of(file);
    if (mended->number == 0)
        say_more("%s: there is nothing to mend", file->name);
    for (size_t k = 0; k < mended->number; k++) {
        const struct change *change = &mended->changes[k];
        if (change->more == 0)
            say_change(&scan, change->at, "%s: mend %s", change_why(change->kind), change_done(change->kind));
        else
            say_change(&scan, change->at, "%s: mend %s, here and on the next %zu %s", change_why(change->kind),
                       change_done(change->kind), change->more, change->more == 1 ? "line" : "lines");
    }
}

/* The library reads what is mended, and that is written only if it is accepted. */
static int write_mended(const struct request *request, const struct source *file, const struct mended *mended) {
    struct plan plan;
    char *name = malloc(strlen(file->name) + sizeof ", mended");
    if (name == NULL)
        return no_memory();
    strcat(strcpy(name, file->name), ", mended");
    const struct source made = {mended->number == 0 ? file->name : name, mended->at, mended->length};
    int status = ended(plan_read(&plan, made.at, made.length), &made);
    plan_free(&plan);
    free(name);
    return status == DONE ? write_output(request->out, mended->at, mended->length) : status;
}

int run_mend(const struct request *request) {
    struct source file;
    struct mended mended;
    int status = read_bytes(request->file, &file);
    if (status != DONE)
        return status;
    status = mend(&file, &mended) ? DONE : no_memory();
    if (status == DONE) {
        say_changes(&file, &mended);
        status = write_mended(request, &file, &mended);
    }
    free_mended(&mended);
    free_source(&file);
    return status;
}
