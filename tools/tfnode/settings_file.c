/*
 * A settings record in a file.  Whether the bytes are one, and which refusal it is if not, is the
 * library's answer; where they fail it does not say.  The independent program of tests/independent
 * reads that from the same bytes, and the place and the words beside the number are its hint.
 */
#include "image.h"
#include "independent.h"
#include "say.h"
#include "settings.h"

#include <errno.h>
#include <fcntl.h>
#include <inttypes.h>
#include <stdio.h>
#include <string.h>
#include <sys/stat.h>
#include <unistd.h>

/* Far past what a record needs, and little enough to be read at once. */
enum { MOST_BYTES = 1048576 };

/* A record that was refused, as the independent program reads it. */
struct refusal {
    uint32_t answer;
    const uint8_t *bytes;
    size_t n, where;
    struct geometry geometry;
    char words[120];
};

/* Reads a file, and no more of it than shows that it is too long; the bytes that were read. */
static size_t read_file(const char *path, const char *as, uint8_t bytes[MOST_BYTES + 1])
{
    struct stat file;
    ssize_t got;
    size_t n = 0;
    /* Without O_NONBLOCK a named pipe would wait for a writer. */
    int fd = open(path, O_RDONLY | O_NONBLOCK | O_CLOEXEC);
    if (fd < 0 || fstat(fd, &file) != 0)
        fail(STATUS_FILE, "cannot open %s: %s; see that it exists and may be read", path,
             strerror(errno));
    if (!S_ISREG(file.st_mode))
        fail(STATUS_FILE, "%s%s: it is no plain file; name another", path, as);
    do {
        got = read(fd, bytes + n, MOST_BYTES + 1 - n);
        if (got < 0 && errno != EINTR)
            fail(STATUS_FILE, "cannot read %s: %s; use a copy", path, strerror(errno));
        n += got > 0 ? (size_t)got : 0;
    } while (got != 0 && n <= MOST_BYTES);
    close(fd);
    return n;
}

/* The tag of the field that a byte of the record is in. */
static size_t tag_at(size_t where)
{
    size_t tag = 1, end = BEFORE_VALUE + fields[0].bytes;
    while (end <= where && tag < FIELDS)
        end += BEFORE_VALUE + fields[tag++].bytes;
    return tag;
}

/* The refusals of a field of version 1. */
static void tell_field(struct refusal *refusal)
{
    const uint8_t *at = refusal->bytes + refusal->where;
    const size_t tag = tag_at(refusal->where), room = sizeof refusal->words;
    const struct field *field = &fields[tag - 1];
    if (refusal->answer == TF_SETTINGS_SHORT)
        snprintf(refusal->words, room, "the field of %s needs %zu bytes, and the file has %zu left",
                 field->whose, BEFORE_VALUE + field->bytes, refusal->n - refusal->where);
    else if (refusal->answer == TF_SETTINGS_TAG)
        snprintf(refusal->words, room, "the field of %s has tag %d, and must have %zu",
                 field->whose, at[0], tag);
    else if (refusal->answer == TF_SETTINGS_LENGTH)
        snprintf(refusal->words, room, "the field of %s has length %" PRIu32 ", and must have %zu",
                 field->whose, number_from_bytes(at, LENGTH_BYTES), field->bytes);
    else
        snprintf(refusal->words, room, "the version is %d, and this tfnode reads 1", at[0]);
}

/* The refusal of a field after those of version 1. */
static void tell_after(struct refusal *refusal)
{
    const uint8_t *at = refusal->bytes + refusal->where;
    const size_t left = refusal->n - refusal->where, room = sizeof refusal->words;
    if (at[0] <= FIELDS) {
        snprintf(refusal->words, room, "a field after that of C has tag %d, and must have %d or "
                 "more", at[0], FIELDS + 1);
    } else if (left < BEFORE_VALUE) {
        snprintf(refusal->words, room, "the field of tag %d needs %d bytes or more, and the file "
                 "has %zu left", at[0], BEFORE_VALUE, left);
    } else {
        const size_t value = number_from_bytes(at + TAG_BYTES, LENGTH_BYTES);
        snprintf(refusal->words, room, "the field of tag %d needs %zu bytes, and the file has %zu "
                 "left", at[0], BEFORE_VALUE + value, left);
    }
}

_Noreturn static void fail_settings(const char *path, const char *as, struct refusal *refusal)
{
    const uint32_t answer = refusal->answer;
    const char *name = settings_answer_name(answer);
    const uint32_t hint = ind_settings_where(refusal->bytes, refusal->n, refusal->geometry.numbers,
                                             &refusal->where);
    if (hint != answer)
        fail(STATUS_FILE, "%s%s: refused with %" PRIu32 ", %s, and the independent program says %"
             PRIu32 "; please report it", path, as, answer, name, hint);
    if (answer == TF_SETTINGS_GEOMETRY) {
        const char *fault = geometry_fault(&refusal->geometry);
        fail(STATUS_FILE, "%s%s: refused with %" PRIu32 ", %s: %s; see docs/TFNODE.md for the "
             "limits", path, as, answer, name, fault != NULL ? fault : "a limit is broken");
    }
    (answer == TF_SETTINGS_AFTER ? tell_after : tell_field)(refusal);
    fail(STATUS_FILE, "%s%s: byte %zu: refused with %" PRIu32 ", %s: %s; use a %s", path, as,
         refusal->where, answer, name, refusal->words,
         answer == TF_SETTINGS_VERSION ? "newer tfnode or a copy" : "copy");
}

bool settings_from_file(const char *path, const char *as, struct geometry *geometry,
                        size_t *skipped)
{
    static uint8_t bytes[MOST_BYTES + 1];
    size_t n = read_file(path, as, bytes);
    if (image_marked(bytes, n))
        return false;
    if (n > MOST_BYTES)
        fail(STATUS_FILE, "%s%s: it has more than the %d bytes that are read; name another file",
             path, as, MOST_BYTES);
    uint32_t answer = settings_read(bytes, n, geometry);
    if (answer != TF_SETTINGS_ACCEPTED) {
        struct refusal refusal = {.answer = answer, .bytes = bytes, .n = n};
        fail_settings(path, as, &refusal);
    }
    *skipped = n - TF_SETTINGS_BYTES;
    return true;
}

void note_skipped(const char *path, size_t skipped)
{
    if (skipped > 0)
        note("%s has %zu bytes of higher tags, which version 1 skips", path, skipped);
}
