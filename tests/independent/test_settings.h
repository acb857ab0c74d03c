/*
 * For tests: a settings record, or a geometry, held to a second reader and to the
 * 36 bytes as they are listed.
 */
#ifndef TEST_SETTINGS_H
#define TEST_SETTINGS_H

#include "selftest.h"

/* Room for three of the longest fields, and a little, after the record's own. */
enum { OWN = 36, LONGEST = 3 + 65535, MOST = OWN + 3 * LONGEST + 64, GUARD = 0xa5 };

/* Where each field of the record begins, and the record ends. */
enum { FIELDS = 7 };
extern const size_t starts[FIELDS + 1];

/* The 36 bytes for six numbers, accepted or not, the last byte of each first. */
void spell(const uint32_t numbers[6], uint8_t bytes[OWN]);

/*
 * Holds one row of bytes to the naive reader.  Of an accepted record the first 36
 * bytes are the only ones for its numbers.
 */
void compare_record(const char *part, const uint8_t *from, size_t n, struct coverage *seen);

/* Numbers to the writer: an accepted geometry is written, any other is refused. */
void compare_written(const uint32_t g[6], struct coverage *seen);

/* The session's geometry written out, and one answer of each kind from the text. */
void marked_records(struct coverage *seen);

/* A place of another size: 7 before the bytes are looked at, but after the geometry. */
void wrong_places(const uint8_t good[OWN], const uint32_t g[6]);

#endif
