/* The settings record of a geometry: what its fields are, and the record in a file of its own. */
#ifndef SETTINGS_H
#define SETTINGS_H

#include "node.h"

#include <stdbool.h>
#include <stddef.h>
#include <stdint.h>

/* A field is a tag, the length of its value, and the value. */
enum { TAG_BYTES = 1, LENGTH_BYTES = 2, BEFORE_VALUE = TAG_BYTES + LENGTH_BYTES };

/* The version has the first field, and each number one after it. */
enum { FIELDS = 1 + NUMBERS };

struct field {
    const char *whose; /* "the field of .." */
    const char *value; /* what its value is */
    size_t bytes;      /* of its value */
};

/* In the order of the record, so that the tag of a field is its place here, from 1. */
extern const struct field fields[FIELDS];

/* The number that n bytes are; in a record the first is the highest. */
static inline uint32_t number_from_bytes(const uint8_t *bytes, size_t n)
{
    uint32_t number = 0;
    for (size_t i = 0; i < n; i++)
        number = number << 8 | bytes[i];
    return number;
}

/*
 * The geometry of the settings record in a file, and the bytes of higher tags after it, which are
 * skipped; false if the file is a node image.  Fails with one line, in which `as` follows the path.
 */
bool settings_from_file(const char *path, const char *as, struct geometry *geometry,
                        size_t *skipped);

/* Says so where bytes were skipped. */
void note_skipped(const char *path, size_t skipped);

#endif
