/* Settings records and geometries, as the cases of the settings record make them. */
#ifndef SETTINGS_RECORD_H
#define SETTINGS_RECORD_H

#include "settings_call.h"

/* The fields of version 1: the version's, and those of the six numbers. */
enum { FIELDS = 7, LAST_TAG = 7, HEAD_BYTES = 3, MOST_LENGTH = 65535 };
extern const size_t field_at[FIELDS + 1]; /* where each begins, and the record's end */

/* A call to read a record of these numbers into six words; no more of a number than its field. */
void record_of(struct settings_call *c, const uint32_t g[SIX]);

/* Puts a field behind the record: its tag, the length that it says, and the bytes that follow. */
void record_add(struct settings_call *c, uint32_t tag, size_t length, size_t given);

/* Puts other bytes in the place of some; both may be none. */
void record_replace(struct settings_call *c, size_t at, size_t n, const uint8_t *with,
                    size_t with_n);

/* A call to write these numbers to 36 bytes. */
void write_of(struct settings_call *c, const uint32_t g[SIX]);

/* What refuses a geometry, as one bit each. */
enum {
    NO_PAGE, MANY_PAGES, NO_WORD, MANY_WORDS, FEW_DATA, FEW_TRANSLATION, MANY_BLOCKS, NO_LOGICAL,
    MANY_LOGICAL, MANY_MAPS, NO_ENTRY, MANY_ENTRIES, REASONS
};
extern const char *const reason_name[REASONS];
uint32_t reasons_of(const uint32_t g[SIX]);

/* A random accepted geometry, often at a corner; and one with a number changed. */
void geometry_any(uint32_t g[SIX], uint64_t *seed);
void geometry_spoil(uint32_t g[SIX], uint64_t *seed);

#endif
