/*
 * A call of the settings record as data, made on both sides, each with its own
 * copy of the lent memory, and compared.
 */
#ifndef SETTINGS_CALL_H
#define SETTINGS_CALL_H

#include "stretch.h"

#include <stdint.h>

enum { TO_READ, TO_WRITE, SETTINGS_CALLS };
extern const char *const settings_name[SETTINGS_CALLS];

enum { SIX = 6, RECORD_BYTES = 36 };

/* Three skipped fields of the greatest length fit behind a record. */
enum { MOST_BYTES = 1 << 18, MOST_LENT = 1 << 10 };

struct settings_call {
    int which;
    uint32_t g[SIX]; /* to write: the geometry */
    size_t lent;     /* how many words or bytes are lent for what the call writes */
    bool null;       /* empty slices come as NULL, 0 */
    size_t n;        /* to read: the record */
    uint8_t bytes[MOST_BYTES];
};

/* What the independent program answered, and left of an accepted call; and what differs. */
struct settings_tried {
    uint32_t answer;
    uint32_t numbers[SIX];
    uint8_t record[RECORD_BYTES];
    uint64_t calls;
    char text[160];
};

/*
 * Makes the call, and compares the answer and all that is lent.  What was
 * accepted then goes the other way: a record that was read is written again, and
 * must be its first 36 bytes; one that was written is read, and must give the
 * geometry.  False if something differs.
 */
bool settings_agrees(const struct settings_call *c, enum placing placing,
                     struct settings_tried *x);

#endif
