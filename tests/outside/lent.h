/*
 * The lent memory of the calls on a node: each of the ten slices that a call can
 * take has a stretch of its own, mapped once and large enough for any geometry.
 */
#ifndef LENT_H
#define LENT_H

#include "stretch.h"
#include "test_world.h"

/* The slices of every call in one order; the first five are the state. */
enum { BUFFER = SLICES, REQUESTS, DATA, ANSWERS, COUNTS, ALL };
extern const char *const slice_name[ALL];

enum { MOST_REQUESTS = 1024, MOST_ENTRIES = 4096, COUNTS_WORDS = 3 };

/* The words of the record that say how many entries of the cache are used, and protected. */
enum { USED = 4, PROTECTED = 5, RECORD_WORDS = 6 };

struct lent {
    struct stretch stretch[ALL];
    enum placing placing;
};

void lent_map(struct lent *x);

/* The most words that a slice may be given. */
size_t lent_room(const struct lent *x, int slice);

/* Where a slice of n words lies; of none, on the page without access. */
uint32_t *lent_slice(const struct lent *x, int slice, size_t n);

/* Makes a slice read-only, or writable again. */
void lent_protect(const struct lent *x, int slice, size_t n, bool read_only);

/* Says in `text` which slice the address lies in or beside; false if none. */
bool lent_place(const struct lent *x, const void *address, char *text, size_t size);

#endif
