/*
 * A stretch of memory between two pages without access.  A slice of it ends at
 * the page behind or begins at the one before, so that a read or a write past
 * that side stops the call.
 */
#ifndef STRETCH_H
#define STRETCH_H

#include <stdbool.h>
#include <stddef.h>

enum placing { ENDING, BEGINNING };

struct stretch {
    const char *name;
    char *low, *high; /* what is accessible of it */
};

size_t stretch_page(void);

/* At least that many bytes, mapped. */
void stretch_map(struct stretch *s, const char *name, size_t bytes);

/* The same, read-only: the memory that is handed back is the same, to be filled. */
void *stretch_map_shared(struct stretch *s, const char *name, size_t bytes);

/* Where a slice of that many bytes lies; of none, on the page without access. */
void *stretch_slice(const struct stretch *s, size_t bytes, enum placing placing);

/* Says in `text` what was done if the address lies in the stretch or beside it; false if not. */
bool stretch_place(const struct stretch *s, const void *address, char *text, size_t size);

#endif
