/*
 * A call of the boundary as data, made of the archive (tf_) or of the
 * independent program (ind_), and stopped if it touches what it may not touch,
 * aborts or does not return.
 */
#ifndef CALL_H
#define CALL_H

#include "lent.h"

enum { FORMAT, CHECK, READ, WRITE, RUN, CALLS };
extern const char *const call_name[CALLS];

enum { DONE, UNWRITTEN, GEOMETRY, LENGTH, DAMAGED, KIND, PAGE, REPLIES };

struct call {
    int which;
    uint32_t g[6];
    uint32_t page;
    size_t n[ALL];
    bool null;  /* empty slices come as NULL, 0 */
    int wrong;  /* the slice that was last given another length, or ALL */
};

/* Whether a call takes a slice at all, and whether it only looks at it. */
bool call_takes(int which, int slice);
bool call_shares(int which, int slice);

/* The independent program's reply to the call on this memory. */
uint32_t call_independent(const struct call *c, const struct lent *x);

/*
 * The archive's, with the shared slices read-only if wanted.  False if the call
 * was stopped: `text` says by what.
 */
bool call_archive(const struct call *c, const struct lent *x, bool read_only, uint32_t *reply,
                  char *text, size_t size);

#endif
