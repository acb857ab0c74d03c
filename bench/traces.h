/*
 * The traces on which the rules are compared: requests drawn one after the
 * other, the same ones from the same source.
 */
#ifndef BENCH_TRACES_H
#define BENCH_TRACES_H

#include <stdint.h>

struct request {
    uint32_t kind, page;
};

/* Where a trace stands. */
struct source {
    uint64_t seed;
    uint32_t l;          /* logical pages of the node */
    uint32_t made;       /* requests so far, where a trace goes by turns */
    uint32_t page;       /* the one after the last, where a trace goes on */
    uint32_t kind, left; /* of a request of several pages: its kind, and how many are to come */
};

enum { SEQUENTIAL, SPREAD, FINANCIAL, HOT, HOT_AND_SCAN, HOT_AND_VERIFY, MOVING, TRACES };

struct trace {
    const char *name;
    struct request (*next)(struct source *s);
};

extern const struct trace traces[TRACES];

struct source source_new(uint32_t l);

#endif
