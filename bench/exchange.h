/* What a run takes and gives besides the node: its requests, their data and their answers. */
#ifndef BENCH_EXCHANGE_H
#define BENCH_EXCHANGE_H

#include "node.h"

enum { MOST_REQUESTS = 1024, KIND_READ = 0, KIND_WRITE = 1 };

struct exchange {
    uint32_t requests[2 * MOST_REQUESTS];
    uint32_t answers[MOST_REQUESTS];
    uint32_t *data; /* MOST_REQUESTS pages */
};

/* Ends the program if there is no memory. */
struct exchange *exchange_new(const struct geometry *g);
void exchange_free(struct exchange *e);
bool exchange_equal(const struct exchange *a, const struct exchange *b, const struct geometry *g);

#endif
