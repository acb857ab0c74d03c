/* The memory of a run's requests. */
#include "exchange.h"

#include <stdio.h>
#include <stdlib.h>
#include <string.h>

struct exchange *exchange_new(const struct geometry *g)
{
    struct exchange *e = malloc(sizeof *e);
    uint32_t *data = malloc(MOST_REQUESTS * (size_t)g->w * sizeof *data);
    if (e == NULL || data == NULL) {
        fprintf(stderr, "bench: no memory for the requests of a run\n");
        exit(1);
    }
    e->data = data;
    return e;
}

void exchange_free(struct exchange *e)
{
    free(e->data);
    free(e);
}

bool exchange_equal(const struct exchange *a, const struct exchange *b, const struct geometry *g)
{
    return memcmp(a->answers, b->answers, sizeof a->answers) == 0 &&
           memcmp(a->data, b->data, MOST_REQUESTS * (size_t)g->w * sizeof *a->data) == 0;
}
