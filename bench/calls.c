/* The calls of either library on a node. */
#include "calls.h"

#include "independent.h"
#include "trianglefire.h"

uint32_t node_format(enum side s, struct node *n)
{
    return (s == OURS ? tf_format : ind_format)(NODE_GEOMETRY(n), NODE_STATE(n), NODE_COUNTS(n));
}

uint32_t node_check(enum side s, struct node *n)
{
    return (s == OURS ? tf_check : ind_check)(NODE_GEOMETRY(n), NODE_STATE(n), NODE_COUNTS(n));
}

uint32_t node_read(enum side s, struct node *n, uint32_t page, uint32_t *buffer)
{
    return (s == OURS ? tf_read : ind_read)(NODE_GEOMETRY(n), page, NODE_STATE(n), buffer,
                                            (size_t)n->g.w, NODE_COUNTS(n));
}

uint32_t node_write(enum side s, struct node *n, uint32_t page, const uint32_t *buffer)
{
    return (s == OURS ? tf_write : ind_write)(NODE_GEOMETRY(n), page, NODE_STATE(n), buffer,
                                              (size_t)n->g.w, NODE_COUNTS(n));
}

uint32_t node_run(enum side s, struct node *n, const uint32_t *requests, uint32_t *data,
                  uint32_t *answers, size_t count)
{
    return (s == OURS ? tf_run : ind_run)(NODE_GEOMETRY(n), NODE_STATE(n), requests, 2 * count,
                                          data, count * n->g.w, answers, count, NODE_COUNTS(n));
}
