/*
 * The calls on a node, by either library.  Both take the same arguments in the
 * same order, so a call of one is a call of the other.
 */
#ifndef BENCH_CALLS_H
#define BENCH_CALLS_H

#include "node.h"
#include "side.h"

/* Each returns the reply number. */
uint32_t node_format(enum side s, struct node *n);
uint32_t node_check(enum side s, struct node *n);
uint32_t node_read(enum side s, struct node *n, uint32_t page, uint32_t *buffer);
uint32_t node_write(enum side s, struct node *n, uint32_t page, const uint32_t *buffer);
uint32_t node_run(enum side s, struct node *n, const uint32_t *requests, uint32_t *data,
                  uint32_t *answers, size_t count);

#endif
