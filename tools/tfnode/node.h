/*
 * A node in memory: its geometry and the five slices that the library is lent, and the library's
 * calls on them.  This is the only place where the tool meets the library.
 */
#ifndef NODE_H
#define NODE_H

#include "trianglefire.h"

#include <stdbool.h>
#include <stddef.h>
#include <stdint.h>

/* The six numbers in the order in which they are typed, stored and lent. */
enum { P, W, D, T, L, C, NUMBERS };

/* The lent slices, in the order in which they are stored and lent. */
enum slice { CHIP, SPARE, DIRECTORY, CACHE, RECORD, SLICES };

struct geometry {
    uint32_t numbers[NUMBERS];
};

struct node {
    struct geometry geometry;
    uint32_t *slices[SLICES];
    size_t words[SLICES];
};

/* What the flash did, summed over calls. */
struct totals {
    uint64_t reads, programs, erases;
};

/* One of the six numbers of a node. */
static inline uint32_t number(const struct node *node, int which)
{
    return node->geometry.numbers[which];
}

static inline uint32_t blocks(const struct node *node)
{
    return number(node, D) + number(node, T);
}

/* Whether the library accepts a geometry. */
bool geometry_accepted(const struct geometry *geometry);

/* Says in words which limit a geometry breaks, NULL if none; the words last until the next call. */
const char *geometry_fault(const struct geometry *geometry);

/* Words of each slice, which an accepted geometry fixes. */
void slice_sizes(const struct geometry *geometry, size_t words[SLICES]);

/* The library's calls, which return its reply; what the flash did is added to `totals`. */
uint32_t node_format(struct node *node, struct totals *totals);
uint32_t node_check(const struct node *node);
uint32_t node_read(struct node *node, uint32_t page, uint32_t *buffer, struct totals *totals);
uint32_t node_write(struct node *node, uint32_t page, const uint32_t *buffer,
                    struct totals *totals);

/* Serves n requests, n at most TF_MOST_REQUESTS, over n pages of data and n answers. */
uint32_t node_run(struct node *node, const uint32_t *requests, uint32_t *data, uint32_t *answers,
                  size_t n, struct totals *totals);

/* The library's calls on the settings record, which return its answer, of enum tf_settings. */
uint32_t settings_read(const uint8_t *bytes, size_t n, struct geometry *geometry);
uint32_t settings_write(const struct geometry *geometry, uint8_t record[TF_SETTINGS_BYTES]);

/* 01's name of a reply. */
const char *reply_name(uint32_t reply);

/* The header's name of an answer of the settings record. */
const char *settings_answer_name(uint32_t answer);

/* Ends the command because the library refused it.  `path` is the image, to be named. */
_Noreturn void fail_refused(uint32_t reply, const char *path);

#endif
