/*
 * A node under test: one geometry and its lent memory, and how a call takes
 * them.  It needs neither library.
 */
#ifndef BENCH_NODE_H
#define BENCH_NODE_H

#include <stdbool.h>
#include <stddef.h>
#include <stdint.h>

struct geometry {
    uint32_t p, w, d, t, l, c;
};

enum { RECORD_WORDS = 6, COUNTS_WORDS = 3 };

/* The five lent slices stand in one allocation, so that a node is copied and compared as one. */
struct node {
    struct geometry g;
    uint32_t *memory;
    size_t words;
    uint32_t *chip, *spare, *directory, *cache, *record;
    size_t chip_words, spare_words, directory_words, cache_words;
    uint32_t counts[COUNTS_WORDS];
};

/* The slices, as every call takes them: a pointer and then a count of words. */
#define NODE_GEOMETRY(n) (n)->g.p, (n)->g.w, (n)->g.d, (n)->g.t, (n)->g.l, (n)->g.c
#define NODE_STATE(n)                                                                   \
    (n)->chip, (n)->chip_words, (n)->spare, (n)->spare_words, (n)->directory,           \
        (n)->directory_words, (n)->cache, (n)->cache_words, (n)->record, (size_t)RECORD_WORDS
#define NODE_COUNTS(n) (n)->counts, (size_t)COUNTS_WORDS

/* Memory for a node of this geometry, not formatted; ends the program if there is none. */
struct node node_new(struct geometry g);
void node_free(struct node *n);

/* Copies the lent memory of one node to another of the same geometry. */
void node_copy(struct node *to, const struct node *from);
bool node_equal(const struct node *a, const struct node *b);

/* Reads every word of the lent memory once and does nothing else: what memory costs by itself. */
uint32_t node_sweep(const struct node *n);

#endif
