/*
 * The lent memory of a node.  Of the library's header it takes the sizes alone,
 * so that a program links it without the archive.
 */
#include "node.h"

#include "trianglefire.h"

#include <stdio.h>
#include <stdlib.h>
#include <string.h>

struct node node_new(struct geometry g)
{
    struct node n = {.g = g};
    n.chip_words = tf_chip_words(g.p, g.w, g.d, g.t, g.l, g.c);
    n.spare_words = tf_spare_words(g.p, g.w, g.d, g.t, g.l, g.c);
    n.directory_words = tf_directory_words(g.p, g.w, g.d, g.t, g.l, g.c);
    n.cache_words = tf_cache_words(g.p, g.w, g.d, g.t, g.l, g.c);
    n.words = n.chip_words + n.spare_words + n.directory_words + n.cache_words + RECORD_WORDS;
    n.memory = malloc(n.words * sizeof *n.memory);
    if (n.memory == NULL) {
        fprintf(stderr, "bench: no memory for a node of %zu words\n", n.words);
        exit(1);
    }
    n.chip = n.memory;
    n.spare = n.chip + n.chip_words;
    n.directory = n.spare + n.spare_words;
    n.cache = n.directory + n.directory_words;
    n.record = n.cache + n.cache_words;
    return n;
}

void node_free(struct node *n)
{
    free(n->memory);
    n->memory = NULL;
}

void node_copy(struct node *to, const struct node *from)
{
    memcpy(to->memory, from->memory, from->words * sizeof *from->memory);
}

bool node_equal(const struct node *a, const struct node *b)
{
    return memcmp(a->memory, b->memory, a->words * sizeof *a->memory) == 0 &&
           memcmp(a->counts, b->counts, sizeof a->counts) == 0;
}

static uint32_t sweep(const uint32_t *words, size_t n)
{
    uint32_t all = UINT32_MAX;
    for (size_t i = 0; i < n; i++)
        all &= words[i];
    return all;
}

uint32_t node_sweep(const struct node *n)
{
    return sweep(n->memory, n->words);
}
