/*
 * For tests: a state and requests made by hand, under the two settings of one of
 * the switches for studies, held word for word to lists of words: what a list
 * doesn't name stays as it was.
 *
 * P=2, W=4, D=5, T=3, L=7, C=4.  Translation page 0 is for logical pages 0 to 3,
 * translation page 1 for 4 to 6.  Data pages are 0 to 9, the others 10 to 15.
 */
#ifndef TEST_HANDS_H
#define TEST_HANDS_H

#include "independent.h"
#include "test_world.h"

enum { HAND_P = 2, HAND_W = 4, HAND_D = 5, HAND_T = 3, HAND_L = 7, HAND_C = 4 };
#define N NONE
#define V 65535

struct word {
    int slice;
    uint32_t index, value;
};
#define END {SLICES, 0, 0}

/* A request as in a run, its answer, and the first of its words afterwards. */
struct request {
    uint32_t kind, page, reply, word;
};

/* What is one setting's own. */
struct outcome {
    uint32_t counts[3], translation_programs, translation_reads;
    struct word after[24];
};

struct hand {
    const char *name;
    uint32_t n;
    struct request requests[3];
    struct word before[32], after[96]; /* changes of the base state; what both settings do */
    struct outcome by[2];
};

/* Four words from an index on, and an entry at a rank. */
#define FOUR(slice, at, a, b, c, d)                                                      \
    {slice, at, a}, {slice, (at) + 1, b}, {slice, (at) + 2, c}, {slice, (at) + 3, d}
#define ENTRY(rank, l, place, changed)                                                   \
    {CACHE, 3 * (rank), l}, {CACHE, 3 * (rank) + 1, place}, {CACHE, 3 * (rank) + 2, changed}
#define PAGE(page, a, b, c, d) FOUR(CHIP, HAND_W * (page), a, b, c, d)
#define SPARE_OF(page, state, owner) {SPARE, 2 * (page), state}, {SPARE, 2 * (page) + 1, owner}
#define STATE(page, state) {SPARE, 2 * (page), state}
#define WORD(page, i, value) {CHIP, HAND_W * (page) + (i), value}
#define ERASED(page) PAGE(page, N, N, N, N), SPARE_OF(page, N, N)

/* Translation page 0 goes to page 12, but for its words. */
#define TO_12 STATE(10, 0), SPARE_OF(12, V, 0), {DIRECTORY, 0, 12}, {RECORD, 3, 1}
/* All translation blocks but one full; page 13 is translation page 1. */
#define FULL_TRANSLATION                                                                 \
    STATE(11, 0), PAGE(12, 9, 9, 9, 9), SPARE_OF(12, 0, 0), PAGE(13, N, 5, 6, N),        \
        SPARE_OF(13, V, 1), {DIRECTORY, 1, 13}, {RECORD, 3, 2}
/* The open data block full; block 0 and it have one valid page each. */
#define FULL_DATA PAGE(7, 1070, 1071, 1072, 1073), SPARE_OF(7, 0, 3), {RECORD, 1, 2}
/* Page 1 valid for 0, so that block 3, with the page of 6, is the next victim. */
#define WRITTEN_0 SPARE_OF(1, V, 0), WORD(10, 0, 1)

/* Serves the requests as a run and by the literal steps, as the switches stand. */
void try_hand(const struct hand *h, const struct outcome *own);

#endif
