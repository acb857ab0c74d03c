/*
 * What the sessions met of P5: in which part of the cache single reads and writes
 * found their entries or entered them, what became of the others, and states that
 * the number of protected entries alone made unsound.
 */
#ifndef REPLACEMENT_H
#define REPLACEMENT_H

#include "play.h"

/* A cache by its entries, as what can be met goes by that: one, two, three, or more. */
enum { OF_ONE, OF_TWO, OF_THREE, OF_MORE, SIZES };

enum {
    MISS,              /* a miss with no protected entry before it */
    MISS_DROP,         /* that dropped an entry */
    MISS_BEHIND,       /* a miss with protected entries before it */
    MISS_BEHIND_DROP,  /* that dropped an entry */
    TRIAL_BELOW,       /* a hit in trial, with protected below its limit */
    TRIAL_AT,          /* at its limit, which is 0 in a cache of one entry */
    PROTECTED_FIRST,   /* a hit in protected, of its first */
    PROTECTED_BETWEEN, /* of one between */
    PROTECTED_LAST,    /* of its last, where that isn't the first */
    /* And beside them: */
    OTHER_PROTECTED,   /* a drop that wrote a protected neighbour back */
    OTHERS_IN_BOTH,    /* and one in trial too */
    DEMOTED_DROPPED,   /* a drop of the entry that last went to the trial front */
    DEMOTED_HIT,       /* a hit of it */
    MOVED_PROTECTED,   /* a collection that moved the page of a protected entry */
    MOVED_TRIAL,       /* of one in trial; the request's own entry doesn't count */
    REPLACED
};

/* The sixth word of a sound state's record alone changed, to a number .. */
enum {
    OVER_LIMIT, /* over C/2 and not over the used: DAMAGED, as the next two */
    OVER_USED,  /* over the used and not over C/2 */
    OVER_ALL,   /* 4,294,967,295 */
    AT_LIMIT,   /* C/2, sound */
    AT_USED,    /* of the used entries, sound */
    NUMBERS
};

struct replacement {
    uint64_t met[SIZES][REPLACED];
    uint64_t numbers[NUMBERS];
    uint64_t lengths[2][CALLS]; /* calls refused for a record of five words, of seven */
    /* Of the request at hand, and of the state before it: */
    uint32_t bits;    /* one for each that is met */
    uint32_t entries[3 * (MOST_ENTRIES + 1)]; /* those of the cache, and behind them *none* */
    uint32_t demoted; /* the page whose entry last went to the trial front, or *none* */
};

void replacement_start(struct replacement *r);
/* To be called before and after each step. */
void replacement_before(struct replacement *r, const struct play *p, const struct step *step);
void replacement_after(struct replacement *r, const struct play *p, const struct step *step);

void replacement_print(const struct replacement *r);
/* A row for a cache of this size. */
void replacement_print_size(const struct replacement *r, int size);
/* False, with a line for each, if something was never met; of this size alone, from there on. */
bool replacement_whole_size(const struct replacement *r, int size, int from);
bool replacement_whole(const struct replacement *r);

#endif
