/*
 * For tests: the rules of soundness and the steps once more, as literally and as
 * slowly as they are written down, sharing no code with the implementation.  They
 * too write back by ind_rule and keep the cache by ind_order.
 */
#ifndef TEST_NAIVE_H
#define TEST_NAIVE_H

#include "test_world.h"

/* 0 if sound, else the first rule that fails.  The lengths fit. */
int naive_first_broken(const struct world *x);

/*
 * What the write-backs of dropped entries met.  A neighbour is another cached
 * entry of the same translation page.
 */
enum {
    MET_ALONG,      /* a changed neighbour, set in the one update */
    MET_AT_NONE,    /* such a one at *none* */
    MET_UNCHANGED,  /* an unchanged neighbour, left so */
    MET_CHANGED,    /* a changed neighbour, left so by the rule before P2 */
    MET_ELSEWHERE,  /* a changed entry of another translation page, left so */
    MET_COLLECTED,  /* a write-back beside changed neighbours that collected first */
    MET_FIRST,      /* one of a translation page that didn't exist */
    MET_FULL_READ,  /* a read beside changed neighbours that took its full bound */
    MET_FULL_WRITE, /* a write */
    MET_KINDS
};

/*
 * What the order of the cache met, in P5's two parts but for the last three.  A
 * limit is that of the protected entries.
 */
enum {
    ORDER_MISS_FOREMOST,   /* a miss with no protected entry before it */
    ORDER_MISS_BETWEEN,    /* with protected ones before it and trial ones behind it */
    ORDER_MISS_LAST,       /* with protected ones before it and nothing behind it */
    ORDER_DROP_BEHIND,     /* a drop while there are protected entries */
    ORDER_HIT_BELOW,       /* a hit in trial below the limit */
    ORDER_HIT_AT,          /* at the limit: protected's last goes to the trial front */
    ORDER_HIT_LIMIT_0,     /* at a limit of 0: that last is the entry itself */
    ORDER_HIT_FIRST,       /* a hit of protected's first */
    ORDER_HIT_BETWEEN,     /* of one between */
    ORDER_HIT_LAST,        /* of its last */
    ORDER_ALONG_PROTECTED, /* a changed protected neighbour, set in the one update */
    ORDER_ALONG_TRIAL,     /* a changed trial neighbour */
    ORDER_ALONG_BOTH,      /* a write-back with some of each */
    ORDER_MOVED_PROTECTED, /* a collection gave a protected entry its new place */
    ORDER_MOVED_TRIAL,     /* a trial entry */
    ORDER_MOVED_OWN,       /* the written page's own entry, with entries before it */
    ORDER_PLAIN_HIT,       /* the order before P5: a hit */
    ORDER_PLAIN_MISS,      /* a miss */
    ORDER_PLAIN_BORDER,    /* either, in a state that says some are protected */
    ORDER_KINDS
};

struct tally {
    uint32_t reads, programs, erases;
    uint32_t host, copied; /* programs of data pages, by writes and by collections */
    uint32_t translation_reads;
    uint64_t met[MET_KINDS], order[ORDER_KINDS];
};

/* The steps of a sound state for a page below L; the reply number. */
uint32_t naive_read(struct world *x, uint32_t l, uint32_t *buffer, struct tally *n);
uint32_t naive_write(struct world *x, uint32_t l, const uint32_t *buffer, struct tally *n);

/* Their part that moves entries: a cached page is hit, an uncached one enters. */
void naive_hit(struct world *x, uint32_t l, struct tally *n);
uint32_t naive_victim(const struct world *x); /* the logical page to be dropped */
void naive_drop(struct world *x, struct tally *n);
void naive_enter(struct world *x, uint32_t l, uint32_t place, struct tally *n);

#endif
