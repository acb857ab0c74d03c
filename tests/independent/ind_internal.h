/*
 * Shared by the files of the implementation: the accepted geometry, the lent
 * memory as the check sees it and as the steps change it, and the summary that
 * the check gathers on its way and the steps keep up to date.
 */
#ifndef IND_INTERNAL_H
#define IND_INTERNAL_H

#include <stdbool.h>
#include <stddef.h>
#include <stdint.h>

/* "*none* and the erased word are both 4,294,967,295." */
#define IND_NONE UINT32_MAX
#define IND_ERASED UINT32_MAX
/* The other two states of a page. */
#define IND_VALID UINT32_C(65535)
#define IND_INVALID UINT32_C(0)

enum {
    IND_MAX_P = 64,
    IND_MAX_W = 512,
    IND_MAX_BLOCKS = 1024,
    IND_MAX_C = 4096,
    IND_MAX_PAGES = IND_MAX_BLOCKS * IND_MAX_P,
    IND_MAX_REQUESTS = 1024
};

/* Places in the small record, in its order; a region's two are adjacent. */
enum { IND_DATA = 0, IND_TRANSLATION = 1, IND_REGIONS = 2 };
enum { IND_USED = 4, IND_PROTECTED = 5, IND_RECORD_WORDS = 6 };
#define IND_OPEN(region) (2 * (region))
#define IND_NEXT(region) (2 * (region) + 1)

/* An accepted geometry, so every product of its numbers below is small. */
struct ind_geometry {
    uint32_t p, w, d, t, l, c;
    uint32_t m; /* translation pages: l/w rounded up */
};

/* The five slices of the state, to look at. */
struct ind_view {
    const uint32_t *chip, *spare, *directory, *cache, *record;
};

/* Their lengths in words. */
struct ind_lengths {
    uint64_t chip, spare, directory, cache, record;
};

/* Stands in `valid` for a wholly erased block that is not the open one. */
enum { IND_FREE = 255 };

/*
 * What a sound state implies and the steps ask often.  It follows from the lent
 * memory alone, so it lives only as long as one call.
 */
struct ind_summary {
    uint8_t valid[IND_MAX_BLOCKS];       /* valid pages of each block, or IND_FREE */
    uint32_t free_blocks[IND_REGIONS];   /* how many are IND_FREE */
    uint32_t cached[IND_MAX_PAGES / 32]; /* one bit a logical page */
};

/* The state while a call changes it, with the operations counted so far. */
struct ind_work {
    struct ind_geometry g;
    uint32_t *chip, *spare, *directory, *cache, *record;
    uint32_t reads, programs, erases;
    struct ind_summary s;
};

/*
 * Whether a geometry is accepted.  Every product is of numbers already bounded,
 * and the sum before them is taken in 64 bits: "No product may wrap, also where
 * the geometry is refused."  M is at most (T-1)*P - 1 exactly when L is at most W
 * times that, so no division is needed.
 */
static inline bool ind_accepted(uint32_t p, uint32_t w, uint32_t d, uint32_t t, uint32_t l,
                                uint32_t c)
{
    if (p < 1 || p > IND_MAX_P || w < 1 || w > IND_MAX_W || c < 1 || c > IND_MAX_C)
        return false;
    if (d < 2 || t < 2 || (uint64_t)d + t > IND_MAX_BLOCKS)
        return false;
    uint32_t most_l = (d - 1) * p - 1;
    uint32_t most_m = (t - 1) * p - 1;
    return l >= 1 && l <= most_l && l <= most_m * w;
}

static inline uint32_t ind_first_block(const struct ind_geometry *g, int region)
{
    return region == IND_DATA ? 0 : g->d;
}

static inline uint32_t ind_end_block(const struct ind_geometry *g, int region)
{
    return region == IND_DATA ? g->d : g->d + g->t;
}

static inline bool ind_is_cached(const struct ind_summary *s, uint32_t l)
{
    return s->cached[l / 32] >> l % 32 & 1;
}

static inline void ind_set_cached(struct ind_summary *s, uint32_t l)
{
    s->cached[l / 32] |= UINT32_C(1) << l % 32;
}

static inline void ind_clear_cached(struct ind_summary *s, uint32_t l)
{
    s->cached[l / 32] &= ~(UINT32_C(1) << l % 32);
}

/* How many of the logical pages from `first` to before `end`, at most L, are cached. */
static inline uint32_t ind_cached_among(const struct ind_summary *s, uint32_t first, uint32_t end)
{
    uint32_t n = 0;
    for (uint32_t l = first; l < end; l = (l | 31) + 1) {
        uint32_t bits = s->cached[l / 32] >> l % 32;
        if (end - l < 32)
            bits &= (UINT32_C(1) << (end - l)) - 1;
        n += (uint32_t)__builtin_popcount(bits);
    }
    return n;
}

static inline uint32_t *ind_page_words(const struct ind_work *k, uint32_t page)
{
    return k->chip + (size_t)page * k->g.w;
}

static inline size_t ind_page_bytes(const struct ind_work *k)
{
    return k->g.w * sizeof *k->chip;
}

/* ind_geometry.c: accepts a geometry, filling *g, or refuses it. */
bool ind_accept(struct ind_geometry *g, uint32_t p, uint32_t w, uint32_t d, uint32_t t,
                uint32_t l, uint32_t c);
bool ind_lengths_fit(const struct ind_geometry *g, const struct ind_lengths *n);

/* ind_check.c: whether all seven rules hold; the summary is filled if so. */
bool ind_sound(const struct ind_geometry *g, const struct ind_view *v, struct ind_summary *s);

/*
 * ind_steps.c.  Update translation page t, all but "set the words": that is left
 * to the caller, in the words handed back.
 */
uint32_t *ind_update(struct ind_work *k, uint32_t t);

/*
 * ind_cache.c.  Translate l: its entry, which stays at its rank until the next
 * translation.
 */
uint32_t *ind_translate(struct ind_work *k, uint32_t l);

/* ind_steps.c: the steps of a sound state for a page below l; the reply number. */
uint32_t ind_step_read(struct ind_work *k, uint32_t l, uint32_t *buffer);
uint32_t ind_step_write(struct ind_work *k, uint32_t l, const uint32_t *buffer);

#endif
