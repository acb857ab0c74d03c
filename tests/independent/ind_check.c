/*
 * The soundness check: decides the seven rules of a sound state together, in
 * time linear in the lent memory, and leaves the summary the steps work with.
 *
 * The words of an erased page and of a named translation page are swept once,
 * those of any other page never.  Nothing read from the lent memory is used as a
 * place before it is bounded.
 */
#include "ind_internal.h"

#include <string.h>

/*
 * Room for M*W + M places.  L + M is at most (D+T-2)*P - 2, so at most 65,406,
 * and M*W exceeds L by less than W.
 */
enum { PLACES = IND_MAX_PAGES + IND_MAX_W };

/* Words that all_erased gathers in one stretch. */
#define STRIDE ((size_t)512)

struct survey {
    const struct ind_geometry *g;
    const struct ind_view *v;
    struct ind_summary *s;
    uint32_t *data_place;        /* M*W words: the valid page owned by each l, or none */
    uint32_t *translation_place; /* M words: the same for each translation page */
};

/*
 * Whether all n words are erased.  The words are gathered and tested once, so
 * that the loops have no exit and run at the speed of the memory.  The inner one
 * has a fixed length, since some compilers turn only such loops into vector
 * instructions at their middle settings.
 */
static bool all_erased(const uint32_t *words, size_t n)
{
    uint32_t all = IND_ERASED;
    size_t i = 0;
    for (; n - i >= STRIDE; i += STRIDE)
        for (size_t j = 0; j < STRIDE; j++)
            all &= words[i + j];
    for (; i < n; i++)
        all &= words[i];
    return all == IND_ERASED;
}

/*
 * How many pages of a block rule 3 wants programmed, the others then being
 * erased.  Outside the open block the first page decides: "Every other block is
 * wholly erased or has no erased page."
 */
static uint32_t programmed_pages(const struct survey *y, int region, uint32_t block)
{
    const uint32_t *record = y->v->record;
    if (block == record[IND_OPEN(region)])
        return record[IND_NEXT(region)];
    return y->v->spare[(size_t)block * y->g->p * 2] == IND_ERASED ? 0 : y->g->p;
}

/*
 * The first n pages of a block must be valid or invalid, "have an owner below L
 * (data) or M (translation)", and no valid one may repeat an owner (rule 2).
 */
static bool programmed_fit(struct survey *y, int region, uint32_t block, uint32_t n)
{
    uint32_t owners = region == IND_DATA ? y->g->l : y->g->m;
    uint32_t *place = region == IND_DATA ? y->data_place : y->translation_place;
    uint32_t first = block * y->g->p;
    uint8_t valid = 0;
    for (uint32_t page = first; page < first + n; page++) {
        uint32_t state = y->v->spare[2 * (size_t)page];
        uint32_t owner = y->v->spare[2 * (size_t)page + 1];
        if (owner >= owners)
            return false;
        if (state == IND_VALID) {
            if (place[owner] != IND_NONE)
                return false;
            place[owner] = page;
            valid++;
        } else if (state != IND_INVALID) {
            return false;
        }
    }
    y->s->valid[block] = valid;
    return true;
}

/*
 * Rules 1 to 3 for one block.  The erased pages are its last ones; since the
 * erased state and *none* are the erased word too, an erased page is all ones in
 * the spare as on the chip.
 */
static bool block_fits(struct survey *y, int region, uint32_t block)
{
    uint32_t n = programmed_pages(y, region, block);
    if (!programmed_fit(y, region, block, n))
        return false;
    if (n == 0 && block != y->v->record[IND_OPEN(region)]) {
        y->s->valid[block] = IND_FREE;
        y->s->free_blocks[region]++;
    }
    size_t page = (size_t)block * y->g->p + n;
    size_t rest = y->g->p - n;
    return all_erased(y->v->spare + page * 2, rest * 2) &&
           all_erased(y->v->chip + page * y->g->w, rest * y->g->w);
}

/*
 * Rules 1 to 3 for one region: "Open blocks lie in their regions, offsets in 0
 * to P", every block fits, and "Each region has a wholly erased block besides
 * its open one."
 */
static bool region_fits(struct survey *y, int region)
{
    uint32_t first = ind_first_block(y->g, region);
    uint32_t end = ind_end_block(y->g, region);
    uint32_t open = y->v->record[IND_OPEN(region)];
    if (open < first || open >= end || y->v->record[IND_NEXT(region)] > y->g->p)
        return false;
    y->s->free_blocks[region] = 0;
    for (uint32_t block = first; block < end; block++)
        if (!block_fits(y, region, block))
            return false;
    return y->s->free_blocks[region] >= 1;
}

/*
 * One used entry: rule 5, and rule 6 for its logical page.  Only the word behind
 * a changed entry is bound by no rule; by rule 7 with rule 6, the word behind an
 * unchanged one is that page's place, as if it weren't cached.  So for a changed
 * entry the place expected of the word becomes whatever the word is.
 */
static bool entry_fits(struct survey *y, const uint32_t *entry)
{
    uint32_t l = entry[0];
    if (l >= y->g->l || entry[2] > 1 || ind_is_cached(y->s, l))
        return false;
    ind_set_cached(y->s, l);
    if (entry[1] != y->data_place[l])
        return false;
    if (entry[2] == 1) {
        uint32_t named = y->v->directory[l / y->g->w];
        y->data_place[l] = named == IND_NONE
                               ? IND_NONE
                               : y->v->chip[(size_t)named * y->g->w + l % y->g->w];
    }
    return true;
}

/*
 * Rule 5, with P5's "at most C/2 and at most the used ones" of the protected
 * entries, and what the cache says of rules 6 and 7.
 */
static bool cache_fits(struct survey *y)
{
    uint32_t used = y->v->record[IND_USED];
    uint32_t protected = y->v->record[IND_PROTECTED];
    if (used > y->g->c || protected > y->g->c / 2 || protected > used)
        return false;
    memset(y->s->cached, 0, (y->g->l + 31) / 32 * sizeof *y->s->cached);
    for (uint32_t rank = 0; rank < used; rank++)
        if (!entry_fits(y, y->v->cache + (size_t)rank * 3))
            return false;
    return all_erased(y->v->cache + (size_t)used * 3, (size_t)(y->g->c - used) * 3);
}

/*
 * Rules 6 and 7 for the words: those of a named translation page are the places
 * now expected, *none* past L; where no page exists, *none* is expected.
 */
static bool words_fit(const struct survey *y)
{
    size_t w = y->g->w;
    for (uint32_t t = 0; t < y->g->m; t++) {
        const uint32_t *expected = y->data_place + t * w;
        uint32_t named = y->v->directory[t];
        if (named == IND_NONE) {
            if (!all_erased(expected, w))
                return false;
        } else if (memcmp(y->v->chip + named * w, expected, w * sizeof *expected) != 0) {
            return false;
        }
    }
    return true;
}

bool ind_sound(const struct ind_geometry *g, const struct ind_view *v, struct ind_summary *s)
{
    uint32_t places[PLACES];
    size_t words = (size_t)g->m * g->w;
    struct survey y = {g, v, s, places, places + words};
    memset(places, 0xff, (words + g->m) * sizeof *places);
    if (!region_fits(&y, IND_DATA) || !region_fits(&y, IND_TRANSLATION))
        return false;
    /* Rule 4 bounds the directory, so the words behind it can be followed. */
    if (memcmp(v->directory, y.translation_place, g->m * sizeof *places) != 0)
        return false;
    return cache_fits(&y) && words_fit(&y);
}
