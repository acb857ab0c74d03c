/*
 * The cache: its order, the drop of its last entry, and translate.  The order is
 * P5's, "a protected part of at most C/2 entries (rounded down) and a trial
 * part", and "protected entries lie first", so that one list and the place of its
 * border say both parts.
 */
#include "ind_internal.h"

#include "independent.h"

#include <string.h>

/* Puts an entry at rank `to`, moving those from there to before `from` one back. */
static uint32_t *put(struct ind_work *k, uint32_t to, uint32_t from, uint32_t l, uint32_t place,
                     uint32_t changed)
{
    uint32_t *entry = k->cache + (size_t)to * 3;
    memmove(entry + 3, entry, (size_t)(from - to) * 3 * sizeof *entry);
    entry[0] = l;
    entry[1] = place;
    entry[2] = changed;
    return entry;
}

/*
 * "A hit in trial moves to the protected front; if protected is then over its
 * limit, its last goes to the trial front": of one list only the border moves.  "A
 * hit in protected moves to its front."  A limit of 0 makes the order plain.
 */
static uint32_t *hit(struct ind_work *k, uint32_t l)
{
    uint32_t limit = ind_order == IND_SEGMENTED ? k->g.c / 2 : 0;
    uint32_t *protected = k->record + IND_PROTECTED;
    uint32_t rank = 0;
    while (k->cache[(size_t)rank * 3] != l)
        rank++;
    if (rank >= *protected && *protected < limit)
        ++*protected;
    const uint32_t *entry = k->cache + (size_t)rank * 3;
    return put(k, 0, rank, l, entry[1], entry[2]);
}

/*
 * P2: "all changed cached entries of the same translation page are to be set in
 * that one update and become unchanged, ranks kept", the dropped one among them.
 * Unchanged ones need no test: by rule 7 their words are their places already.
 * The pass begins at the last entry and ends at the foremost of the page.
 */
static void set_neighbours(struct ind_work *k, uint32_t *words, uint32_t first)
{
    uint32_t w = k->g.w, end = first + w < k->g.l ? first + w : k->g.l;
    uint32_t *entry = k->cache + (size_t)k->g.c * 3;
    for (uint32_t left = ind_cached_among(&k->s, first, end); left > 0;) {
        entry -= 3;
        uint32_t i = entry[0] - first; /* wraps, and so is W or more, if before the page */
        if (i >= w)
            continue;
        words[i] = entry[1];
        entry[2] = 0;
        left--;
    }
}

/*
 * "if all C entries are used, drop the last; if it is changed, first write it
 * back: update its translation page", and before P2 "with that one entry".  The
 * last is "the trial part's last", since C/2 is below C.
 */
static void drop_last(struct ind_work *k)
{
    const uint32_t *entry = k->cache + (size_t)(k->g.c - 1) * 3;
    if (entry[2] == 1) {
        uint32_t t = entry[0] / k->g.w, first = t * k->g.w;
        uint32_t *words = ind_update(k, t);
        if (ind_rule == IND_NEIGHBOURS)
            set_neighbours(k, words, first);
        else
            words[entry[0] - first] = entry[1];
    }
    ind_clear_cached(&k->s, entry[0]);
    k->record[IND_USED]--;
}

/* "A miss enters at the trial front", before P5 "in front". */
static uint32_t *miss(struct ind_work *k, uint32_t l)
{
    if (k->record[IND_USED] == k->g.c)
        drop_last(k);
    /* "if l's translation page exists, read it and take the word; else *none*" */
    uint32_t place = IND_NONE;
    uint32_t named = k->directory[l / k->g.w];
    if (named != IND_NONE) {
        k->reads++;
        ind_translation_reads++;
        place = ind_page_words(k, named)[l % k->g.w];
    }
    ind_set_cached(&k->s, l);
    uint32_t front = ind_order == IND_SEGMENTED ? k->record[IND_PROTECTED] : 0;
    return put(k, front, k->record[IND_USED]++, l, place, 0);
}

uint32_t *ind_translate(struct ind_work *k, uint32_t l)
{
    return ind_is_cached(&k->s, l) ? hit(k, l) : miss(k, l);
}
