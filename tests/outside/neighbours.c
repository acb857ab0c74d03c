/* What the sessions met of P2: see neighbours.h. */
#include "neighbours.h"

#include "tell.h"

#include <stdio.h>

static const char *const name[NEIGHBOURS] = {
    "together", "two or more neighbours", "one at none", "one at none over a word",
    "one at the page's first word", "one at its last", "an unchanged entry between",
    "a changed entry of another page left", "a new page", "collected first",
    "collected with the page itself", "an unchanged entry dropped beside changed ones",
    "a collection's update that left a changed entry"};

static uint32_t bit(int which, bool met)
{
    return (uint32_t)met << which;
}

/* What a changed entry is to a write-back of the translation page of `first`, which lies at `named`. */
static uint32_t beside(const struct world *x, const uint32_t *entry, uint32_t first, uint32_t named)
{
    uint32_t i = entry[0] - first; /* wraps, and so is W or more, if before the page */
    if (i >= x->w)
        return bit(ELSEWHERE, true);
    uint32_t word = named == NONE ? NONE : x->slice[CHIP][(size_t)named * x->w + i];
    return bit(TOGETHER, true) | bit(FIRST_WORD, i == 0) | bit(NEW_PAGE, named == NONE) |
           bit(LAST_WORD, i == x->w - 1 || entry[0] == x->l - 1) |
           bit(AT_NONE, entry[1] == NONE && word == NONE) |
           bit(NONE_OVER_WORD, entry[1] == NONE && word != NONE);
}

/* What the drop of the last entry meets among the others, from the rear to the front. */
static uint32_t dropped(const struct world *x, const uint32_t *last, uint32_t named)
{
    uint32_t bits = 0, first = last[0] / x->w * x->w;
    bool unchanged = false; /* an entry of the page was passed that is */
    for (const uint32_t *entry = last; entry != x->slice[CACHE];) {
        entry -= 3;
        bool of_page = entry[0] - first < x->w;
        unchanged |= of_page && entry[2] == 0;
        if (entry[2] == 0)
            continue;
        bits |= bit(SEVERAL, of_page && bits & bit(TOGETHER, true));
        bits |= bit(BETWEEN, of_page && unchanged) | beside(x, entry, first, named);
    }
    if (!(bits & bit(TOGETHER, true)))
        return 0;
    return last[2] == 0 ? bit(UNCHANGED, true) : bits;
}

/* The words may be any: a state that is not sound is refused, and then nothing of this counts. */
void neighbours_before(struct neighbours *n, const struct play *p, const struct step *step)
{
    const struct world *x = &p->state[OF_ARCHIVE];
    const uint32_t *last = x->slice[CACHE] + (size_t)(x->c - 1) * 3;
    n->open = x->slice[RECORD][2];
    n->next = x->slice[RECORD][3];
    n->bits = 0;
    n->written_back = false;
    n->former = NONE;
    if ((step->kind != READ && step->kind != WRITE) || last[0] >= x->l)
        return; /* no request, or the cache isn't full */
    for (const uint32_t *entry = x->slice[CACHE]; entry <= last; entry += 3)
        if (entry[0] == step->at)
            return;
    n->former = x->slice[DIRECTORY][last[0] / x->w];
    if (n->former != NONE && n->former >= (x->d + x->t) * x->p)
        return;
    n->written_back = last[2] == 1;
    n->bits = dropped(x, last, n->former);
}

/* A read erases only where room for its write-back is made by collecting. */
static uint32_t room_made(const struct neighbours *n, const struct play *p)
{
    if (!(n->bits & bit(TOGETHER, true)))
        return 0;
    const uint32_t *spare = p->state[OF_ARCHIVE].slice[SPARE];
    return bit(COLLECTED, play_slice(p, OF_ARCHIVE, COUNTS)[2] > 0) |
           bit(PAGE_MOVED, n->former != NONE && spare[2 * (size_t)n->former] == NONE);
}

/*
 * A write that erased one block and kept the open translation block collected in
 * the data region alone.  What it programmed there, but for a write-back, which
 * is the first, are the collection's own updates.  The written page's own entry is
 * changed after them.
 */
static uint32_t updates(const struct neighbours *n, const struct play *p)
{
    const struct world *x = &p->state[OF_ARCHIVE];
    const uint32_t *record = x->slice[RECORD], *cache = x->slice[CACHE];
    uint32_t bits = 0;
    if (play_slice(p, OF_ARCHIVE, COUNTS)[2] != 1 || record[2] != n->open)
        return 0;
    for (uint32_t next = n->next + n->written_back; next < record[3]; next++) {
        uint32_t t = x->slice[SPARE][2 * ((size_t)n->open * x->p + next) + 1];
        for (uint32_t rank = 0; rank < record[USED]; rank++)
            bits |= bit(UPDATE_LEFT, cache[3 * rank + 2] == 1 && cache[3 * rank] / x->w == t &&
                                         cache[3 * rank] != p->call.page);
    }
    return bits;
}

void neighbours_after(struct neighbours *n, const struct play *p, const struct step *step)
{
    if ((step->kind != READ && step->kind != WRITE) || p->reply > UNWRITTEN)
        return;
    n->bits |= step->kind == READ ? room_made(n, p) : updates(n, p);
    for (int i = 0; i < NEIGHBOURS; i++)
        n->met[i] += n->bits >> i & 1;
}

void neighbours_print(const struct neighbours *n)
{
    tell_row("neighbours", name, n->met, 0, NEIGHBOURS);
}

bool neighbours_whole(const struct neighbours *n)
{
    bool whole = true;
    for (int i = 0; i < NEIGHBOURS; i++)
        whole &= tell_met("neighbours:", name[i], n->met[i]);
    return whole;
}
