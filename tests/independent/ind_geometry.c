/*
 * The accepted geometry as the calls use it, and the lengths that the five
 * slices of the state must then have.
 */
#include "ind_internal.h"

bool ind_accept(struct ind_geometry *g, uint32_t p, uint32_t w, uint32_t d, uint32_t t,
                uint32_t l, uint32_t c)
{
    if (!ind_accepted(p, w, d, t, l, c))
        return false;
    g->p = p;
    g->w = w;
    g->d = d;
    g->t = t;
    g->l = l;
    g->c = c;
    g->m = (l + w - 1) / w;
    return true;
}

bool ind_lengths_fit(const struct ind_geometry *g, const struct ind_lengths *n)
{
    uint64_t pages = (uint64_t)(g->d + g->t) * g->p;
    return n->chip == pages * g->w && n->spare == pages * 2 && n->directory == g->m &&
           n->cache == (uint64_t)g->c * 3 && n->record == IND_RECORD_WORDS;
}
