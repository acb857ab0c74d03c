/* The call that a step asks for, and the words it is made with: see fill.h. */
#include "fill.h"

#include <string.h>

/* Every eighth word is *none*, which has a meaning wherever words have one. */
static void fill_words(uint32_t *words, size_t n, uint64_t *seed)
{
    for (size_t i = 0; i < n; i++)
        words[i] = random_below(seed, 8) ? (uint32_t)random_64(seed) : NONE;
}

void fill_any_words(struct world *x, uint64_t *seed)
{
    uint32_t pages = (x->d + x->t) * x->p;
    uint32_t plausible = random_below(seed, 3) * 4;
    for (int i = 0; i < SLICES; i++) {
        fill_words(x->slice[i], x->n[i], seed);
        for (size_t k = 0; k < x->n[i] && plausible > 0; k++)
            if (random_below(seed, plausible))
                x->slice[i][k] = random_below(seed, pages);
    }
}

/* Over the greatest good number, or far over it. */
static uint32_t too_great(uint32_t limit, uint64_t *seed)
{
    switch (random_below(seed, 4)) {
    case 0: return limit;
    case 1: return limit + 1;
    case 2: return NONE;
    default: return limit + random_below(seed, NONE - limit);
    }
}

/* A run's lengths for that many records. */
static void take_records(struct call *c, uint32_t records)
{
    c->n[REQUESTS] = (size_t)records * 2;
    c->n[DATA] = (size_t)records * c->g[1];
    c->n[ANSWERS] = records;
}

static size_t wrong_length(size_t fit, size_t room, uint64_t *seed)
{
    const size_t choice[] = {fit - 1, fit + 1, 0, fit / 2, fit * 2,
                             random_below(seed, (uint32_t)fit + 8)};
    size_t n = choice[random_below(seed, 6)];
    if (n > room)
        n = room;
    if (n == fit)
        n = fit < room ? fit + 1 : fit - 1;
    return n;
}

static void other_length(struct call *c, const struct lent *lent, uint64_t *seed)
{
    int slice;
    do
        slice = (int)random_below(seed, ALL);
    while (!call_takes(c->which, slice));
    c->n[slice] = wrong_length(c->n[slice], lent_room(lent, slice), seed);
    c->wrong = slice;
}

/* One number at an edge or beyond, or several that fool a sum or a product that wraps. */
static void other_geometry(uint32_t g[6], uint64_t *seed)
{
    static const uint32_t limit[6] = {64, 512, 1022, 1022, 65406, 4096};
    uint32_t i = random_below(seed, 6), by = 1 + random_below(seed, 4);
    switch (random_below(seed, 12)) {
    case 0: g[i] = 0; break;
    case 1: g[i]++; break;
    case 2: g[i]--; break;
    case 3: g[i] = NONE; break;
    case 4: g[i] = (uint32_t)random_64(seed); break;
    case 5: g[i] |= UINT32_C(1) << random_below(seed, 32); break;
    case 6: g[i] = limit[i] + random_below(seed, 2); break;
    case 7: g[2]++, g[3]--; break;
    case 8: g[2]--, g[3]++; break;
    case 9: g[2] += NONE - by + 1, g[3] += by; break; /* their sum wraps to what it was */
    case 10: g[4] = (g[2] - 1) * g[0] - random_below(seed, 2); break;
    default: g[4] = ((g[3] - 1) * g[0] - 1) * g[1] + random_below(seed, 2); break;
    }
}

/* By a seed of their own, so that fewer records are the first of more. */
static void fill_requests(uint32_t *requests, size_t n, uint32_t l, uint64_t seed)
{
    uint32_t hot = l < 8 ? l : 8;
    for (size_t i = 0; i < n; i++) {
        uint32_t odd = random_below(&seed, 16);
        bool page = i % 2 == 1;
        if (odd == 0)
            requests[i] = too_great(page ? l : 2, &seed);
        else if (page)
            requests[i] = random_below(&seed, odd % 2 ? l : hot);
        else
            requests[i] = random_below(&seed, 2);
    }
}

/* The kind of call and its lengths. */
static void choose_call(struct call *c, const struct lent *lent, const struct step *step,
                        uint64_t *seed)
{
    c->which = step->kind < CALLS ? step->kind : (int)random_below(seed, CALLS);
    c->page = step->kind < CALLS ? step->at : random_below(seed, c->g[4] + 2);
    uint32_t records = step->kind == RUN ? step->at : random_below(seed, 4);
    if (step->kind == CHANGED_WORD && (c->which == FORMAT || random_below(seed, 2)))
        c->which = CHECK; /* format does not look, and would end the session's state */
    if (step->kind == TOO_MANY) {
        c->which = RUN;
        records = MOST_REQUESTS + 1 + random_below(seed, 2);
    }
    if (c->which == RUN)
        take_records(c, records);
    if (step->kind == OTHER_LENGTH)
        other_length(c, lent, seed);
    if (step->kind == OTHER_GEOMETRY) {
        other_geometry(c->g, seed);
        for (uint32_t i = random_below(seed, 4); i > 1; i--)
            other_length(c, lent, seed);
    }
}

/* A slice of the state that is longer than it should be has any words beside the state's. */
static void fill_beside(const struct call *c, const struct world *x, const struct lent *lent,
                        uint64_t *seed)
{
    for (int i = 0; i < SLICES; i++) {
        if (c->n[i] <= x->n[i])
            continue;
        uint32_t *words = lent_slice(lent, i, c->n[i]);
        size_t beside = c->n[i] - x->n[i];
        fill_words(lent->placing == ENDING ? words : words + x->n[i], beside, seed);
    }
}

void fill_call(struct call *c, const struct world state[2], const struct lent lent[2],
               const struct step *step)
{
    const struct world *x = &state[0];
    uint64_t seed = step->seed, requests = ~step->seed;
    *c = (struct call){.g = {GEOMETRY_OF(x)}, .null = random_below(&seed, 2), .wrong = ALL};
    memcpy(c->n, x->n, sizeof x->n);
    c->n[BUFFER] = x->w;
    c->n[COUNTS] = COUNTS_WORDS;
    choose_call(c, lent, step, &seed);
    for (int side = 0; side < 2; side++) {
        uint64_t alike = seed;
        fill_beside(c, x, &lent[side], &alike);
        for (int i = SLICES; i < ALL; i++) {
            uint32_t *words = lent_slice(&lent[side], i, c->n[i]);
            if (i == REQUESTS)
                fill_requests(words, c->n[i], x->l, requests);
            else if (call_takes(c->which, i))
                fill_words(words, c->n[i], &alike);
        }
    }
}
