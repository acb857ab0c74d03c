/* The words of a state that are changed before a call: see fill.h. */
#include "fill.h"

static size_t row_words(const struct world *x)
{
    size_t n = 0;
    for (int i = 0; i < SLICES; i++)
        n += x->n[i];
    return n;
}

uint32_t *row_word(const struct world *x, size_t at, int *slice, size_t *index)
{
    *slice = 0;
    while (at >= x->n[*slice])
        at -= x->n[(*slice)++];
    *index = at;
    return &x->slice[*slice][at];
}

/* A number of protected entries at or about what rule 5 allows, or far from it. */
static uint32_t other_protected(const struct world *x, uint64_t *seed)
{
    uint32_t used = x->slice[RECORD][USED];
    const uint32_t choice[] = {x->c / 2, x->c / 2 + 1, (x->c + 1) / 2, used, used + 1, x->c, NONE};
    return choice[random_below(seed, 7)];
}

/* Another value that may well pass for a right one. */
static uint32_t other_value(const struct world *x, int slice, size_t index, uint32_t old,
                            uint64_t *seed)
{
    static const uint32_t marks[] = {0, 1, 65535, NONE, NONE - 1, 65534};
    const uint32_t bounds[] = {x->p, x->l, x->m, x->c, x->d, x->d + x->t, x->d * x->p,
                               (x->d + x->t) * x->p};
    if (slice == RECORD && index == PROTECTED && random_below(seed, 2))
        return other_protected(x, seed);
    switch (random_below(seed, 6)) {
    case 0: return old + 1 - 2 * random_below(seed, 2);
    case 1: return old ^ UINT32_C(1) << random_below(seed, 32);
    case 2: return x->slice[slice][random_below(seed, (uint32_t)x->n[slice])];
    case 3: return marks[random_below(seed, 6)];
    case 4: return random_below(seed, bounds[random_below(seed, 8)] + 2);
    default: return (uint32_t)random_64(seed);
    }
}

/* An entry of the cache over another, or a page's state and owner over another's. */
static void copy_over(struct changes *c, const struct world *x, int slice, size_t index,
                      uint64_t *seed)
{
    uint32_t words = slice == CACHE ? 3 : 2;
    size_t others = x->n[slice] / words, start = c->at[0] - index % words;
    const uint32_t *other = x->slice[slice] + random_64(seed) % others * words;
    c->n = words;
    for (uint32_t i = 0; i < words; i++) {
        c->at[i] = start + i;
        c->from[i] = x->slice[slice][index - index % words + i];
        c->to[i] = other[i];
    }
}

static struct changes any_changes(const struct world *x, uint32_t at, uint64_t *seed)
{
    size_t words = row_words(x), index;
    uint32_t several = random_below(seed, 8);
    struct changes c = {.n = several < MOST_CHANGES ? several + 1 : 1, .at = {at % words}};
    int slice;
    row_word(x, c.at[0], &slice, &index);
    if (several == MOST_CHANGES && (slice == CACHE || slice == SPARE)) {
        copy_over(&c, x, slice, index, seed);
        return c;
    }
    for (uint32_t i = 0; i < c.n; i++) {
        if (i > 0) /* beside the first, where words belong together, or anywhere */
            c.at[i] = random_below(seed, 2) ? (c.at[0] + random_below(seed, 6)) % words
                                            : random_64(seed) % words;
        c.from[i] = *row_word(x, c.at[i], &slice, &index);
        c.to[i] = other_value(x, slice, index, c.from[i], seed);
    }
    if (c.n == 2 && random_below(seed, 2)) {
        c.to[0] = c.from[1];
        c.to[1] = c.from[0];
    }
    return c;
}

struct changes fill_changes(const struct world *x, const struct step *step)
{
    uint64_t seed = step->seed;
    if (step->fixed == NULL)
        return any_changes(x, step->at, &seed);
    struct changes c = *step->fixed;
    for (uint32_t i = 0; i < c.n; i++) {
        int slice;
        size_t index;
        c.from[i] = *row_word(x, c.at[i], &slice, &index);
    }
    return c;
}

/* The record's last word is the last of the row. */
bool changes_protected(const struct changes *c, const struct world *x)
{
    return c->n == 1 && c->at[0] == row_words(x) - 1;
}

void changes_set(const struct changes *c, struct world *x, const uint32_t value[MOST_CHANGES])
{
    for (uint32_t i = 0; i < c->n; i++) {
        int slice;
        size_t index;
        *row_word(x, c->at[i], &slice, &index) = value[i];
    }
}

bool fill_emptied(struct world *x, uint64_t seed)
{
    uint32_t used = x->slice[RECORD][USED], from = random_below(&seed, x->c);
    for (uint32_t i = 0; i < used; i++) {
        uint32_t *entry = x->slice[CACHE] + (size_t)((from + i) % used) * 3;
        if (entry[1] == NONE)
            continue;
        x->slice[SPARE][2 * (size_t)entry[1]] = 0;
        entry[1] = NONE;
        entry[2] = 1;
        return true;
    }
    return false;
}
