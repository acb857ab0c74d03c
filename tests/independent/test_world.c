/* Worlds for tests: see test_world.h. */
#include "test_world.h"

#include <stdio.h>
#include <stdlib.h>
#include <string.h>

char test_context[256] = "start";

void require(bool holds, const char *what, const char *file, int line)
{
    if (holds)
        return;
    fprintf(stderr, "%s:%d: failed: %s\n  while: %s\n", file, line, what, test_context);
    exit(1);
}

uint64_t random_64(uint64_t *seed)
{
    uint64_t z = *seed += UINT64_C(0x9e3779b97f4a7c15);
    z = (z ^ z >> 30) * UINT64_C(0xbf58476d1ce4e5b9);
    z = (z ^ z >> 27) * UINT64_C(0x94d049bb133111eb);
    return z ^ z >> 31;
}

uint32_t random_below(uint64_t *seed, uint32_t n)
{
    return (uint32_t)((random_64(seed) >> 32) * n >> 32);
}

static void scramble(uint32_t *words, size_t n, uint64_t *seed)
{
    for (size_t i = 0; i < n; i++)
        words[i] = (uint32_t)random_64(seed);
}

struct world world_make(uint32_t p, uint32_t w, uint32_t d, uint32_t t, uint32_t l, uint32_t c,
                        uint64_t *seed)
{
    struct world x = {p, w, d, t, l, c, (l + w - 1) / w, {0}, {0}};
    size_t pages = (size_t)(d + t) * p;
    const size_t n[SLICES] = {pages * w, pages * 2, x.m, (size_t)c * 3, 6};
    for (int i = 0; i < SLICES; i++) {
        x.n[i] = n[i];
        x.slice[i] = malloc(n[i] * sizeof(uint32_t));
        REQUIRE(x.slice[i] != NULL);
        scramble(x.slice[i], n[i], seed);
    }
    return x;
}

void world_assign(struct world *to, const struct world *from)
{
    for (int i = 0; i < SLICES; i++)
        memcpy(to->slice[i], from->slice[i], from->n[i] * sizeof(uint32_t));
}

struct world world_copy(const struct world *from)
{
    uint64_t seed = 0;
    struct world x = world_make(GEOMETRY_OF(from), &seed);
    world_assign(&x, from);
    return x;
}

bool world_equal(const struct world *a, const struct world *b)
{
    for (int i = 0; i < SLICES; i++)
        if (memcmp(a->slice[i], b->slice[i], a->n[i] * sizeof(uint32_t)) != 0)
            return false;
    return true;
}

void world_free(struct world *x)
{
    for (int i = 0; i < SLICES; i++)
        free(x->slice[i]);
}

static uint32_t least(uint32_t a, uint32_t b)
{
    return a < b ? a : b;
}

struct world world_random_small(uint64_t *seed)
{
    static const uint32_t ps[] = {1, 1, 2, 2, 3, 4, 5, 8};
    static const uint32_t ws[] = {1, 1, 2, 3, 4, 7};
    for (;;) {
        uint32_t p = ps[random_below(seed, 8)];
        uint32_t w = ws[random_below(seed, 6)];
        uint32_t d = 2 + random_below(seed, 5), t = 2 + random_below(seed, 5);
        uint32_t most_m = (t - 1) * p - 1;
        uint32_t most_l = least((d - 1) * p - 1, most_m * w);
        if (most_l == 0)
            continue;
        uint32_t l = random_below(seed, 2) ? most_l : 1 + random_below(seed, most_l);
        uint32_t c = random_below(seed, 3) ? 1 + random_below(seed, l + 1) : 1;
        return world_make(p, w, d, t, l, c, seed);
    }
}

/* Gives each block of a region a shape that rule 3 allows; NONE in spare is erased. */
static void random_shapes(struct world *x, int region, uint64_t *seed)
{
    uint32_t first = region ? x->d : 0, count = region ? x->t : x->d;
    uint32_t open = random_below(seed, count);
    uint32_t erased = (open + 1 + random_below(seed, count - 1)) % count;
    uint32_t next = random_below(seed, 2) ? x->p : random_below(seed, x->p + 1);
    x->slice[RECORD][2 * region] = first + open;
    x->slice[RECORD][2 * region + 1] = next;
    for (uint32_t b = 0; b < count; b++) {
        bool full = b != erased && random_below(seed, 5) != 0;
        uint32_t programmed = b == open ? next : full ? x->p : 0;
        for (uint32_t i = 0; i < x->p; i++) {
            uint32_t page = (first + b) * x->p + i;
            bool programmed_page = i < programmed;
            x->slice[SPARE][2 * page] = programmed_page ? 0 : NONE;
            x->slice[SPARE][2 * page + 1] = NONE;
            if (!programmed_page)
                memset(x->slice[CHIP] + (size_t)page * x->w, 0xff, x->w * sizeof(uint32_t));
        }
    }
}

/*
 * Gives the programmed pages of a region owners, and makes some of them valid,
 * each for another owner that may have a page; place[owner] becomes the page.
 */
static void random_owners(struct world *x, int region, uint32_t owners, const bool *may,
                          uint32_t *place, uint64_t *seed)
{
    uint32_t first = region ? x->d * x->p : 0;
    uint32_t end = first + (region ? x->t : x->d) * x->p;
    uint32_t eagerness = 1 + random_below(seed, 4);
    for (uint32_t i = 0; i < owners; i++)
        place[i] = NONE;
    for (uint32_t page = first; page < end; page++) {
        uint32_t *spare = x->slice[SPARE] + 2 * page;
        if (spare[0] == NONE)
            continue;
        uint32_t owner = random_below(seed, owners);
        for (uint32_t k = 0; k < eagerness && (place[owner] != NONE || !may[owner]); k++)
            owner = random_below(seed, owners);
        spare[1] = owner;
        if (place[owner] == NONE && may[owner] && random_below(seed, 8)) {
            spare[0] = 65535;
            place[owner] = page;
        }
    }
}

/* Some of the used entries protected, often none or as many as may be. */
static void random_protected(struct world *x, uint64_t *seed)
{
    uint32_t most = least(x->c / 2, x->slice[RECORD][4]);
    uint32_t some = random_below(seed, most + 1);
    x->slice[RECORD][5] = random_below(seed, 2) ? some : random_below(seed, 2) ? most : 0;
}

/* Some used entries of different pages, with marks; the places come later. */
static void random_cache(struct world *x, bool *changed_of, uint64_t *seed)
{
    bool *taken = calloc(x->l, sizeof *taken);
    uint32_t used = random_below(seed, least(x->c, x->l) + 1);
    REQUIRE(taken != NULL);
    memset(x->slice[CACHE], 0xff, x->n[CACHE] * sizeof(uint32_t));
    x->slice[RECORD][4] = used;
    random_protected(x, seed);
    for (uint32_t rank = 0; rank < used; rank++) {
        uint32_t l = random_below(seed, x->l);
        while (taken[l])
            l = (l + 1) % x->l;
        taken[l] = true;
        changed_of[l] = random_below(seed, 2);
        x->slice[CACHE][3 * rank] = l;
        x->slice[CACHE][3 * rank + 2] = changed_of[l];
    }
    free(taken);
}

void world_random_sound(struct world *x, uint64_t *seed)
{
    uint32_t *place = malloc((x->l + x->m) * sizeof *place);
    bool *may = malloc(x->l + x->m), *changed_of = calloc(x->l, 1);
    REQUIRE(place != NULL && may != NULL && changed_of != NULL);
    scramble(x->slice[CHIP], x->n[CHIP], seed);
    random_shapes(x, 0, seed);
    random_shapes(x, 1, seed);
    random_cache(x, changed_of, seed);
    memset(may, 1, x->m);
    random_owners(x, 1, x->m, may, x->slice[DIRECTORY], seed);
    /* A page may be written if a word or a changed entry can say where it is. */
    for (uint32_t l = 0; l < x->l; l++)
        may[l] = x->slice[DIRECTORY][l / x->w] != NONE || changed_of[l];
    random_owners(x, 0, x->l, may, place, seed);
    for (uint32_t rank = 0; rank < x->slice[RECORD][4]; rank++)
        x->slice[CACHE][3 * rank + 1] = place[x->slice[CACHE][3 * rank]];
    for (uint32_t i = 0; i < x->m * x->w; i++) {
        uint32_t named = x->slice[DIRECTORY][i / x->w];
        if (named != NONE && (i >= x->l || !changed_of[i]))
            x->slice[CHIP][(size_t)named * x->w + i % x->w] = i < x->l ? place[i] : NONE;
    }
    free(place);
    free(may);
    free(changed_of);
}

void world_make_odd(struct world *x, uint64_t *seed)
{
    if (random_below(seed, 2))
        random_protected(x, seed);
    for (uint32_t page = 0; page < (x->d + x->t) * x->p; page++) {
        uint32_t *spare = x->slice[SPARE] + 2 * page;
        if (spare[0] != 0 || random_below(seed, 2))
            continue;
        spare[1] = random_below(seed, page < x->d * x->p ? x->l : x->m);
        scramble(x->slice[CHIP] + (size_t)page * x->w, x->w, seed);
    }
    for (uint32_t rank = 0; rank < x->slice[RECORD][4]; rank++) {
        uint32_t *entry = x->slice[CACHE] + 3 * rank;
        uint32_t named = x->slice[DIRECTORY][entry[0] / x->w];
        if (random_below(seed, 2))
            continue;
        entry[2] = 1; /* an entry as it is, *none* too, may always be called changed */
        if (named != NONE)
            x->slice[CHIP][(size_t)named * x->w + entry[0] % x->w] =
                random_below(seed, 2) ? (uint32_t)random_64(seed)
                                      : random_below(seed, (x->d + x->t) * x->p);
    }
}
