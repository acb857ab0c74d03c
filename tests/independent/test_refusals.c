/*
 * Refusals before the state is looked at, and arbitrary input: the edges of the
 * geometry, every length, words and record numbers at random.
 */
#include "selftest.h"

#include "independent.h"
#include "test_naive.h"

#include <stdio.h>
#include <stdlib.h>
#include <string.h>

/* The slices of every call, in one order. */
enum { BUFFER = SLICES, REQUESTS, DATA, ANSWERS, COUNTS, ALL };
enum { FORMAT, CHECK, READ, WRITE, RUN, CALLS };

static uint32_t call(int which, const uint32_t g[6], uint32_t page, uint32_t *s[ALL],
                     const size_t n[ALL])
{
#define G6 g[0], g[1], g[2], g[3], g[4], g[5]
#define S(i) s[i], n[i]
#define FIVE S(CHIP), S(SPARE), S(DIRECTORY), S(CACHE), S(RECORD)
    switch (which) {
    case FORMAT: return ind_format(G6, FIVE, S(COUNTS));
    case CHECK: return ind_check(G6, FIVE, S(COUNTS));
    case READ: return ind_read(G6, page, FIVE, S(BUFFER), S(COUNTS));
    case WRITE: return ind_write(G6, page, FIVE, S(BUFFER), S(COUNTS));
    default: return ind_run(G6, FIVE, S(REQUESTS), S(DATA), S(ANSWERS), S(COUNTS));
    }
#undef G6
#undef S
#undef FIVE
}

bool accepted(const uint32_t g[6])
{
    uint64_t p = g[0], w = g[1], d = g[2], t = g[3], l = g[4], c = g[5];
    if (!(1 <= p && p <= 64 && 1 <= w && w <= 512 && 2 <= d && 2 <= t && d + t <= 1024))
        return false;
    uint64_t m = l / w + (l % w != 0);
    return 1 <= l && l + 1 <= (d - 1) * p && 1 <= m && m + 1 <= (t - 1) * p && 1 <= c &&
           c <= 4096;
}

static uint32_t near(uint32_t edge, uint64_t *seed)
{
    return edge + random_below(seed, 3) - 1;
}

void edge_geometry(uint32_t g[6], uint64_t *seed)
{
    g[0] = random_below(seed, 2) ? near(64, seed) : 1 + random_below(seed, 64);
    g[1] = random_below(seed, 2) ? near(512, seed) : 1 + random_below(seed, 512);
    g[2] = random_below(seed, 2) ? near(2, seed) : near(1 + random_below(seed, 1023), seed);
    g[3] = random_below(seed, 2) ? near(2, seed) : near(1024 - g[2], seed);
    uint32_t most_l = (g[2] - 1) * g[0] - 1, most_m = (g[3] - 1) * g[0] - 1;
    g[4] = near(random_below(seed, 2) ? most_l : most_m * g[1], seed);
    if (random_below(seed, 4) == 0)
        g[4] = random_below(seed, 3);
    g[5] = random_below(seed, 2) ? near(4096, seed) : near(1, seed);
    if (random_below(seed, 3) == 0) {
        uint32_t which = random_below(seed, 6), shift = random_below(seed, 64);
        g[which] = (uint32_t)(random_64(seed) >> shift);
    }
    if (random_below(seed, 16) == 0)
        for (int i = 0; i < 6; i++)
            g[i] = (uint32_t)random_64(seed) | UINT32_C(0x80000000);
}

/* With no memory at all, GEOMETRY goes before LENGTH. */
void test_geometry_edges(uint64_t seed, uint32_t tries)
{
    uint32_t counts[3], *s[ALL] = {NULL};
    uint64_t good = 0;
    s[COUNTS] = counts;
    for (uint32_t i = 0; i < tries; i++) {
        uint32_t g[6];
        size_t n[ALL] = {0};
        edge_geometry(g, &seed);
        snprintf(test_context, sizeof test_context, "geometry %u %u %u %u %u %u", g[0], g[1], g[2],
                 g[3], g[4], g[5]);
        good += accepted(g);
        uint32_t expected = accepted(g) ? IND_LENGTH : IND_GEOMETRY;
        for (int which = 0; which < CALLS; which++) {
            n[COUNTS] = 3;
            counts[0] = counts[1] = counts[2] = 7;
            REQUIRE(call(which, g, 0, s, n) == expected);
            REQUIRE(counts[0] == 0 && counts[1] == 0 && counts[2] == 0);
            n[COUNTS] = 2;
            counts[0] = 7;
            REQUIRE(call(which, g, 0, s, n) == expected);
            REQUIRE(counts[0] == 7);
        }
    }
    REQUIRE(good > tries / 100);
    printf("geometry edges: %u tried, %llu accepted\n", tries, (unsigned long long)good);
}

/* Whether a call has a slice at all. */
static bool takes(int which, int slice)
{
    if (slice < SLICES || slice == COUNTS)
        return true;
    return slice == BUFFER ? which == READ || which == WRITE : which == RUN;
}

/* Each slice in turn one short, one long, empty or absurd; nothing may change. */
void test_lengths(uint64_t seed, uint32_t worlds)
{
    for (uint32_t i = 0; i < worlds; i++) {
        struct world x = world_random_small(&seed);
        world_random_sound(&x, &seed);
        struct world before = world_copy(&x);
        const uint32_t g[6] = {GEOMETRY_OF(&x)};
        uint32_t extra[4][16] = {{0}}, counts[3];
        uint32_t *s[ALL] = {x.slice[0], x.slice[1], x.slice[2], x.slice[3], x.slice[4],
                            extra[0],   extra[1],   extra[2],   extra[3],   counts};
        const size_t fit[ALL] = {x.n[0], x.n[1], x.n[2], x.n[3], x.n[4], x.w, 4, 2 * x.w, 2, 3};
        for (int which = 0; which < CALLS; which++)
            for (int slice = 0; slice < ALL; slice++) {
                const size_t wrong[5] = {fit[slice] - 1, fit[slice] + 1, 0, SIZE_MAX,
                                         SIZE_MAX / 2 + 1 + fit[slice]};
                for (int k = 0; k < 5 && takes(which, slice); k++) {
                    size_t n[ALL];
                    memcpy(n, fit, sizeof n);
                    n[slice] = wrong[k];
                    counts[0] = counts[1] = counts[2] = 7;
                    REQUIRE(call(which, g, NONE, s, n) == IND_LENGTH);
                    REQUIRE(counts[0] == (slice == COUNTS ? 7 : 0));
                    REQUIRE(world_equal(&x, &before));
                }
            }
        /* 1,025 records are too many even where everything else fits them. */
        uint32_t *many = calloc((size_t)1025 * (3 + x.w), sizeof *many);
        REQUIRE(many != NULL);
        REQUIRE(ind_run(g[0], g[1], g[2], g[3], g[4], g[5], STATE_OF(&x), many, 2050,
                        many + 3075, (size_t)1025 * x.w, many + 2050, 1025, counts,
                        3) == IND_LENGTH);
        free(many);
        REQUIRE(ind_run(g[0], g[1], g[2], g[3], g[4], g[5], STATE_OF(&x), NULL, 0, NULL, 0, NULL,
                        0, counts, 3) == IND_DONE);
        REQUIRE(world_equal(&x, &before) && counts[0] + counts[1] + counts[2] == 0);
        REQUIRE(call(READ, g, x.l, s, fit) == IND_PAGE && call(WRITE, g, x.l, s, fit) == IND_PAGE);
        REQUIRE(world_equal(&x, &before));
        world_free(&before);
        world_free(&x);
    }
}

/* Words at random, some of them plausible, behind an accepted geometry. */
void test_arbitrary_input(uint64_t seed, uint32_t tries)
{
    for (uint32_t i = 0; i < tries; i++) {
        struct world x = world_random_small(&seed);
        uint32_t pages = (x.d + x.t) * x.p;
        uint32_t style = random_below(&seed, 3);
        for (int k = 0; k < SLICES; k++)
            for (size_t j = 0; j < x.n[k]; j++)
                if (style > 0 && random_below(&seed, 8))
                    x.slice[k][j] = random_below(&seed, style) ? NONE : random_below(&seed, pages);
        uint32_t counts[3], buffer[16] = {0};
        struct world before = world_copy(&x);
        int broken = naive_first_broken(&x);
        uint32_t reply = ind_write(GEOMETRY_OF(&x), random_below(&seed, x.l), STATE_OF(&x), buffer,
                                   x.w, counts, 3);
        REQUIRE(reply == (broken ? IND_DAMAGED : IND_DONE));
        REQUIRE(!broken || world_equal(&x, &before));
        REQUIRE(ind_first_broken_rule(GEOMETRY_OF(&before), STATE_OF(&before), NULL) == broken);
        world_free(&before);
        world_free(&x);
    }
}
