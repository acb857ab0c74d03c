/*
 * Corruptions of sound states: the linear check, the rules one by one and the
 * naive rules must give the same verdict, and a damaged state must be refused by
 * every call without a change.
 */
#include "selftest.h"

#include "independent.h"
#include "test_naive.h"

#include <stdio.h>
#include <string.h>

/* A value likely to matter somewhere: a bound, a near miss, another word. */
static uint32_t telling_value(const struct world *x, uint32_t old, uint64_t *seed)
{
    uint32_t pages = (x->d + x->t) * x->p;
    int other = (int)random_below(seed, SLICES);
    switch (random_below(seed, 16)) {
    case 0: return 0;
    case 1: return 1;
    case 2: return 65535;
    case 3: return NONE;
    case 4: return NONE - 1;
    case 5: return old + 1;
    case 6: return old - 1;
    case 7: return old ^ UINT32_C(1) << random_below(seed, 32);
    case 8: return random_below(seed, x->l + 2);
    case 9: return random_below(seed, x->m + 2);
    case 10: return random_below(seed, x->d + x->t + 2);
    case 11: return random_below(seed, x->p + 2);
    case 12: return random_below(seed, x->c + 2);
    case 13: return x->slice[other][random_below(seed, (uint32_t)x->n[other])];
    case 14: return (uint32_t)random_64(seed);
    default: return random_below(seed, pages + 2);
    }
}

void refused_everywhere(struct world *x)
{
    struct world before = world_copy(x);
    uint32_t buffer[512], untouched[512], counts[3] = {7, 7, 7};
    uint32_t requests[2] = {1, x->l}, answers[1] = {77};
    memset(buffer, 0x5a, sizeof buffer);
    memcpy(untouched, buffer, sizeof buffer);
    REQUIRE(ind_read(GEOMETRY_OF(x), NONE, STATE_OF(x), buffer, x->w, counts, 3) == IND_DAMAGED);
    REQUIRE(counts[0] == 0 && counts[1] == 0 && counts[2] == 0);
    REQUIRE(ind_write(GEOMETRY_OF(x), 0, STATE_OF(x), buffer, x->w, counts, 3) == IND_DAMAGED);
    REQUIRE(ind_run(GEOMETRY_OF(x), STATE_OF(x), requests, 2, buffer, x->w, answers, 1, counts,
                    3) == IND_DAMAGED);
    REQUIRE(answers[0] == 77 && memcmp(buffer, untouched, sizeof buffer) == 0);
    REQUIRE(world_equal(x, &before));
    world_free(&before);
}

/* A corrupted state that is sound all the same must serve like any other. */
static void serves(const struct world *x, uint64_t *seed, struct coverage *seen)
{
    struct world copy = world_copy(x);
    struct oracle o = oracle_of(&copy);
    for (int i = 0; i < 4; i++)
        random_call(&copy, &o, seed, seen);
    oracle_free(&o);
    world_free(&copy);
}

static void compare_verdicts(struct world *x, uint64_t *seed, struct coverage *seen)
{
    uint32_t counts[3] = {7, 7, 7};
    int naive = naive_first_broken(x);
    uint32_t reply = ind_check(GEOMETRY_OF(x), STATE_OF(x), counts, 3);
    REQUIRE(reply == (naive == 0 ? IND_DONE : IND_DAMAGED));
    REQUIRE(counts[0] == 0 && counts[1] == 0 && counts[2] == 0);
    REQUIRE(ind_first_broken_rule(GEOMETRY_OF(x), STATE_OF(x), NULL) == naive);
    seen->corruptions++;
    seen->broken[naive]++;
    if (naive != 0 && random_below(seed, 64) == 0)
        refused_everywhere(x);
    if (naive == 0 && random_below(seed, 16) == 0)
        serves(x, seed, seen);
}

static void corrupt_single_words(struct world *x, uint64_t *seed, struct coverage *seen)
{
    for (int i = 0; i < SLICES; i++) {
        uint32_t times = i == CHIP ? 3 : 12;
        for (size_t k = 0; k < x->n[i] * times; k++) {
            uint32_t *word = &x->slice[i][k % x->n[i]], old = *word;
            *word = telling_value(x, old, seed);
            if (*word != old)
                compare_verdicts(x, seed, seen);
            *word = old;
        }
    }
}

/*
 * Every number of protected entries up to C and one more: "at most C/2 and at
 * most the used ones in a sound state".
 */
static void corrupt_protected(struct world *x, uint64_t *seed, struct coverage *seen)
{
    uint32_t *protected = &x->slice[RECORD][5], old = *protected;
    uint32_t used = x->slice[RECORD][4], limit = x->c / 2;
    for (*protected = 0; *protected <= x->c + 1; ++*protected) {
        bool over = *protected > limit, unused = *protected > used;
        REQUIRE(naive_first_broken(x) == (over || unused ? 5 : 0));
        compare_verdicts(x, seed, seen);
        seen->bordered[over][unused]++;
    }
    *protected = old;
}

/* Two or three words at once, which can turn one sound state into another. */
static void corrupt_several_words(struct world *x, uint64_t *seed, struct coverage *seen)
{
    uint32_t *words[3], old[3];
    uint32_t n = 2 + random_below(seed, 2);
    for (uint32_t i = 0; i < n; i++) {
        int slice = (int)random_below(seed, SLICES);
        words[i] = &x->slice[slice][random_below(seed, (uint32_t)x->n[slice])];
        old[i] = *words[i];
        *words[i] = telling_value(x, old[i], seed);
    }
    compare_verdicts(x, seed, seen);
    while (n-- > 0)
        *words[n] = old[n];
}

/* A state of a session, plain or odd, or one no session need reach. */
static void reach_state(struct world *x, uint64_t *seed, struct coverage *seen)
{
    uint32_t counts[3];
    if (random_below(seed, 2)) {
        world_random_sound(x, seed);
        return;
    }
    REQUIRE(ind_format(GEOMETRY_OF(x), STATE_OF(x), counts, 3) == IND_DONE);
    struct oracle o = oracle_of(x);
    for (uint32_t i = random_below(seed, 60); i > 0; i--)
        random_call(x, &o, seed, seen);
    oracle_free(&o);
    if (random_below(seed, 2))
        world_make_odd(x, seed);
}

void test_damage(uint64_t seed, uint32_t states, struct coverage *seen)
{
    for (uint32_t i = 0; i < states; i++) {
        uint64_t own = seed + i;
        struct world x = world_random_small(&own);
        snprintf(test_context, sizeof test_context,
                 "damage %u of seed %llu: P=%u W=%u D=%u T=%u L=%u C=%u", i,
                 (unsigned long long)seed, GEOMETRY_OF(&x));
        reach_state(&x, &own, seen);
        REQUIRE(naive_first_broken(&x) == 0);
        compare_verdicts(&x, &own, seen);
        corrupt_single_words(&x, &own, seen);
        corrupt_protected(&x, &own, seen);
        for (int k = 0; k < 200; k++)
            corrupt_several_words(&x, &own, seen);
        seen->states++;
        world_free(&x);
    }
}
