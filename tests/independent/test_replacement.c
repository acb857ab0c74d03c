/*
 * P5's order by hand, as lists of letters before and after requests; and the
 * order before it, held to the times at which pages were used.
 */
#include "selftest.h"

#include "independent.h"
#include "test_naive.h"

#include <ctype.h>
#include <stdio.h>
#include <stdlib.h>
#include <string.h>

/*
 * A letter is a logical page of ten, a capital one a changed entry, and protected
 * ones stand before the bar.  In the requests a capital letter is a write.  At the
 * start no page is written.  Translation page 0 is for a to d, 1 for e to h.
 */
static const struct {
    uint32_t c;
    const char *before, *requests, *after;
} orders[] = {
    /* "A miss enters at the trial front." */
    {4, "|", "a", "|a"},
    {4, "|ab", "c", "|cab"},
    {4, "ab|", "c", "ab|c"},
    {4, "ab|c", "d", "ab|dc"},
    {4, "a|bc", "d", "a|dbc"},
    {4, "a|", "E", "a|E"},
    {4, "ab|c", "E", "ab|Ec"},
    {8, "ABcD|eF", "g", "ABcD|geF"},
    /* And where all C entries are used: "The victim is the trial part's last." */
    {4, "|abcd", "e", "|eabc"},
    {4, "a|bcd", "e", "a|ebc"},
    {4, "ab|cd", "e", "ab|ec"},
    {4, "ab|cd", "E", "ab|Ec"},
    {4, "ab|cd", "efgh", "ab|hg"},
    {5, "ab|cde", "f", "ab|fcd"},
    /* "A hit in trial moves to the protected front", below the limit. */
    {4, "|a", "a", "a|"},
    {4, "|ab", "b", "b|a"},
    {4, "|abcd", "c", "c|abd"},
    {4, "a|bcd", "b", "ba|cd"},
    {4, "a|bCd", "c", "Ca|bd"},
    {4, "a|bcd", "D", "Da|bc"},
    /* "if protected is then over its limit, its last goes to the trial front" */
    {4, "ab|c", "c", "ca|b"},
    {4, "ab|cd", "c", "ca|bd"},
    {4, "aB|cd", "d", "da|Bc"},
    {4, "ab|cd", "D", "Da|bc"},
    {4, "ab|cd", "dc", "cd|ab"},
    {6, "abc|def", "e", "eab|cdf"},
    {7, "abc|defg", "g", "gab|cdef"},
    /* So it is dropped after those that were in trial already. */
    {4, "ab|cd", "ce", "ca|eb"},
    {4, "ab|cd", "cef", "ca|fe"},
    /* "A hit in protected moves to its front." */
    {4, "a|bcd", "a", "a|bcd"},
    {4, "ab|cd", "a", "ab|cd"},
    {4, "ab|cd", "b", "ba|cd"},
    {4, "ab|", "B", "Ba|"},
    {6, "aBc|def", "b", "Bac|def"},
    {6, "abC|def", "c", "Cab|def"},
    {9, "abcd|efghi", "dd", "dabc|efghi"},
    /* A drop with neighbours along in both parts, in one, in the other. */
    {6, "AEb|CFD", "g", "aEb|gcF"},
    {6, "AEb|FiD", "g", "aEb|gFi"},
    {6, "eFi|CAD", "g", "eFi|gca"},
    {6, "AeB|FCg", "h", "AeB|hFC"},
    /* C of 1: no protected part. */
    {1, "|", "a", "|a"},
    {1, "|a", "a", "|a"},
    {1, "|a", "A", "|A"},
    {1, "|A", "b", "|b"},
    {1, "|a", "B", "|B"},
    /* C of 2: one. */
    {2, "|", "ab", "|ba"},
    {2, "|ab", "b", "b|a"},
    {2, "a|b", "b", "b|a"},
    {2, "a|b", "a", "a|b"},
    {2, "a|", "b", "a|b"},
    {2, "|ab", "c", "|ca"},
    {2, "A|B", "c", "a|c"},
    {2, "a|b", "Cd", "a|d"},
    /* C of 3: one, rounded down. */
    {3, "|abc", "c", "c|ab"},
    {3, "a|bc", "c", "c|ab"},
    {3, "a|bc", "b", "b|ac"},
    {3, "a|bc", "d", "a|db"},
    {3, "a|", "bc", "a|cb"},
    {3, "a|b", "ba", "a|b"},
    {3, "a|bc", "a", "a|bc"},
    /* Longer ones: pages used twice outlive a scan. */
    {4, "|", "abcdbcae", "ac|eb"},
    {4, "|", "aabbcdefgh", "ba|hg"},
    {5, "|", "abcdefcdef", "fe|dcb"},
};
enum { LETTERS = 10, ORDERS = sizeof orders / sizeof *orders };

static uint32_t page_of(char letter)
{
    return (uint32_t)(tolower((unsigned char)letter) - 'a');
}

static struct world world_of_letters(uint32_t c, const char *list)
{
    uint32_t counts[3], used = 0;
    struct world x = world_make(4, 4, 5, 3, LETTERS, c, &(uint64_t){c});
    REQUIRE(ind_format(GEOMETRY_OF(&x), STATE_OF(&x), counts, 3) == IND_DONE);
    for (; *list != '\0'; list++) {
        uint32_t *entry = x.slice[CACHE] + 3 * used;
        if (*list == '|') {
            x.slice[RECORD][5] = used;
            continue;
        }
        entry[0] = page_of(*list);
        entry[2] = isupper((unsigned char)*list) != 0;
        x.slice[RECORD][4] = ++used;
    }
    REQUIRE(naive_first_broken(&x) == 0);
    return x;
}

static bool is_list(const struct world *x, const char *list)
{
    uint32_t used = x->slice[RECORD][4], rank = 0;
    for (; rank <= used; rank++) {
        const uint32_t *entry = x->slice[CACHE] + 3 * rank;
        if (rank == x->slice[RECORD][5] && *list++ != '|')
            return false;
        if (rank == used || page_of(*list) != entry[0] ||
            (isupper((unsigned char)*list) != 0) != (entry[2] == 1))
            break;
        list++;
    }
    return rank == used && *list == '\0';
}

/* One request, held to the literal steps on the twin too. */
static void serve(struct world *x, struct world *twin, char letter)
{
    uint32_t mine[4] = {1, 2, 3, (uint32_t)letter}, theirs[4], counts[3], reply, expected;
    struct tally n = {0};
    memcpy(theirs, mine, sizeof mine);
    if (isupper((unsigned char)letter)) {
        reply = ind_write(GEOMETRY_OF(x), page_of(letter), STATE_OF(x), mine, 4, counts, 3);
        expected = naive_write(twin, page_of(letter), theirs, &n);
    } else {
        reply = ind_read(GEOMETRY_OF(x), page_of(letter), STATE_OF(x), mine, 4, counts, 3);
        expected = naive_read(twin, page_of(letter), theirs, &n);
    }
    REQUIRE(reply == expected && memcmp(mine, theirs, sizeof mine) == 0);
    REQUIRE(counts[0] == n.reads && counts[1] == n.programs && counts[2] == n.erases);
    REQUIRE(world_equal(x, twin) && naive_first_broken(x) == 0);
}

static void try_orders(void)
{
    for (size_t i = 0; i < ORDERS; i++) {
        struct world x = world_of_letters(orders[i].c, orders[i].before);
        struct world twin = world_copy(&x);
        snprintf(test_context, sizeof test_context, "C=%u: %s, then %s, must be %s", orders[i].c,
                 orders[i].before, orders[i].requests, orders[i].after);
        REQUIRE(is_list(&x, orders[i].before));
        for (const char *r = orders[i].requests; *r != '\0'; r++)
            serve(&x, &twin, *r);
        REQUIRE(is_list(&x, orders[i].after));
        world_free(&x);
        world_free(&twin);
    }
    printf("%u lists made by hand agree\n", (unsigned)ORDERS);
}

/* When each page was used last, 0 if it isn't cached. */
struct times {
    uint64_t now, *of;
    uint32_t cached;
};

/* 01 before P5: "Replacement is least recently used". */
static void use(struct times *t, const struct world *x, uint32_t l)
{
    if (t->of[l] == 0 && t->cached == x->c) {
        uint32_t victim = NONE;
        for (uint32_t i = 0; i < x->l; i++)
            if (t->of[i] > 0 && (victim == NONE || t->of[i] < t->of[victim]))
                victim = i;
        t->of[victim] = 0;
        t->cached--;
    }
    t->cached += t->of[l] == 0;
    t->of[l] = ++t->now;
}

/* "Used entries come first, most recently used foremost". */
static void in_order(const struct times *t, const struct world *x)
{
    REQUIRE(x->slice[RECORD][4] == t->cached);
    uint64_t before = UINT64_MAX;
    for (uint32_t rank = 0; rank < t->cached; rank++) {
        uint64_t time = t->of[x->slice[CACHE][3 * rank]];
        REQUIRE(0 < time && time < before);
        before = time;
    }
}

/* The plain order, whatever border the lent record has, which stays. */
static void plain_session(struct world *x, uint32_t calls, uint64_t *seed)
{
    uint32_t border = x->slice[RECORD][5], buffer[16] = {0}, counts[3];
    struct times t = {0, calloc(x->l, sizeof *t.of), 0};
    REQUIRE(t.of != NULL);
    for (uint32_t rank = x->slice[RECORD][4]; rank-- > 0;)
        use(&t, x, x->slice[CACHE][3 * rank]);
    for (uint32_t i = 0; i < calls; i++) {
        uint32_t l = random_below(seed, x->l);
        if (random_below(seed, 2))
            ind_read(GEOMETRY_OF(x), l, STATE_OF(x), buffer, x->w, counts, 3);
        else
            ind_write(GEOMETRY_OF(x), l, STATE_OF(x), buffer, x->w, counts, 3);
        use(&t, x, l);
        in_order(&t, x);
        REQUIRE(x->slice[RECORD][5] == border);
    }
    free(t.of);
}

static void try_plain(uint64_t seed, uint32_t worlds)
{
    uint32_t bordered = 0, several = 0;
    ind_order = IND_PLAIN;
    for (uint32_t i = 0; i < worlds; i++) {
        struct world x = world_random_small(&seed);
        snprintf(test_context, sizeof test_context, "plain order, world %u", i);
        world_random_sound(&x, &seed);
        bordered += x.slice[RECORD][5] > 0;
        several += x.c > 2 && x.l > x.c;
        plain_session(&x, 60, &seed);
        world_free(&x);
    }
    ind_order = IND_SEGMENTED;
    REQUIRE(bordered > worlds / 8 && several > worlds / 8);
}

/* "C=1 has no protected part and behaves as before." */
static void one_entry_session(uint32_t calls, uint64_t *seed, uint32_t met[2])
{
    struct world by[2], twin[2];
    by[IND_SEGMENTED] = world_make(2, 4, 4, 4, 5, 1, seed);
    world_random_sound(&by[IND_SEGMENTED], seed);
    by[IND_PLAIN] = world_copy(&by[IND_SEGMENTED]);
    for (int order = IND_SEGMENTED; order <= IND_PLAIN; order++)
        twin[order] = world_copy(&by[order]);
    for (uint32_t i = 0; i < calls; i++) {
        char letter = (char)((random_below(seed, 2) ? 'a' : 'A') + (int)random_below(seed, 5));
        met[by[IND_PLAIN].slice[CACHE][0] == page_of(letter)]++;
        for (int order = IND_SEGMENTED; order <= IND_PLAIN; order++) {
            ind_order = (enum ind_order)order;
            serve(&by[order], &twin[order], letter);
        }
        REQUIRE(world_equal(&by[IND_SEGMENTED], &by[IND_PLAIN]));
    }
    for (int order = IND_SEGMENTED; order <= IND_PLAIN; order++) {
        world_free(&by[order]);
        world_free(&twin[order]);
    }
}

void test_replacement(uint64_t seed, uint32_t worlds)
{
    uint32_t met[2] = {0, 0}; /* misses, hits */
    try_orders();
    try_plain(seed, worlds);
    snprintf(test_context, sizeof test_context, "both orders of one entry");
    for (uint32_t i = 0; i < worlds; i++)
        one_entry_session(60, &seed, met);
    ind_order = IND_SEGMENTED;
    REQUIRE(met[false] > worlds && met[true] > worlds);
    printf("the plain order is that of the times of use, and of one entry both are the same\n");
}
