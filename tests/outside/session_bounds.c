/*
 * Sessions whose requests are all good, for soak and bounds: see session.h.
 *
 * The most that 01 lets a request cost is reached where both regions are as full
 * as they may be: L = (D-1)P-1 and M = (T-1)P-1 pages written, so W is 1.  Then
 * each region keeps one invalid page, every victim has P-1 valid ones, and with
 * C = 1 a write before leaves a changed entry to write back.
 *
 *   write back     collect 2(P-1)+1, update 2                                2P+1
 *   look up        read the translation page                                 1
 *   room for data  collect 2(P-1)+1, and P-1 updates of 2P+1 each, as each
 *                  moved page has its own translation page                   (P-1)(2P+1) + 2P-1
 *   write          program                                                   1
 *
 * These are (2P+1)(P+1); a read is the first two and one read more, 2P+3.
 *
 * A neighbour written back costs nothing more, and the same is reached with one:
 * W = C = 2, M = 3P-1 as before, and of the data region two pages are invalid,
 * mostly in two blocks.  First the even pages are written and then the odd, and
 * later even ones again, so that a block seldom has two of one translation page.
 * No request there finds its page cached, so that no entry is protected.  With one
 * more write of page 1 that page's is, and the same is reached.
 */
#include "session.h"

#include <stdlib.h>

static struct session of_good_requests(const uint32_t g[6], uint64_t seed, size_t steps)
{
    struct session s = {.start = FORMATTED, .seed = seed};
    for (int i = 0; i < 6; i++)
        s.g[i] = g[i];
    s.step = malloc(steps * sizeof *s.step);
    REQUIRE(s.step != NULL);
    return s;
}

struct session session_bounds(uint32_t p, uint64_t seed)
{
    enum { AFTERWARDS = 120 };
    const uint32_t l = 3 * p - 1, g[6] = {p, 1, 4, 4, l, 1};
    struct session s = of_good_requests(g, seed, l + AFTERWARDS);
    for (uint32_t i = 0; i < l + AFTERWARDS; i++) {
        bool first = i < l;
        int kind = first || random_below(&seed, 2) ? WRITE : READ;
        uint32_t page = first ? i : random_below(&seed, l);
        session_add(&s, kind, page, &seed);
    }
    return s;
}

enum { ROUNDS = 60 };

/* Every page written, with room for the rounds and a request before them. */
static struct session of_two_words(uint32_t p, uint64_t *seed)
{
    const uint32_t m = 3 * p - 1, l = 2 * m, g[6] = {p, 2, 7, 4, l, 2};
    struct session s = of_good_requests(g, *seed, l + 1 + ROUNDS * 3);
    for (uint32_t i = 0; i < l; i++)
        session_add(&s, WRITE, i % m * 2 + i / m, seed);
    return s;
}

/* Rounds of writes of pages 0 and 1, and a request of another even page. */
static void add_rounds(struct session *s, uint32_t first, uint64_t *seed)
{
    for (uint32_t i = 0; i < ROUNDS; i++) {
        session_add(s, WRITE, first, seed);
        session_add(s, WRITE, 1 - first, seed);
        session_add(s, random_below(seed, 2) ? WRITE : READ,
                    2 + 2 * random_below(seed, s->g[4] / 2 - 1), seed);
    }
}

/* The third request of each round drops the entry of page 0, with page 1 for a neighbour. */
struct session session_bounds_together(uint32_t p, uint64_t seed)
{
    struct session s = of_two_words(p, &seed);
    add_rounds(&s, 0, &seed);
    return s;
}

/* The same, but page 1 is hit at the start of each round and so is protected. */
struct session session_bounds_protected(uint32_t p, uint64_t seed)
{
    struct session s = of_two_words(p, &seed);
    session_add(&s, WRITE, 1, &seed);
    add_rounds(&s, 1, &seed);
    return s;
}

/*
 * A cache of six, three of them protected, and three words a page: entries follow
 * moved pages with their rank kept, and those of both parts are written back
 * together.  Last, every page is read.
 */
struct session session_soak(uint64_t seed, size_t calls)
{
    static const uint32_t g[6] = {4, 3, 9, 4, 31, 6};
    struct session s = of_good_requests(g, seed, calls);
    s.placing = BEGINNING;
    while (s.steps < calls) {
        uint32_t any = random_below(&seed, 100);
        bool last = calls - s.steps <= g[4];
        int kind = any < 55 ? WRITE : any < 90 ? READ : any < 95 ? RUN : CHECK;
        uint32_t at = kind == RUN ? random_below(&seed, 8) : random_below(&seed, g[4]);
        if (last)
            kind = READ, at = (uint32_t)(calls - s.steps) - 1;
        session_add(&s, kind, at, &seed);
    }
    return s;
}
