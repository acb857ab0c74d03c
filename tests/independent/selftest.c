/*
 * The self-test: the session in full with the state it leaves, the six marked
 * cases, states made by hand, the random parts, then the settings record.  Usage:
 * selftest [seed [effort]]; the seed is 1 and the effort 1 by default, so that a
 * plain run is always the same.
 */
#include "selftest.h"

#include "independent.h"

#include <stdio.h>
#include <stdlib.h>
#include <string.h>

static bool same(const uint32_t *a, const uint32_t *b, size_t n)
{
    return memcmp(a, b, n * sizeof *a) == 0;
}

/* The session's eight lines: write or read, page, value; then answer and word. */
static void session_lines(struct world *x)
{
    static const struct {
        char kind;
        uint32_t page, value, reply, counts[3], word;
    } lines[] = {
        {'W', 0, 10, 0, {0, 1, 0}, 0},  {'W', 1, 11, 0, {1, 2, 0}, 0},
        {'W', 0, 12, 0, {2, 2, 0}, 0},  {'W', 2, 13, 0, {1, 2, 0}, 0},
        {'W', 1, 14, 0, {2, 3, 1}, 0},  {'R', 0, 0, 0, {3, 1, 1}, 12},
        {'R', 0, 0, 0, {1, 0, 0}, 12},  {'W', 0, 15, 0, {2, 3, 1}, 0},
    };
    uint32_t counts[3], buffer[2];
    REQUIRE(ind_format(GEOMETRY_OF(x), STATE_OF(x), counts, 3) == IND_DONE);
    REQUIRE(counts[0] == 0 && counts[1] == 0 && counts[2] == 6);
    for (size_t i = 0; i < sizeof lines / sizeof *lines; i++) {
        uint32_t reply;
        buffer[0] = buffer[1] = lines[i].value;
        if (lines[i].kind == 'W')
            reply = ind_write(GEOMETRY_OF(x), lines[i].page, STATE_OF(x), buffer, 2, counts, 3);
        else
            reply = ind_read(GEOMETRY_OF(x), lines[i].page, STATE_OF(x), buffer, 2, counts, 3);
        REQUIRE(reply == lines[i].reply && same(counts, lines[i].counts, 3));
        if (lines[i].kind == 'R')
            REQUIRE(buffer[0] == lines[i].word && buffer[1] == lines[i].word);
    }
}

/*
 * The whole state afterwards.  The text gives the words of pages 9 and 11; the
 * others follow from the steps: each data page holds its value, pages 8 and 10
 * are translation page 0 as it was after the fourth line and after the sixth.
 */
static void session_state(const struct world *x)
{
    static const uint32_t v = 65535, n = NONE;
    const uint32_t spare[] = {v, 1, v, 0, 0, 0, v, 2, n, n, n, n,
                              n, n, n, n, 0, 0, v, 1, 0, 0, v, 0};
    const uint32_t chip[] = {14, 14, 15, 15, 12, 12, 13, 13, n, n, n, n,
                             n,  n,  n,  n,  2,  1,  3,  n,  2, 5, 2, 0};
    const uint32_t directory[] = {11, 9}, cache[] = {0, 1, 1}, record[] = {0, 2, 5, 2, 1, 0};
    REQUIRE(same(x->slice[CHIP], chip, 24));
    REQUIRE(same(x->slice[SPARE], spare, 24));
    REQUIRE(same(x->slice[DIRECTORY], directory, 2));
    REQUIRE(same(x->slice[CACHE], cache, 3));
    REQUIRE(same(x->slice[RECORD], record, 6));
}

/* Single words changed in that state: the first rule broken, and where. */
static void broken_rules(struct world *x)
{
    static const struct {
        int slice;
        uint32_t index, value;
        int rule;
        uint32_t where;
    } cases[] = {
        {SPARE, 0, 1, 1, 0},           {SPARE, 9, 0, 1, 4},    {CHIP, 8, 0, 1, 4},
        {SPARE, 17, 2, 1, 8},          {SPARE, 1, 0, 2, 1},    {RECORD, 0, 3, 3, 3},
        {RECORD, 1, 1, 3, 0},          {RECORD, 2, 2, 3, 2},   {RECORD, 3, 3, 3, 5},
        {DIRECTORY, 1, NONE, 4, 1},    {RECORD, 4, 2, 5, 1},   {CACHE, 2, 2, 5, 0},
        {CACHE, 1, NONE, 6, 0},        {CHIP, 19, 0, 6, 3},    {CACHE, 2, 0, 7, 0},
        {CHIP, 22, 77, 0, 0},          {CHIP, 16, 77, 0, 0},   {RECORD, 0, 1, 0, 0},
        {RECORD, 5, 1, 5, 1},          {RECORD, 5, NONE, 5, 1}, {RECORD, 4, 0, 5, 0},
    };
    for (size_t i = 0; i < sizeof cases / sizeof *cases; i++) {
        uint32_t *word = &x->slice[cases[i].slice][cases[i].index];
        uint32_t old = *word, where = 0, counts[3];
        *word = cases[i].value;
        snprintf(test_context, sizeof test_context, "broken rule, case %u", (unsigned)i);
        REQUIRE(ind_first_broken_rule(GEOMETRY_OF(x), STATE_OF(x), &where) == cases[i].rule);
        REQUIRE(where == cases[i].where);
        REQUIRE(ind_check(GEOMETRY_OF(x), STATE_OF(x), counts, 3) ==
                (cases[i].rule == 0 ? IND_DONE : IND_DAMAGED));
        *word = old;
    }
}

/* "More marked cases", for which G is P=2, W=2, D=3, T=3, L=3, C=1. */
static void marked_cases(struct world *x)
{
    uint32_t counts[3] = {7, 7, 7}, buffer[2] = {5, 6};
    const uint32_t cache[] = {2, NONE, 0};
    uint32_t chip[12], spare[12], directory[1], own_cache[3], record[6];
    REQUIRE(ind_format(2, 2, 3, 3, 4, 1, STATE_OF(x), counts, 3) == IND_GEOMETRY);
    REQUIRE(ind_format(2, 2, 3, 3, 0, 1, STATE_OF(x), counts, 3) == IND_GEOMETRY);
    REQUIRE(ind_format(2, 2, 3, 2, 3, 1, STATE_OF(x), counts, 3) == IND_GEOMETRY);
    REQUIRE(counts[0] == 0 && counts[1] == 0 && counts[2] == 0);
    REQUIRE(ind_format(1, 2, 3, 3, 1, 1, chip, 12, spare, 12, directory, 1, own_cache, 3, record, 6,
                       counts, 3) == IND_DONE);
    REQUIRE(ind_format(GEOMETRY_OF(x), STATE_OF(x), counts, 3) == IND_DONE);
    REQUIRE(ind_read(GEOMETRY_OF(x), 3, STATE_OF(x), buffer, 2, counts, 3) == IND_PAGE);
    REQUIRE(ind_read(GEOMETRY_OF(x), 2, STATE_OF(x), buffer, 2, counts, 3) == IND_UNWRITTEN);
    REQUIRE(counts[0] == 0 && counts[1] == 0 && counts[2] == 0);
    REQUIRE(same(x->slice[CACHE], cache, 3));
    REQUIRE(x->slice[RECORD][4] == 1 && x->slice[RECORD][5] == 0);
    REQUIRE(buffer[0] == 5 && buffer[1] == 6);
}

/* With a cache of one entry the rules are one, and so are the orders. */
static void session_by_all(struct world *x)
{
    for (int i = 3; i >= 0; i--) {
        ind_rule = i % 2 == 0 ? IND_NEIGHBOURS : IND_ONE_ENTRY;
        ind_order = i / 2 == 0 ? IND_SEGMENTED : IND_PLAIN;
        session_lines(x);
        session_state(x);
    }
}

/* Fewer sessions by the rules and orders of before, the last ones by those of now. */
static void sessions_by_all(uint64_t base, uint32_t effort, struct coverage *seen)
{
    for (uint32_t i = 0; i < 4; i++) {
        uint32_t share = i == 3 ? 8 : 2;
        ind_rule = i % 2 == 1 ? IND_NEIGHBOURS : IND_ONE_ENTRY;
        ind_order = i / 2 == 1 ? IND_SEGMENTED : IND_PLAIN;
        uint64_t own = base + ((i + UINT64_C(1)) << 24);
        test_sessions(own, 150 * share * effort, 120, seen);
        test_medium(own - 8, 30 * share * effort, seen);
    }
}

int main(int argc, char **argv)
{
    uint64_t seed = argc > 1 ? strtoull(argv[1], NULL, 10) : 1;
    uint32_t effort = argc > 2 ? (uint32_t)strtoul(argv[2], NULL, 10) : 1;
    struct coverage seen = {0};
    struct world g = world_make(2, 2, 3, 3, 3, 1, &(uint64_t){seed});
    printf("seed %llu, effort %u\n", (unsigned long long)seed, effort);
    session_by_all(&g);
    broken_rules(&g);
    marked_cases(&g);
    world_free(&g);
    printf("the session and the six marked cases agree\n");
    uint64_t base = seed << 32;
    test_neighbours();
    test_replacement(base + 11, 400 * effort);
    test_protected();
    test_geometry_edges(base + 1, 200000 * effort);
    test_lengths(base + 2, 300 * effort);
    test_arbitrary_input(base + 3, 20000 * effort);
    sessions_by_all(base, effort, &seen);
    test_many_pages(base + 6, 6 * effort, &seen);
    test_damage(base + 7, 1200 * effort, &seen);
    test_settings(base + 8, 16 * effort, &seen);
    print_coverage(&seen);
    require_coverage(&seen);
    printf("all passed\n");
    return 0;
}
