/*
 * P5's protected entries in whole states made by hand, and their number in the
 * small record: what is sound, its length, and format.
 */
#include "selftest.h"

#include "independent.h"
#include "test_hands.h"

#include <stdio.h>
#include <string.h>

/* By order.  All begin with 4 and 3 protected, but for one. */
static const struct hand hands[] = {
    {.name = "a miss behind protected entries; neighbours in both parts",
     .n = 1,
     .requests = {{0, 0, IND_UNWRITTEN, 9000}},
     .before = {WORD(10, 2, 8), ENTRY(2, 2, 2, 1), {RECORD, 5, 2}, END},
     .after = {TO_12, WORD(12, 1, 3), WORD(12, 2, 2), WORD(12, 3, 0), END},
     .by = {{{2, 1, 0}, 1, 2,
             {ENTRY(0, 4, 4, 1), ENTRY(1, 3, 0, 0), ENTRY(2, 0, N, 0), ENTRY(3, 2, 2, 0), END}},
            {{2, 1, 0}, 1, 2,
             {ENTRY(0, 0, N, 0), ENTRY(1, 4, 4, 1), ENTRY(2, 3, 0, 0), ENTRY(3, 2, 2, 0), END}}}},
    {.name = "a written miss whose page the collection moves",
     .n = 1,
     .requests = {{1, 6, IND_DONE, 9000}},
     .before = {FULL_DATA, WRITTEN_0, {RECORD, 5, 2}, END},
     .after = {TO_12, PAGE(12, 1, 3, 2, 0), PAGE(8, 1060, 1061, 1062, 1063), SPARE_OF(8, 0, 6),
               ERASED(6), ERASED(7), PAGE(9, 9000, 9001, 9002, 9003), SPARE_OF(9, V, 6),
               {RECORD, 0, 4}, {RECORD, 1, 2}, END},
     .by = {{{3, 3, 1}, 1, 2,
             {ENTRY(0, 4, 4, 1), ENTRY(1, 3, 0, 0), ENTRY(2, 6, 9, 1), ENTRY(3, 2, 2, 0), END}},
            {{3, 3, 1}, 1, 2,
             {ENTRY(0, 6, 9, 1), ENTRY(1, 4, 4, 1), ENTRY(2, 3, 0, 0), ENTRY(3, 2, 2, 0), END}}}},
    {.name = "a written miss; the collection moves a protected entry's page",
     .n = 1,
     .requests = {{1, 0, IND_DONE, 9000}},
     .before = {FULL_DATA, {RECORD, 5, 2}, END},
     .after = {TO_12, PAGE(12, N, 3, 2, 0), PAGE(8, 1000, 1001, 1002, 1003), SPARE_OF(8, V, 3),
               ERASED(0), ERASED(1), PAGE(9, 9000, 9001, 9002, 9003), SPARE_OF(9, V, 0),
               {RECORD, 0, 4}, {RECORD, 1, 2}, END},
     .by = {{{3, 3, 1}, 1, 2,
             {ENTRY(0, 4, 4, 1), ENTRY(1, 3, 8, 1), ENTRY(2, 0, 9, 1), ENTRY(3, 2, 2, 0), END}},
            {{3, 3, 1}, 1, 2,
             {ENTRY(0, 0, 9, 1), ENTRY(1, 4, 4, 1), ENTRY(2, 3, 8, 1), ENTRY(3, 2, 2, 0), END}}}},
    {.name = "a written hit in trial below the limit",
     .n = 1,
     .requests = {{1, 2, IND_DONE, 9000}},
     .before = {{RECORD, 5, 1}, END},
     .after = {PAGE(7, 9000, 9001, 9002, 9003), SPARE_OF(7, V, 2), STATE(2, 0), {RECORD, 1, 2},
               ENTRY(0, 2, 7, 1), ENTRY(1, 4, 4, 1), ENTRY(2, 3, 0, 1), ENTRY(3, 1, 3, 1), END},
     .by = {{{0, 1, 0}, 0, 0, {{RECORD, 5, 2}, END}}, {{0, 1, 0}, 0, 0, {END}}}},
    {.name = "a written hit in trial at the limit",
     .n = 1,
     .requests = {{1, 1, IND_DONE, 9000}},
     .before = {{RECORD, 5, 2}, END},
     .after = {PAGE(7, 9000, 9001, 9002, 9003), SPARE_OF(7, V, 1), STATE(3, 0), {RECORD, 1, 2},
               ENTRY(0, 1, 7, 1), ENTRY(1, 4, 4, 1), ENTRY(2, 3, 0, 1), ENTRY(3, 2, 2, 0), END},
     .by = {{{0, 1, 0}, 0, 0, {END}}, {{0, 1, 0}, 0, 0, {END}}}},
    {.name = "a written hit in protected",
     .n = 1,
     .requests = {{1, 3, IND_DONE, 9000}},
     .before = {{RECORD, 5, 2}, END},
     .after = {PAGE(7, 9000, 9001, 9002, 9003), SPARE_OF(7, V, 3), STATE(0, 0), {RECORD, 1, 2},
               ENTRY(0, 3, 7, 1), ENTRY(1, 4, 4, 1), ENTRY(2, 2, 2, 0), ENTRY(3, 1, 3, 1), END},
     .by = {{{0, 1, 0}, 0, 0, {END}}, {{0, 1, 0}, 0, 0, {END}}}},
    {.name = "a hit at the limit; the demoted entry is dropped two misses later",
     .n = 3,
     .requests = {{0, 1, IND_DONE, 1030}, {0, 0, IND_UNWRITTEN, 9000}, {0, 5, IND_DONE, 1050}},
     .before = {{RECORD, 5, 2}, END},
     .after = {TO_12, PAGE(12, N, 3, 2, 0), END},
     .by = {{{5, 1, 0}, 1, 3,
             {ENTRY(0, 1, 3, 0), ENTRY(1, 4, 4, 1), ENTRY(2, 5, 5, 0), ENTRY(3, 0, N, 0), END}},
            {{5, 1, 0}, 1, 3,
             {ENTRY(0, 5, 5, 0), ENTRY(1, 0, N, 0), ENTRY(2, 1, 3, 0), ENTRY(3, 4, 4, 1), END}}}},
};

static void try_hands(void)
{
    const size_t n = sizeof hands / sizeof *hands;
    for (size_t i = 0; i < 2 * n; i++) {
        const struct hand *h = &hands[i / 2];
        ind_order = i % 2 == 0 ? IND_SEGMENTED : IND_PLAIN;
        snprintf(test_context, sizeof test_context, "by hand, order %d: %s", ind_order, h->name);
        try_hand(h, &h->by[ind_order]);
    }
    ind_order = IND_SEGMENTED;
    printf("%u states made by hand agree under both orders\n", (unsigned)n);
}

/* A chip of twelve logical pages, none written, with the first `used` of them cached. */
static struct world world_with(uint32_t c, uint32_t used, uint32_t protected)
{
    uint32_t counts[3];
    struct world x = world_make(4, 4, 5, 3, 12, c, &(uint64_t){c});
    REQUIRE(ind_format(GEOMETRY_OF(&x), STATE_OF(&x), counts, 3) == IND_DONE);
    for (uint32_t rank = 0; rank < used; rank++) {
        x.slice[CACHE][3 * rank] = rank;
        x.slice[CACHE][3 * rank + 2] = 0;
    }
    x.slice[RECORD][4] = used;
    x.slice[RECORD][5] = protected;
    return x;
}

/* "at most C/2 and at most the used ones in a sound state" */
static const struct number {
    uint32_t c, used, protected;
    bool sound;
} numbers[] = {
    {4, 4, 0, true},      {4, 4, 1, true},       {4, 4, 2, true},         {4, 4, 3, false},
    {4, 4, 4, false},     {4, 4, 5, false},      {4, 4, N, false},        {4, 4, 1u << 31, false},
    {4, 2, 2, true},      {4, 1, 1, true},       {4, 1, 2, false},        {4, 0, 0, true},
    {4, 0, 1, false},     {4, 0, 2, false},      {4, 0, N, false},        {1, 1, 0, true},
    {1, 1, 1, false},     {1, 0, 0, true},       {1, 0, 1, false},        {2, 2, 1, true},
    {2, 2, 2, false},     {2, 1, 1, true},       {2, 0, 1, false},        {3, 3, 1, true},
    {3, 3, 2, false},     {3, 2, 2, false},      {5, 5, 2, true},         {5, 5, 3, false},
    {24, 12, 12, true},   {23, 12, 12, false},   {4096, 12, 12, true},    {4096, 12, 13, false},
    {4096, 11, 12, false}, {4096, 12, 2048, false}, {4096, 12, 2049, false}, {4096, 0, 0, true},
};

static void try_number(const struct number *n)
{
    struct world x = world_with(n->c, n->used, n->protected);
    uint32_t counts[3], where = 77;
    snprintf(test_context, sizeof test_context, "order %d, C=%u, used %u, protected %u", ind_order,
             n->c, n->used, n->protected);
    REQUIRE(ind_check(GEOMETRY_OF(&x), STATE_OF(&x), counts, 3) ==
            (n->sound ? IND_DONE : IND_DAMAGED));
    REQUIRE(ind_first_broken_rule(GEOMETRY_OF(&x), STATE_OF(&x), &where) == (n->sound ? 0 : 5));
    REQUIRE(where == (n->sound ? 77 : n->c));
    REQUIRE(naive_first_broken(&x) == (n->sound ? 0 : 5));
    if (!n->sound)
        refused_everywhere(&x);
    world_free(&x);
}

static void try_numbers(void)
{
    for (size_t i = 0; i < 2 * (sizeof numbers / sizeof *numbers); i++) {
        ind_order = i % 2 == 0 ? IND_SEGMENTED : IND_PLAIN;
        try_number(&numbers[i / 2]);
    }
    ind_order = IND_SEGMENTED;
}

/* Six words, not the five before P5 nor seven; nothing is changed. */
static void try_lengths(void)
{
    static const size_t wrong[] = {5, 7, 0};
    struct world x = world_with(4, 3, 1), before = world_copy(&x);
    uint32_t buffer[4] = {0}, requests[2] = {0, 0}, answers[1] = {77}, counts[3];
    snprintf(test_context, sizeof test_context, "the record's length");
    for (size_t i = 0; i < sizeof wrong / sizeof *wrong; i++) {
        x.n[RECORD] = wrong[i];
        REQUIRE(ind_format(GEOMETRY_OF(&x), STATE_OF(&x), counts, 3) == IND_LENGTH);
        REQUIRE(ind_check(GEOMETRY_OF(&x), STATE_OF(&x), counts, 3) == IND_LENGTH);
        REQUIRE(ind_read(GEOMETRY_OF(&x), 0, STATE_OF(&x), buffer, 4, counts, 3) == IND_LENGTH);
        REQUIRE(ind_write(GEOMETRY_OF(&x), 0, STATE_OF(&x), buffer, 4, counts, 3) == IND_LENGTH);
        REQUIRE(ind_run(GEOMETRY_OF(&x), STATE_OF(&x), requests, 2, buffer, 4, answers, 1, counts,
                        3) == IND_LENGTH);
        REQUIRE(ind_first_broken_rule(GEOMETRY_OF(&x), STATE_OF(&x), NULL) == -1);
        x.n[RECORD] = 6;
        REQUIRE(world_equal(&x, &before) && answers[0] == 77);
    }
    REQUIRE(ind_check(GEOMETRY_OF(&x), STATE_OF(&x), counts, 3) == IND_DONE);
    world_free(&x);
    world_free(&before);
}

/* "0 at format", whatever stood there. */
static void try_format(void)
{
    static const uint32_t stood[] = {0, 1, 2, 3, 65535, N - 1, N};
    const uint32_t record[6] = {0, 0, 5, 0, 0, 0};
    for (size_t i = 0; i < sizeof stood / sizeof *stood; i++) {
        struct world x = world_with(4, 3, stood[i]);
        uint32_t counts[3];
        snprintf(test_context, sizeof test_context, "format where %u stood", stood[i]);
        REQUIRE(ind_format(GEOMETRY_OF(&x), STATE_OF(&x), counts, 3) == IND_DONE);
        REQUIRE(memcmp(x.slice[RECORD], record, sizeof record) == 0);
        REQUIRE(naive_first_broken(&x) == 0);
        world_free(&x);
    }
}

void test_protected(void)
{
    try_hands();
    try_numbers();
    try_lengths();
    try_format();
}
