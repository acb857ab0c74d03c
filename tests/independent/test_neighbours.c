/*
 * Drops made by hand, under P2's rule and under the one before it.  No entry is
 * protected where one enters, so the order of the cache makes no difference.
 */
#include "selftest.h"

#include "independent.h"
#include "test_hands.h"

#include <stdio.h>

/* The neighbour's word in page 12 is each rule's own. */
static const struct hand hands[] = {
    {.name = "a changed neighbour, one unchanged, one of another page",
     .n = 1,
     .requests = {{0, 0, IND_UNWRITTEN, 9000}},
     .before = {END},
     .after = {TO_12, WORD(12, 1, 3), WORD(12, 2, 2), ENTRY(0, 0, N, 0), ENTRY(1, 4, 4, 1),
               ENTRY(2, 3, 0, 1), ENTRY(3, 2, 2, 0), END},
     .by = {{{2, 1, 0}, 1, 2, {WORD(12, 3, 0), {CACHE, 8, 0}, END}},
            {{2, 1, 0}, 1, 2, {WORD(12, 3, 7), END}}}},
    {.name = "two changed neighbours",
     .n = 1,
     .requests = {{0, 0, IND_UNWRITTEN, 9000}},
     .before = {WORD(10, 2, 8), ENTRY(2, 2, 2, 1), END},
     .after = {TO_12, WORD(12, 1, 3), ENTRY(0, 0, N, 0), ENTRY(1, 4, 4, 1), ENTRY(2, 3, 0, 1),
               ENTRY(3, 2, 2, 1), END},
     .by = {{{2, 1, 0}, 1, 2,
             {WORD(12, 2, 2), WORD(12, 3, 0), {CACHE, 8, 0}, {CACHE, 11, 0}, END}},
            {{2, 1, 0}, 1, 2, {WORD(12, 2, 8), WORD(12, 3, 7), END}}}},
    {.name = "a changed neighbour at none, its word an old place",
     .n = 1,
     .requests = {{0, 0, IND_UNWRITTEN, 9000}},
     .before = {STATE(0, 0), ENTRY(1, 3, N, 1), END},
     .after = {TO_12, WORD(12, 1, 3), WORD(12, 2, 2), ENTRY(0, 0, N, 0), ENTRY(1, 4, 4, 1),
               ENTRY(2, 3, N, 1), ENTRY(3, 2, 2, 0), END},
     .by = {{{2, 1, 0}, 1, 2, {WORD(12, 3, N), {CACHE, 8, 0}, END}},
            {{2, 1, 0}, 1, 2, {WORD(12, 3, 7), END}}}},
    {.name = "a changed neighbour at none, its word none",
     .n = 1,
     .requests = {{0, 0, IND_UNWRITTEN, 9000}},
     .before = {STATE(0, 0), WORD(10, 3, N), ENTRY(1, 3, N, 1), END},
     .after = {TO_12, WORD(12, 1, 3), WORD(12, 2, 2), WORD(12, 3, N), ENTRY(0, 0, N, 0),
               ENTRY(1, 4, 4, 1), ENTRY(2, 3, N, 1), ENTRY(3, 2, 2, 0), END},
     .by = {{{2, 1, 0}, 1, 2, {{CACHE, 8, 0}, END}}, {{2, 1, 0}, 1, 2, {END}}}},
    {.name = "the dropped one at none",
     .n = 1,
     .requests = {{0, 0, IND_UNWRITTEN, 9000}},
     .before = {STATE(3, 0), ENTRY(3, 1, N, 1), END},
     .after = {TO_12, WORD(12, 1, N), WORD(12, 2, 2), ENTRY(0, 0, N, 0), ENTRY(1, 4, 4, 1),
               ENTRY(2, 3, 0, 1), ENTRY(3, 2, 2, 0), END},
     .by = {{{2, 1, 0}, 1, 2, {WORD(12, 3, 0), {CACHE, 8, 0}, END}},
            {{2, 1, 0}, 1, 2, {WORD(12, 3, 7), END}}}},
    {.name = "no translation page 0 before",
     .n = 1,
     .requests = {{0, 0, IND_UNWRITTEN, 9000}},
     .before = {STATE(10, 0), {DIRECTORY, 0, N}, STATE(2, 0), ENTRY(2, 2, N, 0), END},
     .after = {TO_12, WORD(12, 1, 3), ENTRY(0, 0, N, 0), ENTRY(1, 4, 4, 1), ENTRY(2, 3, 0, 1),
               ENTRY(3, 2, N, 0), END},
     .by = {{{1, 1, 0}, 1, 1, {WORD(12, 3, 0), {CACHE, 8, 0}, END}},
            {{1, 1, 0}, 1, 1, {WORD(12, 3, N), END}}}},
    {.name = "the dropped one unchanged: nothing is written back",
     .n = 1,
     .requests = {{0, 0, IND_UNWRITTEN, 9000}},
     .before = {WORD(10, 1, 3), ENTRY(3, 1, 3, 0), END},
     .after = {ENTRY(0, 0, N, 0), ENTRY(1, 4, 4, 1), ENTRY(2, 3, 0, 1), ENTRY(3, 2, 2, 0), END},
     .by = {{{1, 0, 0}, 0, 1, {END}}, {{1, 0, 0}, 0, 1, {END}}}},
    {.name = "three drops: the neighbour is dropped without a further update",
     .n = 3,
     .requests = {{0, 0, IND_UNWRITTEN, 9000}, {0, 5, IND_DONE, 1050}, {0, 6, IND_DONE, 1060}},
     .before = {END},
     .after = {TO_12, WORD(12, 1, 3), WORD(12, 2, 2), ENTRY(0, 6, 6, 0), ENTRY(1, 5, 5, 0),
               ENTRY(2, 0, N, 0), ENTRY(3, 4, 4, 1), END},
     .by = {{{6, 1, 0}, 1, 4, {WORD(12, 3, 0), END}},
            {{7, 2, 0}, 2, 5, {WORD(12, 3, 7), STATE(12, 0), PAGE(13, N, 3, 2, 0),
                            SPARE_OF(13, V, 0), {DIRECTORY, 0, 13}, {RECORD, 3, 2}, END}}}},
    {.name = "room is made by collecting the page to be updated: a read's full bound",
     .n = 1,
     .requests = {{0, 6, IND_DONE, 1060}},
     .before = {FULL_TRANSLATION, END},
     .after = {ERASED(10), ERASED(11), PAGE(14, N, 1, 2, 7), SPARE_OF(14, 0, 0), WORD(15, 1, 3),
               WORD(15, 2, 2), SPARE_OF(15, V, 0), {DIRECTORY, 0, 15}, ENTRY(0, 6, 6, 0),
               ENTRY(1, 4, 4, 1), ENTRY(2, 3, 0, 1), ENTRY(3, 2, 2, 0), {RECORD, 2, 7},
               {RECORD, 3, 2}, END},
     .by = {{{4, 2, 1}, 2, 3, {WORD(15, 3, 0), {CACHE, 8, 0}, END}},
            {{4, 2, 1}, 2, 3, {WORD(15, 3, 7), END}}}},
    {.name = "the neighbour is moved after that: changed again",
     .n = 1,
     .requests = {{1, 0, IND_DONE, 9000}},
     .before = {FULL_DATA, END},
     .after = {TO_12, WORD(12, 1, 3), WORD(12, 2, 2), PAGE(8, 1000, 1001, 1002, 1003),
               SPARE_OF(8, V, 3), ERASED(0), ERASED(1), PAGE(9, 9000, 9001, 9002, 9003),
               SPARE_OF(9, V, 0), ENTRY(0, 0, 9, 1), ENTRY(1, 4, 4, 1), ENTRY(2, 3, 8, 1),
               ENTRY(3, 2, 2, 0), {RECORD, 0, 4}, {RECORD, 1, 2}, END},
     .by = {{{3, 3, 1}, 1, 2, {WORD(12, 3, 0), END}}, {{3, 3, 1}, 1, 2, {WORD(12, 3, 7), END}}}},
    {.name = "a collection's own update leaves the changed neighbour",
     .n = 1,
     .requests = {{1, 4, IND_DONE, 9000}},
     .before = {FULL_DATA, WRITTEN_0, {RECORD, 5, 1}, END},
     .after = {PAGE(8, 1060, 1061, 1062, 1063), SPARE_OF(8, V, 6), STATE(11, 0),
               PAGE(12, N, 5, 8, N), SPARE_OF(12, V, 1), {DIRECTORY, 1, 12}, ERASED(6), ERASED(7),
               PAGE(9, 9000, 9001, 9002, 9003), SPARE_OF(9, V, 4), STATE(4, 0),
               ENTRY(0, 4, 9, 1), {RECORD, 0, 4}, {RECORD, 1, 2}, {RECORD, 3, 1}, END},
     .by = {{{2, 3, 1}, 1, 1, {END}}, {{2, 3, 1}, 1, 1, {END}}}},
    {.name = "collections before and after: a write's full bound",
     .n = 1,
     .requests = {{1, 0, IND_DONE, 9000}},
     .before = {FULL_TRANSLATION, FULL_DATA, WRITTEN_0, END},
     .after = {PAGE(14, 1, 1, 2, 7), SPARE_OF(14, 0, 0), WORD(15, 0, 1), WORD(15, 1, 3),
               WORD(15, 2, 2), SPARE_OF(15, V, 0), {DIRECTORY, 0, 15},
               PAGE(8, 1060, 1061, 1062, 1063), SPARE_OF(8, V, 6), PAGE(10, N, 5, 6, N),
               SPARE_OF(10, 0, 1), ERASED(12), ERASED(13), PAGE(11, N, 5, 8, N),
               SPARE_OF(11, V, 1), {DIRECTORY, 1, 11}, ERASED(6), ERASED(7),
               PAGE(9, 9000, 9001, 9002, 9003), SPARE_OF(9, V, 0), STATE(1, 0),
               ENTRY(0, 0, 9, 1), ENTRY(1, 4, 4, 1), ENTRY(2, 3, 0, 1), ENTRY(3, 2, 2, 0),
               {RECORD, 0, 4}, {RECORD, 1, 2}, {RECORD, 2, 5}, {RECORD, 3, 2}, END},
     .by = {{{6, 6, 3}, 4, 5, {WORD(15, 3, 0), {CACHE, 8, 0}, END}},
            {{6, 6, 3}, 4, 5, {WORD(15, 3, 7), END}}}},
};

void test_neighbours(void)
{
    const size_t n = sizeof hands / sizeof *hands;
    for (size_t i = 0; i < 4 * n; i++) {
        const struct hand *h = &hands[i / 4];
        ind_rule = i % 2 == 0 ? IND_NEIGHBOURS : IND_ONE_ENTRY;
        ind_order = i / 2 % 2 == 0 ? IND_SEGMENTED : IND_PLAIN;
        snprintf(test_context, sizeof test_context, "by hand, rule %d, order %d: %s", ind_rule,
                 ind_order, h->name);
        try_hand(h, &h->by[ind_rule]);
    }
    ind_rule = IND_NEIGHBOURS;
    ind_order = IND_SEGMENTED;
    printf("%u drops made by hand agree under both rules\n", (unsigned)n);
}
