/* States and requests made by hand: see test_hands.h. */
#include "test_hands.h"

#include "test_naive.h"

#include <string.h>

/*
 * The last entry, 1, is changed, and so is its neighbour 3.  Between them, by
 * rank and by word, stands the unchanged 2; the changed 4 is of the other page.
 * None is protected.
 */
static const uint32_t base_chip[] = {
    1000, 1001, 1002, 1003, 1010, 1011, 1012, 1013, 1020, 1021, 1022, 1023, 1030, 1031, 1032, 1033,
    1040, 1041, 1042, 1043, 1050, 1051, 1052, 1053, 1060, 1061, 1062, 1063, N,    N,    N,    N,
    N,    N,    N,    N,    N,    N,    N,    N,    N,    1,    2,    7,    N,    5,    6,    N,
    N,    N,    N,    N,    N,    N,    N,    N,    N,    N,    N,    N,    N,    N,    N,    N,
};
static const uint32_t base_spare[] = {
    V, 3, 0, 1, V, 2, V, 1, V, 4, V, 5, V, 6, N, N,
    N, N, N, N, V, 0, V, 1, N, N, N, N, N, N, N, N,
};
static const uint32_t base_directory[] = {10, 11};
static const uint32_t base_cache[] = {4, 4, 1, 3, 0, 1, 2, 2, 0, 1, 3, 1};
static const uint32_t base_record[] = {3, 1, 6, 0, 4, 0};

static void apply(struct world *x, const struct word *words)
{
    for (; words->slice != SLICES; words++) {
        REQUIRE(words->index < x->n[words->slice]);
        x->slice[words->slice][words->index] = words->value;
    }
}

static struct world hand_world(const struct hand *h)
{
    static const uint32_t *const base[SLICES] = {base_chip, base_spare, base_directory, base_cache,
                                                 base_record};
    struct world x = world_make(HAND_P, HAND_W, HAND_D, HAND_T, HAND_L, HAND_C, &(uint64_t){0});
    for (int i = 0; i < SLICES; i++)
        memcpy(x.slice[i], base[i], x.n[i] * sizeof(uint32_t));
    apply(&x, h->before);
    REQUIRE(naive_first_broken(&x) == 0);
    return x;
}

/* The literal steps of the same requests. */
static void serve_naively(const struct hand *h, struct world *x, uint32_t *data, struct tally *n)
{
    for (uint32_t i = 0; i < h->n; i++) {
        const struct request *r = &h->requests[i];
        uint32_t reply = r->kind == 1 ? naive_write(x, r->page, data + i * HAND_W, n)
                                      : naive_read(x, r->page, data + i * HAND_W, n);
        REQUIRE(reply == r->reply && data[i * HAND_W] == r->word);
    }
}

void try_hand(const struct hand *h, const struct outcome *own)
{
    struct world x = hand_world(h), twin = world_copy(&x), expected = world_copy(&x);
    uint32_t requests[6], answers[3], counts[3], data[3 * HAND_W], twins_data[3 * HAND_W];
    struct tally n = {0};
    ind_translation_programs = ind_translation_reads = 0;
    apply(&expected, h->after);
    apply(&expected, own->after);
    for (uint32_t i = 0; i < h->n * HAND_W; i++)
        data[i] = twins_data[i] = 9000 + i % HAND_W;
    for (uint32_t i = 0; i < h->n; i++) {
        requests[2 * i] = h->requests[i].kind;
        requests[2 * i + 1] = h->requests[i].page;
    }
    REQUIRE(ind_run(GEOMETRY_OF(&x), STATE_OF(&x), requests, 2 * h->n, data, h->n * HAND_W, answers,
                    h->n, counts, 3) == IND_DONE);
    serve_naively(h, &twin, twins_data, &n);
    REQUIRE(memcmp(data, twins_data, h->n * HAND_W * sizeof *data) == 0);
    for (uint32_t i = 0; i < h->n; i++)
        REQUIRE(answers[i] == h->requests[i].reply);
    REQUIRE(memcmp(counts, own->counts, sizeof counts) == 0);
    REQUIRE(counts[0] == n.reads && counts[1] == n.programs && counts[2] == n.erases);
    REQUIRE(ind_translation_programs == own->translation_programs);
    REQUIRE(ind_translation_reads == own->translation_reads);
    REQUIRE(ind_translation_reads == n.translation_reads);
    REQUIRE(world_equal(&x, &expected) && world_equal(&twin, &expected));
    REQUIRE(naive_first_broken(&x) == 0);
    world_free(&x);
    world_free(&twin);
    world_free(&expected);
}
