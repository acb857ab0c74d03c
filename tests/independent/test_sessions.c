/*
 * Random sessions.  After every call: the state is sound by the naive rules, a
 * read gave what was last written, the counted operations are within their
 * bounds, and memory, reply and counts are those of the literal steps.
 */
#include "selftest.h"

#include "independent.h"
#include "test_naive.h"

#include <stdio.h>
#include <stdlib.h>
#include <string.h>

struct oracle oracle_of(const struct world *sound)
{
    const struct world *x = sound;
    struct oracle o = {calloc(x->l, sizeof *o.written),
                       calloc((size_t)x->l * x->w, sizeof *o.words)};
    REQUIRE(o.written != NULL && o.words != NULL);
    for (uint32_t page = 0; page < x->d * x->p; page++) {
        const uint32_t *spare = x->slice[SPARE] + 2 * page;
        if (spare[0] != 65535)
            continue;
        o.written[spare[1]] = true;
        memcpy(o.words + (size_t)spare[1] * x->w, x->slice[CHIP] + (size_t)page * x->w,
               x->w * sizeof(uint32_t));
    }
    return o;
}

void oracle_free(struct oracle *o)
{
    free(o->written);
    free(o->words);
}

static void check_bound(const struct world *x, bool write, const struct tally *n,
                        struct coverage *seen)
{
    uint32_t operations = n->reads + n->programs + n->erases;
    uint32_t bound = write ? (2 * x->p + 1) * (x->p + 1) : 2 * x->p + 3;
    REQUIRE(operations <= bound);
    if (operations == bound && write)
        seen->full_bound_writes++;
    if (operations == bound && !write)
        seen->full_bound_reads++;
    if (operations == bound && n->met[MET_ALONG] + n->met[MET_CHANGED] > 0)
        seen->met[ind_rule][write ? MET_FULL_WRITE : MET_FULL_READ]++;
    seen->erases += n->erases;
}

/* Adds one request's tally to its call's and to what was met. */
static void add_tally(struct tally *sum, const struct tally *n, struct coverage *seen)
{
    sum->reads += n->reads;
    sum->programs += n->programs;
    sum->erases += n->erases;
    seen->host += n->host;
    seen->copied += n->copied;
    seen->translation_reads += n->translation_reads;
    for (int kind = 0; kind < MET_KINDS; kind++)
        seen->met[ind_rule][kind] += n->met[kind];
    for (int kind = 0; kind < ORDER_KINDS; kind++)
        seen->order[kind] += n->order[kind];
}

/* The other rule and order, if the cache has one entry: they make no difference then. */
static void switch_for_twin(const struct world *x)
{
    if (x->c > 1)
        return;
    ind_rule = ind_rule == IND_NEIGHBOURS ? IND_ONE_ENTRY : IND_NEIGHBOURS;
    ind_order = ind_order == IND_SEGMENTED ? IND_PLAIN : IND_SEGMENTED;
}

/* The literal steps of one request on the twin, with the oracle's view of it. */
static uint32_t serve_twin(struct world *twin, struct oracle *o, bool write, uint32_t l,
                           uint32_t *words, struct tally *sum, struct coverage *seen)
{
    size_t bytes = twin->w * sizeof(uint32_t);
    struct tally n = {0};
    uint32_t reply;
    switch_for_twin(twin);
    if (write) {
        reply = naive_write(twin, l, words, &n);
        REQUIRE(reply == IND_DONE);
        o->written[l] = true;
        memcpy(o->words + (size_t)l * twin->w, words, bytes);
    } else {
        reply = naive_read(twin, l, words, &n);
        REQUIRE(reply == (o->written[l] ? IND_DONE : IND_UNWRITTEN));
        if (reply == IND_DONE)
            REQUIRE(memcmp(words, o->words + (size_t)l * twin->w, bytes) == 0);
        seen->unwritten += reply == IND_UNWRITTEN;
    }
    switch_for_twin(twin); /* back */
    check_bound(twin, write, &n, seen);
    add_tally(sum, &n, seen);
    return reply;
}

static void fill(uint32_t *words, size_t n, uint64_t *seed)
{
    for (size_t i = 0; i < n; i++)
        words[i] = random_below(seed, 8) ? (uint32_t)random_64(seed) : NONE;
}

static void single_call(struct world *x, struct world *twin, struct oracle *o, uint64_t *seed,
                        struct coverage *seen)
{
    uint32_t mine[512], theirs[512], counts[3] = {7, 7, 7}, reply;
    uint32_t l = random_below(seed, x->l);
    bool write = random_below(seed, 5) < 3;
    struct tally n = {0};
    fill(mine, x->w, seed);
    memcpy(theirs, mine, sizeof mine);
    if (write)
        reply = ind_write(GEOMETRY_OF(x), l, STATE_OF(x), mine, x->w, counts, 3);
    else
        reply = ind_read(GEOMETRY_OF(x), l, STATE_OF(x), mine, x->w, counts, 3);
    REQUIRE(reply == serve_twin(twin, o, write, l, theirs, &n, seen));
    REQUIRE(memcmp(mine, theirs, x->w * sizeof(uint32_t)) == 0);
    REQUIRE(counts[0] == n.reads && counts[1] == n.programs && counts[2] == n.erases);
    seen->programs += counts[1];
    seen->calls++;
}

/* A run of n records, a few of them with a bad kind or page. */
static void run_call(struct world *x, struct world *twin, struct oracle *o, uint32_t n,
                     uint64_t *seed, struct coverage *seen)
{
    uint32_t *requests = malloc(2 * n * sizeof(uint32_t) + 1);
    uint32_t *answers = malloc(n * sizeof(uint32_t) + 1);
    uint32_t *mine = malloc((size_t)n * x->w * sizeof(uint32_t) + 1);
    uint32_t *theirs = malloc((size_t)n * x->w * sizeof(uint32_t) + 1);
    uint32_t counts[3] = {7, 7, 7};
    struct tally sum = {0};
    REQUIRE(requests != NULL && answers != NULL && mine != NULL && theirs != NULL);
    fill(mine, (size_t)n * x->w, seed);
    memcpy(theirs, mine, (size_t)n * x->w * sizeof(uint32_t));
    for (uint32_t i = 0; i < n; i++) {
        requests[2 * i] = random_below(seed, 16) ? random_below(seed, 2) : random_below(seed, 5);
        requests[2 * i + 1] = random_below(seed, 16) ? random_below(seed, x->l)
                                                     : (uint32_t)random_64(seed);
    }
    REQUIRE(ind_run(GEOMETRY_OF(x), STATE_OF(x), requests, 2 * n, mine, (size_t)n * x->w, answers,
                    n, counts, 3) == IND_DONE);
    for (uint32_t i = 0; i < n; i++) {
        uint32_t kind = requests[2 * i], page = requests[2 * i + 1], expected;
        if (kind > 1)
            expected = IND_KIND;
        else if (page >= x->l)
            expected = IND_PAGE;
        else
            expected = serve_twin(twin, o, kind == 1, page, theirs + (size_t)i * x->w, &sum, seen);
        REQUIRE(answers[i] == expected);
    }
    REQUIRE(memcmp(mine, theirs, (size_t)n * x->w * sizeof(uint32_t)) == 0);
    REQUIRE(counts[0] == sum.reads && counts[1] == sum.programs && counts[2] == sum.erases);
    seen->programs += counts[1];
    seen->runs++;
    free(requests);
    free(answers);
    free(mine);
    free(theirs);
}

void random_call(struct world *x, struct oracle *o, uint64_t *seed, struct coverage *seen)
{
    struct world twin = world_copy(x);
    if (random_below(seed, 10))
        single_call(x, &twin, o, seed, seen);
    else
        run_call(x, &twin, o, random_below(seed, 9), seed, seen);
    REQUIRE(world_equal(x, &twin));
    REQUIRE(naive_first_broken(x) == 0);
    world_free(&twin);
}

/*
 * All programs since `before` are of data pages or counted as of translation
 * pages, and the reads of translation pages are those that the literal steps made.
 */
static void check_translation(const struct coverage *before, const struct coverage *seen)
{
    uint64_t data = seen->host - before->host + seen->copied - before->copied;
    REQUIRE(seen->programs - before->programs == data + ind_translation_programs);
    REQUIRE(seen->translation_reads - before->translation_reads == ind_translation_reads);
}

static void session(struct world *x, uint64_t *seed, uint32_t calls, struct coverage *seen)
{
    uint32_t counts[3];
    if (random_below(seed, 3)) {
        REQUIRE(ind_format(GEOMETRY_OF(x), STATE_OF(x), counts, 3) == IND_DONE);
        REQUIRE(counts[0] == 0 && counts[1] == 0 && counts[2] == x->d + x->t);
    } else {
        world_random_sound(x, seed);
        seen->lent_protected += x->slice[RECORD][5] > 0;
    }
    REQUIRE(naive_first_broken(x) == 0);
    const struct coverage before = *seen;
    ind_translation_programs = ind_translation_reads = 0;
    struct oracle o = oracle_of(x);
    for (uint32_t i = 0; i < calls; i++) {
        random_call(x, &o, seed, seen);
        if (random_below(seed, 16) == 0) {
            world_make_odd(x, seed);
            REQUIRE(naive_first_broken(x) == 0);
        }
        REQUIRE(ind_check(GEOMETRY_OF(x), STATE_OF(x), counts, 3) == IND_DONE);
    }
    check_translation(&before, seen);
    oracle_free(&o);
    world_free(x);
}

void test_sessions(uint64_t seed, uint32_t worlds, uint32_t calls, struct coverage *seen)
{
    for (uint32_t i = 0; i < worlds; i++) {
        uint64_t own = seed + i;
        struct world x = world_random_small(&own);
        snprintf(test_context, sizeof test_context,
                 "session %u of seed %llu: P=%u W=%u D=%u T=%u L=%u C=%u", i,
                 (unsigned long long)seed, GEOMETRY_OF(&x));
        session(&x, &own, calls, seen);
    }
}

void test_medium(uint64_t seed, uint32_t calls, struct coverage *seen)
{
    static const uint32_t g[][6] = {{64, 512, 4, 3, 191, 100}, {64, 1, 4, 5, 191, 64},
                                    {16, 8, 20, 4, 300, 4096}, {64, 5, 6, 4, 319, 50},
                                    {64, 2, 3, 3, 127, 1},     {33, 9, 3, 2, 65, 7},
                                    {16, 31, 25, 3, 380, 90},  {8, 77, 60, 4, 400, 60}};
    for (size_t i = 0; i < sizeof g / sizeof *g; i++) {
        uint64_t own = seed + i;
        struct world x =
            world_make(g[i][0], g[i][1], g[i][2], g[i][3], g[i][4], g[i][5], &own);
        snprintf(test_context, sizeof test_context, "medium session %u of seed %llu",
                 (unsigned)i, (unsigned long long)seed);
        session(&x, &own, calls, seen);
    }
}

/* The largest number of pages, of one word each, in runs of 1,024 records. */
void test_many_pages(uint64_t seed, uint32_t runs, struct coverage *seen)
{
    uint32_t counts[3];
    uint64_t own = seed;
    struct world x = world_make(64, 1, 512, 512, 16000, 4096, &own);
    snprintf(test_context, sizeof test_context, "many pages, seed %llu", (unsigned long long)seed);
    world_random_sound(&x, &own);
    struct world twin = world_copy(&x);
    struct oracle o = oracle_of(&x);
    const struct coverage before = *seen;
    ind_translation_programs = ind_translation_reads = 0;
    for (uint32_t i = 0; i < runs; i++) {
        run_call(&x, &twin, &o, 1024, &own, seen);
        REQUIRE(world_equal(&x, &twin));
        REQUIRE(ind_first_broken_rule(GEOMETRY_OF(&x), STATE_OF(&x), NULL) == 0);
        REQUIRE(ind_check(GEOMETRY_OF(&x), STATE_OF(&x), counts, 3) == IND_DONE);
    }
    check_translation(&before, seen);
    oracle_free(&o);
    world_free(&twin);
    world_free(&x);
}
