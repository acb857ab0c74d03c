/* The chips, the cases, the states they start from, and their calls. */
#include "cases.h"

#include "draw.h"

#include <stdio.h>
#include <stdlib.h>

/*
 * The first four differ in the number of blocks alone, with entries, logical
 * pages and translation blocks in proportion: they show how the cost grows.
 * The logical pages are 94 of 100 of the most that the geometry allows, so a
 * collection has much to copy.  The last two have small blocks, and a
 * translation page for each logical page.
 */
const struct chip chips[] = {
    {"1/64", {64, 512, 14, 2, 780, 64}, false},
    {"1/16", {64, 512, 60, 4, 3540, 256}, false},
    {"1/4", {64, 512, 250, 6, 14950, 1024}, false},
    {"largest", {64, 512, 1000, 24, 60000, 4096}, true},
    {"middle", {32, 128, 480, 32, 14400, 1024}, true},
    {"P = 16, W = 64", {16, 64, 1000, 24, 15020, 512}, false},
    {"W = 1", {64, 1, 512, 512, 30740, 4096}, false},
};
const size_t chip_count = sizeof chips / sizeof *chips;

const struct test_case cases[] = {
    {"format", FORMAT, false, false, false},
    {"check, fresh", CHECK, false, false, true},
    {"check, full", CHECK, true, false, true},
    {"read, hot", READ, true, true, false},
    {"read, spread", READ, true, false, false},
    {"write, hot", WRITE, true, true, false},
    {"write, spread", WRITE, true, false, false},
    {"run of 1,024 reads, hot", RUN_READS, true, true, false},
    {"run of 1,024 reads, spread", RUN_READS, true, false, true},
    {"run of 1,024 writes, hot", RUN_WRITES, true, true, false},
    {"run of 1,024 writes, spread", RUN_WRITES, true, false, true},
};
const size_t case_count = sizeof cases / sizeof *cases;

enum { HOT_PAGES = 64 };

void exchange_prepare(struct exchange *e, const struct test_case *c, const struct geometry *g)
{
    uint64_t seed = 2;
    uint32_t kind = c->what == WRITE || c->what == RUN_WRITES ? KIND_WRITE : KIND_READ;
    for (uint32_t i = 0; i < MOST_REQUESTS; i++) {
        e->requests[2 * i] = kind;
        e->requests[2 * i + 1] = c->hot ? draw_hot(&seed, HOT_PAGES, g->l) : draw(&seed) % g->l;
        e->answers[i] = 0;
    }
    for (size_t i = 0; i < MOST_REQUESTS * (size_t)g->w; i++)
        e->data[i] = (uint32_t)i;
}

static void must(uint32_t reply, const char *call)
{
    if (reply != 0) {
        fprintf(stderr, "bench: %s answered %u while a state was made\n", call, reply);
        exit(1);
    }
}

/* Writes `count` pages in runs: the first ones in their order, or pages anywhere. */
static void write_pages(struct node *n, struct exchange *e, uint32_t count, bool in_order)
{
    uint64_t seed = 1;
    for (uint32_t done = 0; done < count;) {
        uint32_t k = 0;
        for (; k < MOST_REQUESTS && done < count; k++, done++) {
            e->requests[2 * k] = KIND_WRITE;
            e->requests[2 * k + 1] = in_order ? done : draw(&seed) % n->g.l;
        }
        must(node_run(THEIRS, n, e->requests, e->data, e->answers, k), "run");
    }
}

/*
 * A full node has every page written once, then as many anywhere as keep the
 * collections busy, and the hot pages in its cache.
 */
void case_start(struct node *n, bool full)
{
    must(node_format(THEIRS, n), "format");
    if (!full)
        return;
    struct exchange *e = exchange_new(&n->g);
    const struct test_case warm = {.what = RUN_READS, .hot = true};
    exchange_prepare(e, &warm, &n->g);
    write_pages(n, e, n->g.l, true);
    write_pages(n, e, n->g.l / 2, false);
    exchange_prepare(e, &warm, &n->g);
    must(node_run(THEIRS, n, e->requests, e->data, e->answers, MOST_REQUESTS), "run");
    exchange_free(e);
}

size_t case_calls(const struct test_case *c)
{
    return c->what == READ || c->what == WRITE ? SINGLE_CALLS : 1;
}

uint32_t case_call(enum side s, const struct test_case *c, struct node *n, struct exchange *e,
                   size_t i)
{
    uint32_t page = e->requests[2 * i + 1];
    uint32_t *buffer = e->data + i * n->g.w;
    switch (c->what) {
    case FORMAT:
        return node_format(s, n);
    case CHECK:
        return node_check(s, n);
    case READ:
        return node_read(s, n, page, buffer);
    case WRITE:
        return node_write(s, n, page, buffer);
    default:
        return node_run(s, n, e->requests, e->data, e->answers, MOST_REQUESTS);
    }
}
