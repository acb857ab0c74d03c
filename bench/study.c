/* What the studies share: a node to start from, the play of a trace, and its count. */
#include "study.h"

#include <inttypes.h>
#include <stdio.h>
#include <stdlib.h>
#include <string.h>

/* Requests for each logical page: in the warm-up, and then counted. */
enum { WARM_UP = 4, COUNTED = 2 };

static _Noreturn void fail(const char *what)
{
    fprintf(stderr, "bench: %s\n", what);
    exit(1);
}

static struct contents contents_new(uint32_t l)
{
    struct contents c = {.words = calloc(l, sizeof *c.words)};
    if (c.words == NULL)
        fail("no memory for the contents of a node");
    return c;
}

static void contents_copy(struct contents *to, const struct contents *from, uint32_t l)
{
    memcpy(to->words, from->words, l * sizeof *to->words);
    to->last = from->last;
}

struct study study_new(struct geometry g)
{
    struct study s = {.start = node_new(g), .node = node_new(g)};
    s.start_contents = contents_new(g.l);
    s.contents = contents_new(g.l);
    s.exchange = exchange_new(&g);
    return s;
}

void study_free(struct study *s)
{
    exchange_free(s->exchange);
    free(s->contents.words);
    free(s->start_contents.words);
    node_free(&s->node);
    node_free(&s->start);
}

/* A request for the next run.  Each write fills its page with a word of its own. */
static void put(struct study *s, size_t i, struct request r)
{
    uint32_t w = s->node.g.w, *words = s->exchange->data + i * w;
    s->exchange->requests[2 * i] = r.kind;
    s->exchange->requests[2 * i + 1] = r.page;
    if (r.kind != KIND_WRITE)
        return;
    s->contents.words[r.page] = ++s->contents.last;
    s->totals.writes++;
    for (uint32_t j = 0; j < w; j++)
        words[j] = s->contents.last;
}

static void run(struct study *s, size_t count)
{
    struct node *n = &s->node;
    struct exchange *e = s->exchange;
    if (ind_run(NODE_GEOMETRY(n), NODE_STATE(n), e->requests, 2 * count, e->data, count * n->g.w,
                e->answers, count, NODE_COUNTS(n)) != IND_DONE)
        fail("a run was refused");
    for (size_t i = 0; i < count; i++)
        if (e->answers[i] != IND_DONE)
            fail("a request was not done");
    s->totals.requests += count;
    s->totals.reads += n->counts[0];
    s->totals.programs += n->counts[1];
    s->totals.erases += n->counts[2];
}

static void play(struct study *s, const struct trace *t, struct source *from, uint32_t count)
{
    for (uint32_t done = 0; done < count;) {
        size_t n = 0;
        for (; n < MOST_REQUESTS && done < count; n++, done++)
            put(s, n, t->next(from));
        run(s, n);
    }
}

static void set_rules(const struct setting *setting)
{
    ind_rule = setting->rule;
    ind_order = setting->order;
}

/* From here every setting will begin. */
static void keep_start(struct study *s)
{
    node_copy(&s->start, &s->node);
    contents_copy(&s->start_contents, &s->contents, s->node.g.l);
}

static void go_to_start(struct study *s)
{
    node_copy(&s->node, &s->start);
    contents_copy(&s->contents, &s->start_contents, s->node.g.l);
}

void study_fill(struct study *s, const struct setting *setting)
{
    struct node *n = &s->node;
    struct source in_order = source_new(n->g.l);
    if (ind_format(NODE_GEOMETRY(n), NODE_STATE(n), NODE_COUNTS(n)) != IND_DONE)
        fail("a format was refused");
    set_rules(setting);
    play(s, &traces[SEQUENTIAL], &in_order, n->g.l);
    keep_start(s);
}

void study_scatter(struct study *s, const struct setting *setting)
{
    struct source anywhere = source_new(s->node.g.l);
    go_to_start(s);
    set_rules(setting);
    play(s, &traces[SPREAD], &anywhere, s->node.g.l);
    keep_start(s);
}

static void check_contents(struct study *s)
{
    uint32_t l = s->node.g.l, w = s->node.g.w;
    for (uint32_t first = 0; first < l; first += MOST_REQUESTS) {
        uint32_t n = l - first < MOST_REQUESTS ? l - first : MOST_REQUESTS;
        for (uint32_t i = 0; i < n; i++)
            put(s, i, (struct request){KIND_READ, first + i});
        run(s, n);
        for (uint32_t i = 0; i < n * w; i++)
            if (s->exchange->data[i] != s->contents.words[first + i / w])
                fail("a page does not read as it was last written");
    }
}

/*
 * Every translation page is there by now, so an update reads as often as it
 * programs, and so does a copy: what is read beyond these are the translations that
 * missed.  All counts tell the same as those of translation pages, since a host's
 * write programs once more and its read reads once more.
 */
static uint64_t misses(const struct totals *t)
{
    uint64_t host_reads = t->requests - t->writes;
    uint64_t missed = t->translation_reads - t->translation_programs;
    if (missed != t->reads + t->writes - t->programs - host_reads)
        fail("the reads of translation pages do not fit the counts of the calls");
    return missed;
}

static struct totals count(struct study *s, const struct trace *t, const struct setting *setting)
{
    uint32_t l = s->node.g.l;
    struct source from = source_new(l);
    go_to_start(s);
    set_rules(setting);
    play(s, t, &from, WARM_UP * l);
    s->totals = (struct totals){0};
    ind_translation_reads = 0;
    ind_translation_programs = 0;
    play(s, t, &from, COUNTED * l);
    struct totals counted = s->totals;
    counted.translation_reads = ind_translation_reads;
    counted.translation_programs = ind_translation_programs;
    check_contents(s);
    return counted;
}

/* Where data pages lie is no matter of any setting. */
static void must_agree(const struct totals *a, const struct totals *b, bool same_misses)
{
    if (a->writes != b->writes ||
        a->programs - a->translation_programs != b->programs - b->translation_programs)
        fail("the settings differ in more than translation pages");
    if (same_misses && misses(a) != misses(b))
        fail("the settings differ in what is cached");
}

static void print_line(const struct geometry *g, const char *trace, const char *setting,
                       const struct totals *t)
{
    const uint32_t numbers[] = {g->p, g->w, g->d, g->t, g->l, g->c};
    const uint64_t counts[] = {t->requests,
                               t->writes,
                               misses(t),
                               t->programs,
                               t->translation_programs,
                               t->translation_reads,
                               t->erases};
    for (size_t i = 0; i < sizeof numbers / sizeof *numbers; i++)
        printf("%" PRIu32 "\t", numbers[i]);
    printf("%s\t%s", trace, setting);
    for (size_t i = 0; i < sizeof counts / sizeof *counts; i++)
        printf("\t%" PRIu64, counts[i]);
    printf("\n");
}

void study_compare(struct study *s, const struct trace *t, const struct comparison *c)
{
    const struct geometry *g = &s->node.g;
    struct totals totals[SETTINGS];
    fprintf(stderr, "L = %" PRIu32 ", C = %" PRIu32 ": %s\n", g->l, g->c, t->name);
    for (int i = 0; i < SETTINGS; i++)
        totals[i] = count(s, t, &c->settings[i]);
    must_agree(&totals[0], &totals[1], c->same_misses);
    for (int i = 0; i < SETTINGS; i++)
        print_line(g, t->name, c->settings[i].name, &totals[i]);
}
