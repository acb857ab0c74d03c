/*
 * Soak and bounds: see soak.h.  Beside the independent program's answer every
 * read is held to what was last written, kept here in a plain array.
 */
#include "soak.h"

#include "neighbours.h"
#include "replacement.h"
#include "tell.h"

#include <inttypes.h>
#include <stdio.h>
#include <string.h>

enum { MOST_PAGES = 382, STATE_EVERY = 64 };

/* Requests by whether they wrote neighbours back, and one of them protected. */
enum { ALONE, WITH_OTHERS, WITH_PROTECTED, WAYS };

/* The first word last written to each page, and the greatest costs seen. */
struct watch {
    bool written[MOST_PAGES];
    uint32_t word[MOST_PAGES];
    uint32_t most_read[WAYS], most_write[WAYS];
    struct neighbours neighbours;
    struct replacement replacement;
};

static bool lost(struct play *p, uint32_t page)
{
    snprintf(p->text, sizeof p->text, "page %u does not read as it was last written", page);
    return false;
}

/* What one request did: a write is noted, a read held to the note. */
static bool watch_request(struct watch *h, struct play *p, uint32_t kind, uint32_t page,
                          uint32_t reply, uint32_t word)
{
    if (kind == 1) {
        h->written[page] = true;
        h->word[page] = word;
        return true;
    }
    if (reply == UNWRITTEN)
        return !h->written[page] || lost(p, page);
    return (h->written[page] && h->word[page] == word) || lost(p, page);
}

static bool watch_run(struct watch *h, struct play *p)
{
    const uint32_t *requests = play_slice(p, OF_ARCHIVE, REQUESTS);
    const uint32_t *data = play_slice(p, OF_ARCHIVE, DATA);
    const uint32_t *answers = play_slice(p, OF_ARCHIVE, ANSWERS), w = p->call.g[1];
    for (size_t i = 0; i < p->call.n[ANSWERS]; i++)
        if (answers[i] <= UNWRITTEN &&
            !watch_request(h, p, requests[2 * i], requests[2 * i + 1], answers[i], data[i * w]))
            return false;
    return true;
}

static uint32_t read_bound(uint32_t pages)
{
    return 2 * pages + 3;
}

static uint32_t write_bound(uint32_t pages)
{
    return (2 * pages + 1) * (pages + 1);
}

static int way_of(const struct watch *h)
{
    if (h->replacement.bits >> OTHER_PROTECTED & 1)
        return WITH_PROTECTED;
    return h->neighbours.bits >> TOGETHER & 1 ? WITH_OTHERS : ALONE;
}

static bool watch_cost(struct watch *h, struct play *p)
{
    const uint32_t *counts = play_slice(p, OF_ARCHIVE, COUNTS);
    uint32_t cost = counts[0] + counts[1] + counts[2], pages = p->call.g[0];
    bool write = p->call.which == WRITE;
    uint32_t *most = write ? h->most_write : h->most_read;
    uint32_t bound = write ? write_bound(pages) : read_bound(pages);
    int by = way_of(h);
    if (cost > most[by])
        most[by] = cost;
    if (cost <= bound)
        return true;
    snprintf(p->text, sizeof p->text, "%s: costs %u, more than %u", call_name[p->call.which], cost,
             bound);
    return false;
}

static bool watch_step(struct watch *h, struct play *p)
{
    if (p->call.which == RUN)
        return watch_run(h, p);
    if (p->call.which != READ && p->call.which != WRITE)
        return true;
    return watch_cost(h, p) &&
           watch_request(h, p, p->call.which == WRITE, p->call.page, p->reply,
                         play_slice(p, OF_ARCHIVE, BUFFER)[0]);
}

/* Plays a session of good requests under watch; its words are compared every so often and last. */
static bool play_watched(const struct session *s, struct watch *h, struct play *p, size_t *calls,
                         const char *progress)
{
    memset(h, 0, sizeof *h);
    replacement_start(&h->replacement);
    *calls = 0;
    if (!play_start(p, s))
        return false;
    for (size_t i = 0; i < s->steps; i++) {
        bool whole = i % STATE_EVERY == 0 || i + 1 == s->steps;
        neighbours_before(&h->neighbours, p, &s->step[i]);
        replacement_before(&h->replacement, p, &s->step[i]);
        if (!play_step(p, &s->step[i], whole))
            return false;
        neighbours_after(&h->neighbours, p, &s->step[i]);
        replacement_after(&h->replacement, p, &s->step[i]);
        if (!watch_step(h, p))
            return false;
        ++*calls;
        if (progress != NULL)
            tell_progress(progress, *calls, s->steps);
    }
    return true;
}

bool soak(uint64_t seed, size_t calls)
{
    struct session s = session_soak(seed, calls);
    struct watch h;
    struct play p;
    size_t played;
    bool good = play_watched(&s, &h, &p, &played, "soak: calls");
    if (good) {
        printf("soak: %zu calls on one chip, nothing lost; most for a read %u of %u, for a write "
               "%u of %u; of %" PRIu64 " that wrote neighbours back %u and %u, where one was "
               "protected %u and %u\n",
               played, h.most_read[ALONE], read_bound(s.g[0]), h.most_write[ALONE],
               write_bound(s.g[0]), h.neighbours.met[TOGETHER], h.most_read[WITH_OTHERS],
               h.most_write[WITH_OTHERS], h.most_read[WITH_PROTECTED],
               h.most_write[WITH_PROTECTED]);
        replacement_print_size(&h.replacement, OF_MORE);
        /* What stands before it is met as the cache fills, once or twice if at all. */
        good = calls < 10000 || replacement_whole_size(&h.replacement, OF_MORE, TRIAL_AT);
    } else {
        tell_failure("soak", seed, 0, played + 1, &s, p.text);
    }
    session_free(&s);
    return good;
}

/* A session whose requests, of this sort, must reach the bounds; the calls it made are added. */
static bool reach_bounds(struct session s, int by, uint64_t seed, size_t *calls)
{
    static const char *const with[WAYS] = {"", " with neighbours", " with a protected neighbour"};
    const uint32_t pages = s.g[0];
    struct watch h;
    struct play p;
    size_t played;
    bool good = play_watched(&s, &h, &p, &played, NULL);
    if (good && (h.most_read[by] != read_bound(pages) || h.most_write[by] != write_bound(pages))) {
        snprintf(p.text, sizeof p.text, "P=%u%s: most for a read %u, for a write %u", pages,
                 with[by], h.most_read[by], h.most_write[by]);
        good = false;
    }
    *calls += played;
    if (!good)
        tell_failure("bounds", seed, pages, *calls + 1, &s, p.text);
    session_free(&s);
    return good;
}

bool bounds(uint64_t seed)
{
    size_t calls = 0;
    for (uint32_t pages = 1; pages <= 64; pages++) {
        uint64_t own = seed + pages;
        if (!reach_bounds(session_bounds(pages, own), ALONE, seed, &calls) ||
            !reach_bounds(session_bounds_together(pages, own), WITH_OTHERS, seed, &calls) ||
            !reach_bounds(session_bounds_protected(pages, own), WITH_PROTECTED, seed, &calls))
            return false;
        tell_progress("bounds: P", pages, 64);
    }
    printf("bounds: for every P from 1 to 64 the most for a read is 2P+3 and for a write "
           "(2P+1)(P+1), both reached, also where neighbours are written back, and where one of "
           "them is protected (%zu calls)\n",
           calls);
    return true;
}
