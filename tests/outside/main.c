/*
 * The archive against the independent program.
 *
 *   outside [PART ..] [--seed N] [--session N] [--placing ending|beginning]
 *           [--percent N] [--calls N]
 *
 * The parts are small, damage, middle and largest (random sessions, compared
 * after every call), bounds, soak and settings; all of them without a name.
 * --session plays one session of a part, or one case of settings, as a failure
 * names it; --percent plays fewer or more sessions and random cases; --calls is
 * for soak.
 */
#include "coverage.h"
#include "settings.h"
#include "soak.h"
#include "stop.h"
#include "tell.h"

#include <inttypes.h>
#include <stdio.h>
#include <stdlib.h>
#include <string.h>

struct options {
    bool part[PARTS], bounds, soak, settings;
    bool all; /* no part was named */
    uint64_t seed;
    int64_t session; /* one session alone, or -1 */
    int placing;     /* one placing alone, or -1 */
    uint32_t percent;
    size_t calls;
};

static uint32_t sessions_of(const struct options *o, int part)
{
    static const uint32_t usual[PARTS] = {6000, 300, 60, 2};
    uint32_t n = (uint32_t)((uint64_t)usual[part] * o->percent / 100);
    return n == 0 ? 1 : n;
}

/* Plays one session, counting what it meets. */
static bool play_counted(int part, uint64_t seed, uint32_t number, enum placing placing,
                         struct coverage *v)
{
    struct session s = session_make(part, seed, number, placing);
    struct play p;
    bool agrees = play_start(&p, &s);
    coverage_start(v, &p);
    for (size_t i = 0; agrees && i < s.steps; i++) {
        coverage_before(v, &p, &s.step[i]);
        agrees = play_step(&p, &s.step[i], true);
        if (agrees)
            coverage_step(v, &p, &s.step[i]);
    }
    if (!agrees)
        tell_failure(part_name[part], seed, number, v->calls + 1, &s, p.text);
    session_free(&s);
    return agrees;
}

/* Each session twice: with slices that end at a page without access, and that begin behind one. */
static bool play_part(const struct options *o, int part, struct coverage *v)
{
    char what[80];
    uint32_t from = o->session < 0 ? 0 : (uint32_t)o->session;
    uint32_t to = o->session < 0 ? sessions_of(o, part) : from + 1;
    snprintf(what, sizeof what, "%s: session", part_name[part]);
    for (uint32_t number = from; number < to; number++) {
        for (int placing = ENDING; placing <= BEGINNING; placing++)
            if ((o->placing < 0 || o->placing == placing) &&
                !play_counted(part, o->seed, number, placing, v))
                return false;
        tell_progress(what, number + 1, to);
    }
    printf("%ss %u to %u agree (%" PRIu64 " calls so far)\n", what, from, to - 1, v->calls);
    fflush(stdout);
    return true;
}

static bool play_parts(const struct options *o)
{
    struct coverage v = {0};
    for (int part = 0; part < PARTS; part++)
        if (o->part[part] && !play_part(o, part, &v))
            return false;
    if (v.calls > 0)
        coverage_print(&v);
    return !o->all || o->percent < 100 || coverage_whole(&v);
}

/* Ten million random cases. */
static bool play_settings(const struct options *o)
{
    const struct settings_asked asked = {o->seed, UINT64_C(100000) * o->percent, o->session,
                                         o->placing};
    return settings(&asked);
}

static void usage(void)
{
    fprintf(stderr, "usage: outside [small|damage|middle|largest|bounds|soak|settings ..]\n"
                    "               [--seed N] [--session N] [--placing ending|beginning] "
                    "[--percent N] [--calls N]\n");
    exit(2);
}

static void take_number(struct options *o, const char *name, const char *text)
{
    char *end;
    uint64_t n = strtoull(text, &end, 10);
    if (*text < '0' || *text > '9' || *end != '\0')
        usage();
    if (strcmp(name, "--seed") == 0)
        o->seed = n;
    else if (strcmp(name, "--session") == 0)
        o->session = (int64_t)n;
    else if (strcmp(name, "--percent") == 0)
        o->percent = (uint32_t)n;
    else if (strcmp(name, "--calls") == 0)
        o->calls = (size_t)n;
    else
        usage();
}

static bool take_part(struct options *o, const char *name)
{
    bool bounds = strcmp(name, "bounds") == 0, soak = strcmp(name, "soak") == 0;
    bool settings = strcmp(name, "settings") == 0, taken = bounds || soak || settings;
    o->bounds |= bounds;
    o->soak |= soak;
    o->settings |= settings;
    for (int i = 0; i < PARTS; i++)
        if (strcmp(name, part_name[i]) == 0)
            taken = o->part[i] = true;
    return taken;
}

static struct options take_options(int argc, char **argv)
{
    struct options o = {.all = true, .seed = 1, .session = -1, .placing = -1, .percent = 100,
                        .calls = 2000000};
    for (int i = 1; i < argc; i++) {
        if (take_part(&o, argv[i])) {
            o.all = false;
        } else if (strcmp(argv[i], "--placing") == 0 && i + 1 < argc) {
            i++;
            o.placing = strcmp(argv[i], "beginning") == 0;
        } else if (i + 1 < argc) {
            take_number(&o, argv[i], argv[i + 1]);
            i++;
        } else {
            usage();
        }
    }
    for (int i = 0; i < PARTS && o.all; i++)
        o.part[i] = true;
    o.bounds |= o.all;
    o.soak |= o.all;
    o.settings |= o.all;
    return o;
}

int main(int argc, char **argv)
{
    struct options o = take_options(argc, argv);
    printf("seed %" PRIu64 "\n", o.seed);
    stop_prepare();
    bool good = play_parts(&o);
    good = good && (!o.bounds || bounds(o.seed));
    good = good && (!o.soak || soak(o.seed, o.calls));
    good = good && (!o.settings || play_settings(&o));
    printf(good ? "all agree\n" : "not all agree\n");
    return good ? 0 : 1;
}
