/* The shortest session that still shows a difference: see shrink.h. */
#include "shrink.h"

#include "stop.h"

#include <stdio.h>
#include <stdlib.h>
#include <string.h>
#include <time.h>

/* Seconds of processor time after which shrinking is content with what it has. */
enum { PATIENCE = 60 };

bool session_agrees(const struct session *s, size_t *steps, char *text, size_t size)
{
    struct play p;
    bool agrees = play_start(&p, s);
    *steps = 0;
    while (agrees && *steps < s->steps)
        agrees = play_step(&p, &s->step[(*steps)++], true);
    if (!agrees)
        snprintf(text, size, "%s", p.text);
    return agrees;
}

/* Whether the session differs; it then ends at the difference. */
static bool differs(struct session *s)
{
    size_t steps;
    char text[1];
    if (session_agrees(s, &steps, text, sizeof text))
        return false;
    s->steps = steps;
    return true;
}

/*
 * Gives every changed word the value that it has now, so that it keeps it when a
 * step before it is dropped.
 */
static void fix_changes(struct session *s)
{
    struct play p;
    s->fixed = malloc((s->steps + 1) * sizeof *s->fixed);
    REQUIRE(s->fixed != NULL);
    bool agrees = play_start(&p, s);
    for (size_t i = 0; agrees && i < s->steps; i++) {
        agrees = play_step(&p, &s->step[i], true);
        if (s->step[i].kind != CHANGED_WORD)
            continue;
        s->fixed[i] = p.changes;
        s->step[i].fixed = &s->fixed[i];
    }
}

/* Tries the session without n steps from `at` on; keeps it so if it still differs. */
static bool drop(struct session *s, size_t at, size_t n)
{
    struct session less = *s;
    less.step = malloc(s->steps * sizeof *less.step);
    REQUIRE(less.step != NULL);
    less.steps = s->steps - n;
    memcpy(less.step, s->step, at * sizeof *less.step);
    memcpy(less.step + at, s->step + at + n, (less.steps - at) * sizeof *less.step);
    bool kept = differs(&less);
    if (kept) {
        memcpy(s->step, less.step, less.steps * sizeof *less.step);
        s->steps = less.steps;
    }
    free(less.step);
    return kept;
}

static bool out_of_patience(clock_t since)
{
    return (clock() - since) / CLOCKS_PER_SEC >= PATIENCE;
}

/* Stretches of half the session, then of a quarter, down to single steps until none can go. */
static void drop_steps(struct session *s, clock_t since)
{
    size_t n = s->steps / 2 + 1;
    for (bool dropped = true; n > 1 || dropped; n = n > 1 ? n / 2 : 1) {
        dropped = false;
        for (size_t at = 0; at + n <= s->steps && !out_of_patience(since);)
            if (drop(s, at, n))
                dropped = true;
            else
                at += n;
    }
}

static bool differs_with(struct session *s, struct step *run, uint32_t records)
{
    uint32_t was = run->at;
    run->at = records;
    if (differs(s))
        return true;
    run->at = was;
    return false;
}

/* Half the records of a run, and then one less, for as long as the session differs. */
static void drop_records(struct session *s, clock_t since)
{
    for (size_t i = 0; i < s->steps; i++) {
        struct step *run = &s->step[i];
        if (run->kind != RUN)
            continue;
        while (run->at > 1 && !out_of_patience(since) && differs_with(s, run, run->at / 2))
            continue;
        while (run->at > 0 && !out_of_patience(since) && differs_with(s, run, run->at - 1))
            continue;
    }
}

bool session_shrink(struct session *s)
{
    clock_t since = clock();
    int start = s->start;
    if (!differs(s))
        return false;
    if (stop_hung())
        return true; /* each try would wait for the watch again */
    fix_changes(s);
    drop_steps(s, since);
    s->start = FORMATTED;
    if (start == FORMATTED || !differs(s))
        s->start = start;
    drop_records(s, since);
    drop_steps(s, since);
    return true;
}
