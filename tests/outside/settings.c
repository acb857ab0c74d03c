/* The part `settings`: see settings.h. */
#include "settings.h"

#include "settings_cases.h"
#include "settings_met.h"
#include "settings_shrink.h"
#include "tell.h"

#include <inttypes.h>
#include <stdio.h>

struct settings_run {
    const struct settings_asked *asked;
    uint64_t number; /* of the next case */
    uint64_t calls;
    bool failed;
    struct settings_met met;
};

static void fail(struct settings_run *r, const struct settings_call *c, uint64_t number,
                 enum placing placing, const struct settings_tried *x)
{
    printf("failed after %" PRIu64 " calls: %s\n", r->calls + x->calls, x->text);
    printf("replay: settings --seed %" PRIu64 " --session %" PRIu64 " --placing %s\n",
           r->asked->seed, number, placing == ENDING ? "ending" : "beginning");
    settings_list(c);
    printf("shrinking ..\n");
    fflush(stdout);
    settings_shrink(c, placing);
    r->failed = true;
}

/* Twice: with slices that end at a page without access, and that begin behind one. */
void settings_case(struct settings_run *r, const struct settings_call *c)
{
    struct settings_tried x = {0};
    uint64_t number = r->number++;
    if (r->failed || (r->asked->only >= 0 && (uint64_t)r->asked->only != number))
        return;
    for (int placing = ENDING; placing <= BEGINNING; placing++)
        if ((r->asked->placing < 0 || r->asked->placing == placing) &&
            !settings_agrees(c, placing, &x)) {
            fail(r, c, number, placing, &x);
            return;
        }
    r->calls += x.calls;
    settings_meet(&r->met, c, x.answer);
}

/* These are three, and are played whatever is asked for. */
static void play_long(struct settings_run *r, const struct settings_asked *asked)
{
    char text[160];
    if (r->failed || settings_long(text, sizeof text))
        return;
    printf("failed after %" PRIu64 " calls: %s\nreplay: settings --seed %" PRIu64
           " --placing beginning\nthe shortest record found, of %d bytes and 2^32 more\n",
           r->calls, text, asked->seed, RECORD_BYTES);
    r->failed = true;
}

static void play_random(struct settings_run *r, const struct settings_asked *asked)
{
    static struct settings_call c;
    uint64_t made = r->number, to = made + asked->records;
    if (asked->only >= 0 && (uint64_t)asked->only >= made) {
        r->number = (uint64_t)asked->only;
        to = r->number + 1;
    }
    while (r->number < to && !r->failed) {
        settings_random(&c, asked->seed, r->number);
        settings_case(r, &c);
        tell_progress("settings: record", r->number, to);
    }
}

bool settings(const struct settings_asked *asked)
{
    static struct settings_run r;
    r = (struct settings_run){.asked = asked};
    settings_made(&r);
    settings_tails(&r);
    settings_corners(&r);
    uint64_t made = r.number;
    play_long(&r, asked);
    if (asked->only < 0 || (uint64_t)asked->only >= made)
        play_random(&r, asked);
    if (r.failed)
        return false;
    if (asked->only >= 0) {
        printf("settings: case %" PRId64 " agrees (%" PRIu64 " calls)\n", asked->only, r.calls);
        return true;
    }
    printf("settings: %" PRIu64 " records and geometries made one by one and %" PRIu64
           " random ones agree (%" PRIu64 " calls)\n",
           made, asked->records, r.calls);
    settings_print(&r.met);
    return settings_whole(&r.met);
}
