/* The shortest record that still fails: see settings_shrink.h. */
#include "settings_shrink.h"

#include "settings_record.h"
#include "stop.h"

#include <inttypes.h>
#include <stdio.h>
#include <string.h>

void settings_list(const struct settings_call *c)
{
    enum { SHOWN = 160 };
    const char *of = c->which == TO_READ ? "words" : "bytes";
    printf("  %s into %zu %s%s:", settings_name[c->which], c->lent, of,
           c->null ? ", what is empty as NULL" : "");
    for (int i = 0; c->which == TO_WRITE && i < SIX; i++)
        printf(" %" PRIu32, c->g[i]);
    for (size_t i = 0; c->which == TO_READ && i < c->n && i < SHOWN; i++)
        printf(" %02x", c->bytes[i]);
    printf(c->n > SHOWN ? " .. of %zu bytes\n" : "\n", c->n);
}

static bool differs(const struct settings_call *c, enum placing placing)
{
    struct settings_tried x = {0};
    return !settings_agrees(c, placing, &x);
}

/* Stretches of half the record, then of a quarter; short ones of every length, at every place. */
static void drop_bytes(struct settings_call *c, enum placing placing)
{
    enum { FEW = 64 };
    static struct settings_call less;
    for (size_t some = c->n; some > 0; some = some > FEW ? some / 2 : some - 1)
        for (size_t at = 0; at + some <= c->n;) {
            less = *c;
            record_replace(&less, at, some, NULL, 0);
            if (differs(&less, placing))
                *c = less;
            else
                at += some > FEW ? some : 1;
        }
}

static void zero_bytes(struct settings_call *c, enum placing placing)
{
    for (size_t i = 0; i < c->n; i++) {
        uint8_t was = c->bytes[i];
        c->bytes[i] = 0;
        if (!differs(c, placing))
            c->bytes[i] = was;
    }
}

void settings_shrink(const struct settings_call *c, enum placing placing)
{
    static struct settings_call least;
    struct settings_tried x = {0};
    least = *c;
    if (!stop_hung() && c->which == TO_READ) { /* else each try would wait for the watch again */
        drop_bytes(&least, placing);
        zero_bytes(&least, placing);
    }
    settings_agrees(&least, placing, &x);
    if (c->which == TO_READ)
        printf("the shortest record found, of %zu bytes: %s\n", least.n, x.text);
    else
        printf("the shortest call found, of %d numbers: %s\n", SIX, x.text);
    settings_list(&least);
    fflush(stdout);
}
