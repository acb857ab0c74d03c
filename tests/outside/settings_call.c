/* Calls of the settings record on both sides: see settings_call.h. */
#include "settings_call.h"

#include "independent.h"
#include "stop.h"
#include "trianglefire.h"

#include <stdio.h>
#include <string.h>

const char *const settings_name[SETTINGS_CALLS] = {"settings read", "settings write"};

enum { BYTES, NUMBERS, PLACE, LENT };
enum { OF_ARCHIVE, OF_INDEPENDENT, SIDES };

/* Bytes are read-only to the calls, and filled from beside. */
struct side {
    struct stretch stretch[LENT];
    uint8_t *fill;
};

/* The arguments of one side's call, and its answer. */
struct made {
    const struct settings_call *call;
    const uint8_t *bytes;
    uint32_t *numbers;
    uint8_t *place;
    uint32_t answer;
};

/* The two programs take the same arguments in the same order. */
#define SERVE(prefix)                                                                             \
    static void prefix##_serve(void *with)                                                        \
    {                                                                                             \
        struct made *x = with;                                                                    \
        const uint32_t *g = x->call->g;                                                           \
        if (x->call->which == TO_READ)                                                            \
            x->answer =                                                                           \
                prefix##_settings_read(x->bytes, x->call->n, x->numbers, x->call->lent);          \
        else                                                                                      \
            x->answer = prefix##_settings_write(g[0], g[1], g[2], g[3], g[4], g[5], x->place,     \
                                                x->call->lent);                                   \
    }
SERVE(tf)
SERVE(ind)

static struct side *sides(void)
{
    static struct side side[SIDES];
    for (int i = 0; i < SIDES && side[i].fill == NULL; i++) {
        side[i].fill = stretch_map_shared(&side[i].stretch[BYTES], "bytes", MOST_BYTES);
        stretch_map(&side[i].stretch[NUMBERS], "numbers", MOST_LENT * sizeof(uint32_t));
        stretch_map(&side[i].stretch[PLACE], "place", MOST_LENT);
    }
    return side;
}

/* What is lent to be written holds no zero before, and neighbours differ. */
static void paint(void *at, size_t bytes)
{
    static uint8_t paint[MOST_LENT * sizeof(uint32_t)];
    for (size_t i = 0; paint[0] == 0 && i < sizeof paint; i++)
        paint[sizeof paint - 1 - i] = (uint8_t)(i % 251 + 1);
    if (bytes > 0)
        memcpy(at, paint, bytes);
}

static void *lend(const struct side *s, const struct settings_call *c, int slice, size_t bytes,
                  enum placing placing)
{
    return bytes == 0 && c->null ? NULL : stretch_slice(&s->stretch[slice], bytes, placing);
}

static struct made fill(const struct side *s, const struct settings_call *c, enum placing placing)
{
    struct made x = {.call = c};
    if (c->which == TO_READ) {
        x.bytes = lend(s, c, BYTES, c->n, placing);
        if (c->n > 0)
            memcpy(s->fill + ((const char *)x.bytes - s->stretch[BYTES].low), c->bytes, c->n);
        x.numbers = lend(s, c, NUMBERS, c->lent * sizeof *x.numbers, placing);
        paint(x.numbers, c->lent * sizeof *x.numbers);
    } else {
        x.place = lend(s, c, PLACE, c->lent, placing);
        paint(x.place, c->lent);
    }
    return x;
}

static bool say_stopped(const struct side *s, struct settings_tried *x, const char *name)
{
    char why[120];
    stop_say(why, sizeof why);
    for (int i = 0; i < LENT && stop_address() != NULL; i++)
        if (stretch_place(&s->stretch[i], stop_address(), why, sizeof why))
            break;
    snprintf(x->text, sizeof x->text, "%s: %s", name, why);
    return false;
}

static bool compare(const struct made *archive, const struct made *expected,
                    struct settings_tried *x)
{
    const struct settings_call *c = archive->call;
    const char *name = settings_name[c->which];
    if (archive->answer != expected->answer) {
        snprintf(x->text, sizeof x->text, "%s: answer %u, expected %u", name, archive->answer,
                 expected->answer);
        return false;
    }
    for (size_t i = 0; c->which == TO_READ && i < c->lent; i++)
        if (archive->numbers[i] != expected->numbers[i]) {
            snprintf(x->text, sizeof x->text, "%s: word %zu of numbers is %u, expected %u", name,
                     i, archive->numbers[i], expected->numbers[i]);
            return false;
        }
    for (size_t i = 0; c->which == TO_WRITE && i < c->lent; i++)
        if (archive->place[i] != expected->place[i]) {
            snprintf(x->text, sizeof x->text, "%s: byte %zu of place is %u, expected %u", name, i,
                     archive->place[i], expected->place[i]);
            return false;
        }
    return true;
}

/* The call alone. */
static bool one_way(const struct settings_call *c, enum placing placing, struct settings_tried *x)
{
    const struct side *side = sides();
    struct made archive = fill(&side[OF_ARCHIVE], c, placing);
    struct made expected = fill(&side[OF_INDEPENDENT], c, placing);
    x->calls++;
    ind_serve(&expected);
    if (!stop_watch(tf_serve, &archive))
        return say_stopped(&side[OF_ARCHIVE], x, settings_name[c->which]);
    if (!compare(&archive, &expected, x))
        return false;
    x->answer = expected.answer;
    if (x->answer == TF_SETTINGS_ACCEPTED && c->which == TO_READ)
        memcpy(x->numbers, archive.numbers, sizeof x->numbers);
    else if (x->answer == TF_SETTINGS_ACCEPTED)
        memcpy(x->record, archive.place, sizeof x->record);
    return true;
}

static bool other_way(const struct settings_call *c, enum placing placing,
                      struct settings_tried *x)
{
    static struct settings_call back;
    back.which = c->which == TO_READ ? TO_WRITE : TO_READ;
    back.lent = c->which == TO_READ ? RECORD_BYTES : SIX;
    back.n = RECORD_BYTES;
    memcpy(back.g, x->numbers, sizeof back.g);
    memcpy(back.bytes, x->record, RECORD_BYTES);
    if (!one_way(&back, placing, x))
        return false;
    bool same = c->which == TO_READ ? memcmp(x->record, c->bytes, RECORD_BYTES) == 0
                                    : memcmp(x->numbers, c->g, sizeof c->g) == 0;
    if (x->answer == TF_SETTINGS_ACCEPTED && same)
        return true;
    snprintf(x->text, sizeof x->text, "%s, and %s again: answer %u, %s", settings_name[c->which],
             c->which == TO_READ ? "written" : "read", x->answer,
             same ? "expected 0" : "and not the same");
    return false;
}

bool settings_agrees(const struct settings_call *c, enum placing placing,
                     struct settings_tried *x)
{
    return one_way(c, placing, x) &&
           (x->answer != TF_SETTINGS_ACCEPTED || other_way(c, placing, x));
}
