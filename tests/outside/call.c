/* Calls as data: see call.h. */
#include "call.h"

#include "independent.h"
#include "stop.h"
#include "trianglefire.h"

const char *const call_name[CALLS] = {"format", "check", "read", "write", "run"};

bool call_takes(int which, int slice)
{
    if (slice < SLICES || slice == COUNTS)
        return true;
    return slice == BUFFER ? which == READ || which == WRITE : which == RUN;
}

bool call_shares(int which, int slice)
{
    if (slice < SLICES)
        return which == CHECK;
    return (slice == BUFFER && which == WRITE) || (slice == REQUESTS && which == RUN);
}

/* The two programs take the same arguments in the same order. */
#define SERVE(prefix)                                                                      \
    static uint32_t prefix##_serve(const struct call *c, uint32_t *const s[ALL])           \
    {                                                                                      \
        switch (c->which) {                                                                \
        case FORMAT: return prefix##_format(SIX, FIVE, SLICE(COUNTS));                     \
        case CHECK: return prefix##_check(SIX, FIVE, SLICE(COUNTS));                       \
        case READ: return prefix##_read(SIX, c->page, FIVE, SLICE(BUFFER), SLICE(COUNTS)); \
        case WRITE:                                                                        \
            return prefix##_write(SIX, c->page, FIVE, SLICE(BUFFER), SLICE(COUNTS));       \
        default:                                                                           \
            return prefix##_run(SIX, FIVE, SLICE(REQUESTS), SLICE(DATA), SLICE(ANSWERS),   \
                                SLICE(COUNTS));                                            \
        }                                                                                  \
    }
#define SIX c->g[0], c->g[1], c->g[2], c->g[3], c->g[4], c->g[5]
#define SLICE(i) s[i], c->n[i]
#define FIVE SLICE(CHIP), SLICE(SPARE), SLICE(DIRECTORY), SLICE(CACHE), SLICE(RECORD)
SERVE(tf)
SERVE(ind)

static void slices_of(const struct call *c, const struct lent *x, uint32_t *s[ALL])
{
    for (int i = 0; i < ALL; i++)
        s[i] = c->n[i] == 0 && c->null ? NULL : lent_slice(x, i, c->n[i]);
}

static void protect_shared(const struct call *c, const struct lent *x, bool read_only)
{
    for (int i = 0; i < ALL; i++)
        if (call_shares(c->which, i) && c->n[i] > 0)
            lent_protect(x, i, c->n[i], read_only);
}

uint32_t call_independent(const struct call *c, const struct lent *x)
{
    uint32_t *s[ALL];
    slices_of(c, x, s);
    return ind_serve(c, s);
}

/* A call of the archive, as it is made under watch. */
struct watched {
    const struct call *call;
    uint32_t *const *slices;
    uint32_t reply;
};

static void serve_watched(void *with)
{
    struct watched *x = with;
    x->reply = tf_serve(x->call, x->slices);
}

bool call_archive(const struct call *c, const struct lent *x, bool read_only, uint32_t *reply,
                  char *text, size_t size)
{
    uint32_t *s[ALL];
    struct watched made = {c, s, 0};
    slices_of(c, x, s);
    if (read_only)
        protect_shared(c, x, true);
    bool returned = stop_watch(serve_watched, &made);
    if (returned)
        *reply = made.reply;
    else if (stop_address() == NULL || !lent_place(x, stop_address(), text, size))
        stop_say(text, size);
    if (read_only)
        protect_shared(c, x, false);
    return returned;
}
