/* Plays a session on both sides: see play.h. */
#include "play.h"

#include "fill.h"
#include "independent.h"

#include <stdio.h>
#include <string.h>

static struct lent *sides(void)
{
    static struct lent lent[2];
    static bool mapped;
    if (!mapped) {
        lent_map(&lent[OF_ARCHIVE]);
        lent_map(&lent[OF_INDEPENDENT]);
        mapped = true;
    }
    return lent;
}

const uint32_t *play_slice(const struct play *p, int side, int slice)
{
    return lent_slice(&sides()[side], slice, p->call.n[slice]);
}

/* Compares n words of a slice and says where the first difference is. */
static bool same(struct play *p, int slice, size_t n)
{
    const uint32_t *archive = lent_slice(&sides()[OF_ARCHIVE], slice, n);
    const uint32_t *expected = lent_slice(&sides()[OF_INDEPENDENT], slice, n);
    if (n == 0 || memcmp(archive, expected, n * sizeof *archive) == 0)
        return true;
    size_t i = 0;
    while (archive[i] == expected[i])
        i++;
    snprintf(p->text, sizeof p->text, "%s: word %zu of %s is %u, expected %u",
             call_name[p->call.which], i, slice_name[slice], archive[i], expected[i]);
    return false;
}

static size_t most(size_t a, size_t b)
{
    return a > b ? a : b;
}

bool play_compare_state(struct play *p)
{
    for (int i = 0; i < SLICES; i++)
        if (!same(p, i, most(p->state[OF_ARCHIVE].n[i], p->call.n[i])))
            return false;
    return true;
}

static bool compare(struct play *p, uint32_t reply, bool whole)
{
    if (reply != p->reply) {
        snprintf(p->text, sizeof p->text, "%s: reply %u, expected %u", call_name[p->call.which],
                 reply, p->reply);
        return false;
    }
    for (int i = SLICES; i < ALL; i++)
        if (call_takes(p->call.which, i) && !same(p, i, p->call.n[i]))
            return false;
    return !whole || play_compare_state(p);
}

/* Makes the call of p on both sides. */
static bool serve(struct play *p, bool whole)
{
    const struct lent *lent = sides();
    uint32_t reply = 0;
    p->called = true;
    p->reply = call_independent(&p->call, &lent[OF_INDEPENDENT]);
    char why[120];
    if (!call_archive(&p->call, &lent[OF_ARCHIVE], p->session->read_only, &reply, why,
                      sizeof why)) {
        snprintf(p->text, sizeof p->text, "%s: %s", call_name[p->call.which], why);
        return false;
    }
    return compare(p, reply, whole);
}

/* What the independent program says of the state as the call would have it. */
static uint32_t checked(const struct call *call)
{
    struct call c = *call;
    c.which = CHECK;
    return call_independent(&c, &sides()[OF_INDEPENDENT]);
}

/* A view of one side's five slices as a world of the session's geometry. */
static struct world view(const struct lent *x, const uint32_t g[6])
{
    uint32_t m = (uint32_t)(((uint64_t)g[4] + g[1] - 1) / g[1]);
    struct world y = {g[0], g[1], g[2], g[3], g[4], g[5], m, {0}, {0}};
    size_t pages = (size_t)(g[2] + g[3]) * g[0];
    const size_t n[SLICES] = {pages * g[1], pages * 2, m, (size_t)g[5] * 3, RECORD_WORDS};
    for (int i = 0; i < SLICES; i++) {
        y.n[i] = n[i];
        y.slice[i] = lent_slice(x, i, n[i]);
    }
    return y;
}

bool play_start(struct play *p, const struct session *s)
{
    struct lent *lent = sides();
    const struct step format = {FORMAT, 0, s->seed, NULL};
    uint64_t seed = s->seed;
    *p = (struct play){.session = s, .broken = -1};
    for (int side = 0; side < 2; side++) {
        lent[side].placing = s->placing;
        p->state[side] = view(&lent[side], s->g);
    }
    if (s->start == SOUND)
        world_random_sound(&p->state[OF_ARCHIVE], &seed);
    else
        fill_any_words(&p->state[OF_ARCHIVE], &seed);
    world_assign(&p->state[OF_INDEPENDENT], &p->state[OF_ARCHIVE]);
    return s->start != FORMATTED || play_step(p, &format, true);
}

/* A refused state's words are put back: the session goes on from a sound one. */
static bool changed_word(struct play *p, const struct step *step, bool whole)
{
    p->changes = fill_changes(&p->state[OF_ARCHIVE], step);
    for (int side = 0; side < 2; side++)
        changes_set(&p->changes, &p->state[side], p->changes.to);
    fill_call(&p->call, p->state, sides(), step);
    if (!serve(p, whole))
        return false;
    if (p->reply != DAMAGED)
        return true;
    if (step->seed % 16 == 0 || changes_protected(&p->changes, &p->state[OF_INDEPENDENT]))
        p->broken = ind_first_broken_rule(GEOMETRY_OF(&p->state[OF_ARCHIVE]),
                                          STATE_OF(&p->state[OF_ARCHIVE]), NULL);
    for (int side = 0; side < 2; side++)
        changes_set(&p->changes, &p->state[side], p->changes.from);
    return true;
}

/* On a sound state only: what a rule binds is followed to find what may be changed. */
static void change_soundly(struct play *p, const struct step *step)
{
    fill_call(&p->call, p->state, sides(), &(struct step){CHECK, 0, step->seed, NULL});
    if (checked(&p->call) != DONE)
        return;
    for (int side = 0; side < 2; side++)
        if (step->kind == EMPTIED)
            p->emptied = fill_emptied(&p->state[side], step->seed);
        else
            world_make_odd(&p->state[side], &(uint64_t){step->seed});
}

bool play_step(struct play *p, const struct step *step, bool whole)
{
    p->called = p->emptied = false;
    p->broken = -1;
    if (step->kind == ODD_WORDS || step->kind == EMPTIED) {
        change_soundly(p, step);
        return true;
    }
    if (step->kind == CHANGED_WORD)
        return changed_word(p, step, whole);
    fill_call(&p->call, p->state, sides(), step);
    if (step->kind == OTHER_GEOMETRY) {
        /* Where this geometry serves too, only look: the state would be lost for the session's. */
        uint32_t reply = checked(&p->call);
        if (reply == DONE || (reply == DAMAGED && p->call.which == FORMAT))
            p->call.which = CHECK;
    }
    return serve(p, whole);
}
