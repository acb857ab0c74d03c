/* What the sessions met: see coverage.h. */
#include "coverage.h"

#include "tell.h"

#include <inttypes.h>
#include <stdio.h>

static const char *const corner_name[CORNERS] = {
    "P = 1", "W = 1", "D = 2", "T = 2", "L largest", "M largest", "C = 1", "C = 2", "C = 3",
    "C > L", "L no multiple of W"};

/* The data region as it stands: its open block, the offset, and how many others are erased. */
static void look_at_region(struct coverage *v, const struct world *x)
{
    v->open = x->slice[RECORD][0];
    v->offset = x->slice[RECORD][1];
    v->erased = 0;
    for (uint32_t block = 0; block < x->d; block++)
        v->erased += block != v->open && x->slice[SPARE][(size_t)block * x->p * 2] == NONE;
}

void coverage_start(struct coverage *v, const struct play *p)
{
    const struct world *x = &p->state[OF_ARCHIVE];
    const bool met[CORNERS] = {
        [ONE_PAGE] = x->p == 1,
        [ONE_WORD] = x->w == 1,
        [TWO_DATA] = x->d == 2,
        [TWO_TRANSLATION] = x->t == 2,
        [LARGEST_L] = x->l == (x->d - 1) * x->p - 1,
        [LARGEST_M] = x->m == (x->t - 1) * x->p - 1,
        [ONE_ENTRY] = x->c == 1,
        [TWO_ENTRIES] = x->c == 2,
        [THREE_ENTRIES] = x->c == 3,
        [MORE_ENTRIES] = x->c > x->l,
        [NO_MULTIPLE] = x->l % x->w != 0,
    };
    for (int i = 0; i < CORNERS; i++)
        v->corners[i] += met[i];
    v->sessions++;
    look_at_region(v, x);
    replacement_start(&v->replacement);
}

/*
 * A collection of the data region opens another block and erases one, so that
 * as many are erased as before; every other erase of a request is one of the
 * translation region.
 */
static void count_collections(struct coverage *v, const struct play *p, const struct step *step)
{
    const struct world *x = &p->state[OF_ARCHIVE];
    uint32_t open = v->open, erased = v->erased, offset = v->offset;
    look_at_region(v, x);
    if (p->reply > UNWRITTEN)
        return;
    if (step->kind == WRITE || step->kind == READ) {
        bool collected = step->kind == WRITE && v->open != open && v->erased == erased;
        v->full_offset += step->kind == WRITE && offset == x->p;
        v->collections[0] += collected;
        v->collections[1] += play_slice(p, OF_ARCHIVE, COUNTS)[2] - collected;
    }
    if (step->kind == RUN)
        v->erases += play_slice(p, OF_ARCHIVE, COUNTS)[2];
}

static bool has_empty_slice(const struct call *c)
{
    for (int i = 0; i < ALL; i++)
        if (call_takes(c->which, i) && c->n[i] == 0)
            return true;
    return false;
}

void coverage_before(struct coverage *v, const struct play *p, const struct step *step)
{
    neighbours_before(&v->neighbours, p, step);
    replacement_before(&v->replacement, p, step);
}

void coverage_step(struct coverage *v, const struct play *p, const struct step *step)
{
    if (!p->called) {
        v->odd += step->kind == ODD_WORDS;
        v->emptied += p->emptied;
        look_at_region(v, &p->state[OF_ARCHIVE]);
        return;
    }
    v->calls++;
    v->null += p->call.null && has_empty_slice(&p->call);
    v->replies[p->call.which][p->reply]++;
    if (p->call.which == RUN && p->reply == DONE) {
        v->records += p->call.n[ANSWERS];
        for (size_t i = 0; i < p->call.n[ANSWERS]; i++)
            v->answers[play_slice(p, OF_ARCHIVE, ANSWERS)[i]]++;
    }
    if (step->kind == OTHER_LENGTH && p->reply == LENGTH)
        v->wrong_length[p->call.wrong]++;
    if (p->broken > 0)
        v->broken[p->broken]++;
    v->still_sound += step->kind == CHANGED_WORD && p->reply == DONE && p->call.which != FORMAT;
    count_collections(v, p, step);
    neighbours_after(&v->neighbours, p, step);
    replacement_after(&v->replacement, p, step);
}

static const char *const reply_name[REPLIES] = {"DONE",    "UNWRITTEN", "GEOMETRY", "LENGTH",
                                                "DAMAGED", "KIND",      "PAGE"};
static const char *const rule_name[RULES + 1] = {"", "1", "2", "3", "4", "5", "6", "7"};

void coverage_print(const struct coverage *v)
{
    printf("met: %" PRIu64 " sessions, %" PRIu64 " calls compared, %" PRIu64
           " records of runs; collections %" PRIu64 " data, %" PRIu64
           " translation, and %" PRIu64 " erases in runs\n",
           v->sessions, v->calls, v->records, v->collections[0], v->collections[1], v->erases);
    for (int which = 0; which < CALLS; which++)
        tell_row(call_name[which], reply_name, v->replies[which], 0, REPLIES);
    tell_row("records", reply_name, v->answers, 0, REPLIES);
    tell_row("wrong length of", slice_name, v->wrong_length, 0, ALL);
    tell_row("first rule broken", rule_name, v->broken, 1, RULES + 1);
    tell_row("sessions with", corner_name, v->corners, 0, CORNERS);
    printf("  changed words that left a sound state %" PRIu64 ", odd words %" PRIu64
           ", entries emptied %" PRIu64
           "; writes that found the open block at offset P %" PRIu64
           "; calls with NULL, 0 %" PRIu64 "\n",
           v->still_sound, v->odd, v->emptied, v->full_offset, v->null);
    neighbours_print(&v->neighbours);
    replacement_print(&v->replacement);
}

bool coverage_whole(const struct coverage *v)
{
    /* The replies that 01's table gives to each call, and to a record. */
    static const int replies[CALLS + 1][REPLIES] = {
        [FORMAT] = {[DONE] = 1, [GEOMETRY] = 1, [LENGTH] = 1},
        [CHECK] = {[DONE] = 1, [GEOMETRY] = 1, [LENGTH] = 1, [DAMAGED] = 1},
        [READ] = {1, 1, 1, 1, 1, 0, 1},
        [WRITE] = {[DONE] = 1, [GEOMETRY] = 1, [LENGTH] = 1, [DAMAGED] = 1, [PAGE] = 1},
        [RUN] = {[DONE] = 1, [GEOMETRY] = 1, [LENGTH] = 1, [DAMAGED] = 1},
        [CALLS] = {[DONE] = 1, [UNWRITTEN] = 1, [KIND] = 1, [PAGE] = 1},
    };
    bool whole = true;
    for (int reply = 0; reply < REPLIES; reply++) {
        for (int which = 0; which < CALLS; which++)
            if (replies[which][reply])
                whole &= tell_met(call_name[which], reply_name[reply], v->replies[which][reply]);
        if (replies[CALLS][reply])
            whole &= tell_met("a record", reply_name[reply], v->answers[reply]);
    }
    for (int i = 0; i < ALL; i++)
        whole &= tell_met("a wrong length of", slice_name[i], v->wrong_length[i]);
    for (int i = 1; i <= RULES; i++)
        whole &= tell_met("a state that first breaks rule", rule_name[i], v->broken[i]);
    for (int i = 0; i < CORNERS; i++)
        whole &= tell_met("a geometry with", corner_name[i], v->corners[i]);
    whole &= tell_met("a collection of", "data", v->collections[0]);
    whole &= tell_met("a collection of", "translation", v->collections[1]);
    whole &= tell_met("a changed word that leaves", "a sound state", v->still_sound);
    whole &= tell_met("words changed that", "no rule binds", v->odd);
    whole &= tell_met("an entry set to", "none", v->emptied);
    whole &= tell_met("an empty slice as", "NULL, 0", v->null);
    whole &= tell_met("a write at", "offset P", v->full_offset);
    whole &= neighbours_whole(&v->neighbours);
    return whole & replacement_whole(&v->replacement);
}
