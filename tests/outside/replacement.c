/* What the sessions met of P5: see replacement.h. */
#include "replacement.h"

#include "fill.h"
#include "tell.h"

#include <string.h>

static const char *const size_name[SIZES] = {"C = 1", "C = 2", "C = 3", "C > 3"};

static const char *const name[REPLACED] = {
    "misses, none protected", "with a drop, none protected", "misses behind protected entries",
    "with a drop behind protected entries", "hits in trial below the limit",
    "hits in trial at the limit", "hits of protected's first", "hits between",
    "hits of protected's last", "protected neighbours written back", "neighbours in both parts",
    "demoted entries dropped", "demoted entries hit", "moved pages of protected entries",
    "moved pages of entries in trial"};

static const char *const number_name[NUMBERS] = {
    "over C/2", "over the used", "4294967295", "C/2, sound", "the used, sound"};

/* The fewest entries with which each can be met. */
static const uint32_t least_entries[REPLACED] = {
    [MISS] = 1,           [MISS_DROP] = 1,       [MISS_BEHIND] = 2,     [MISS_BEHIND_DROP] = 2,
    [TRIAL_BELOW] = 2,    [TRIAL_AT] = 1,        [PROTECTED_FIRST] = 2, [PROTECTED_BETWEEN] = 6,
    [PROTECTED_LAST] = 4, [OTHER_PROTECTED] = 2, [OTHERS_IN_BOTH] = 3,  [DEMOTED_DROPPED] = 2,
    [DEMOTED_HIT] = 2,    [MOVED_PROTECTED] = 2, [MOVED_TRIAL] = 2};

static uint32_t bit(int which, bool met)
{
    return (uint32_t)met << which;
}

static bool is_request(const struct step *step)
{
    return step->kind == READ || step->kind == WRITE;
}

/* The neighbours of the last entry, if its drop writes it back, by the part that they are in. */
static uint32_t written_back(const struct world *x, uint32_t protected)
{
    const uint32_t *cache = x->slice[CACHE], *last = cache + (size_t)(x->c - 1) * 3;
    bool in[2] = {false, false};
    for (uint32_t rank = 0; last[2] == 1 && rank < x->c - 1; rank++) {
        const uint32_t *entry = cache + (size_t)rank * 3;
        in[rank >= protected] |= entry[2] == 1 && entry[0] / x->w == last[0] / x->w;
    }
    return bit(OTHER_PROTECTED, in[0]) | bit(OTHERS_IN_BOTH, in[0] && in[1]);
}

static uint32_t missed(struct replacement *r, const struct world *x, uint32_t protected)
{
    const uint32_t *last = x->slice[CACHE] + (size_t)(x->c - 1) * 3;
    bool behind = protected > 0;
    if (x->slice[RECORD][USED] < x->c)
        return bit(behind ? MISS_BEHIND : MISS, true);
    uint32_t bits = bit(DEMOTED_DROPPED, last[0] == r->demoted);
    if (last[0] == r->demoted)
        r->demoted = NONE;
    return bits | bit(behind ? MISS_BEHIND_DROP : MISS_DROP, true) | written_back(x, protected);
}

/* At the limit, where there is one, protected's last goes to the trial front. */
static uint32_t hit(struct replacement *r, const struct world *x, uint32_t protected, uint32_t rank)
{
    const uint32_t *cache = x->slice[CACHE];
    if (rank < protected)
        return bit(PROTECTED_FIRST, rank == 0) |
               bit(PROTECTED_BETWEEN, rank > 0 && rank < protected - 1) |
               bit(PROTECTED_LAST, rank > 0 && rank == protected - 1);
    uint32_t bits = bit(DEMOTED_HIT, cache[(size_t)rank * 3] == r->demoted);
    if (bits != 0)
        r->demoted = NONE;
    if (protected < x->c / 2)
        return bits | bit(TRIAL_BELOW, true);
    if (protected > 0)
        r->demoted = cache[(size_t)(protected - 1) * 3];
    return bits | bit(TRIAL_AT, true);
}

void replacement_start(struct replacement *r)
{
    r->demoted = NONE;
}

/* The words may be any: a state that is not sound is refused, and then nothing of this counts. */
void replacement_before(struct replacement *r, const struct play *p, const struct step *step)
{
    const struct world *x = &p->state[OF_INDEPENDENT];
    uint32_t used = x->slice[RECORD][USED], protected = x->slice[RECORD][PROTECTED], rank = 0;
    r->bits = 0;
    if (!is_request(step)) {
        r->demoted = NONE; /* where it is after other steps isn't followed */
        return;
    }
    if (used > x->c || protected > used || step->at >= x->l)
        return;
    memcpy(r->entries, x->slice[CACHE], (size_t)used * 3 * sizeof *r->entries);
    r->entries[(size_t)used * 3] = NONE;
    while (rank < used && x->slice[CACHE][(size_t)rank * 3] != step->at)
        rank++;
    r->bits = rank == used ? missed(r, x, protected) : hit(r, x, protected, rank);
}

/*
 * An entry other than the request's own stands where it stood or one further
 * back; if it names another page now, a collection moved that.
 */
static uint32_t moved(const struct replacement *r, const struct play *p)
{
    const struct world *x = &p->state[OF_INDEPENDENT];
    const uint32_t *record = x->slice[RECORD];
    uint32_t bits = 0;
    for (uint32_t rank = 0; rank < record[USED]; rank++) {
        const uint32_t *entry = x->slice[CACHE] + (size_t)rank * 3, *was = r->entries + 3 * rank;
        if (entry[0] == p->call.page)
            continue;
        if (was[0] != entry[0])
            was -= 3;
        bits |= bit(rank < record[PROTECTED] ? MOVED_PROTECTED : MOVED_TRIAL, was[1] != entry[1]);
    }
    return bits;
}

static void count_number(struct replacement *r, const struct play *p)
{
    const struct world *x = &p->state[OF_INDEPENDENT];
    uint32_t used = x->slice[RECORD][USED], limit = x->c / 2, to = p->changes.to[0];
    if (!changes_protected(&p->changes, x) || to == p->changes.from[0])
        return;
    bool broken = p->broken == 5, sound = p->reply != DAMAGED;
    r->numbers[OVER_LIMIT] += broken && to > limit && to <= used;
    r->numbers[OVER_USED] += broken && to > used && to <= limit;
    r->numbers[OVER_ALL] += broken && to == NONE;
    r->numbers[AT_LIMIT] += sound && to == limit;
    r->numbers[AT_USED] += sound && to == used;
}

void replacement_after(struct replacement *r, const struct play *p, const struct step *step)
{
    const uint32_t c = p->state[OF_INDEPENDENT].c;
    size_t n = p->call.n[RECORD];
    if (step->kind == CHANGED_WORD)
        count_number(r, p);
    if (step->kind == OTHER_LENGTH && p->call.wrong == RECORD && (n == 5 || n == 7))
        r->lengths[n == 7][p->call.which] += p->reply == LENGTH;
    if (!is_request(step) || p->reply > UNWRITTEN)
        return;
    r->bits |= moved(r, p);
    for (int i = 0; i < REPLACED; i++)
        r->met[c > 3 ? OF_MORE : c - 1][i] += r->bits >> i & 1;
}

void replacement_print_size(const struct replacement *r, int size)
{
    tell_row(size_name[size], name, r->met[size], 0, REPLACED);
}

void replacement_print(const struct replacement *r)
{
    for (int size = 0; size < SIZES; size++)
        replacement_print_size(r, size);
    tell_row("protected entries changed to", number_name, r->numbers, 0, NUMBERS);
    tell_row("a record of five words refused by", call_name, r->lengths[0], 0, CALLS);
    tell_row("a record of seven words refused by", call_name, r->lengths[1], 0, CALLS);
}

bool replacement_whole_size(const struct replacement *r, int size, int from)
{
    bool whole = true;
    for (int i = from; i < REPLACED; i++)
        if (size == OF_MORE || least_entries[i] <= (uint32_t)size + 1)
            whole &= tell_met(size_name[size], name[i], r->met[size][i]);
    return whole;
}

bool replacement_whole(const struct replacement *r)
{
    bool whole = true;
    for (int size = 0; size < SIZES; size++)
        whole &= replacement_whole_size(r, size, MISS);
    for (int i = 0; i < NUMBERS; i++)
        whole &= tell_met("protected entries changed to", number_name[i], r->numbers[i]);
    for (int which = 0; which < CALLS; which++) {
        whole &= tell_met("a record of five words in", call_name[which], r->lengths[0][which]);
        whole &= tell_met("a record of seven words in", call_name[which], r->lengths[1][which]);
    }
    return whole;
}
