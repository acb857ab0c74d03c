/*
 * The order of the cache read literally: see test_naive.h.  P5's two parts are
 * taken apart into two lists, an entry goes from one place to another, and they
 * are put together again.  The order before P5 is one list, 01's own words.
 */
#include "test_naive.h"

#include "independent.h"

enum { MOST = 4096, USED = 4, PROTECTED = 5 };

struct entry {
    uint32_t word[3];
};

/* The first is its front. */
struct list {
    uint32_t n;
    struct entry at[MOST + 1];
};

static struct list protected, trial;

static struct entry take(struct list *from, uint32_t i)
{
    REQUIRE(i < from->n);
    struct entry taken = from->at[i];
    for (; i + 1 < from->n; i++)
        from->at[i] = from->at[i + 1];
    from->n--;
    return taken;
}

static struct entry take_last(struct list *from)
{
    REQUIRE(from->n > 0);
    return take(from, from->n - 1);
}

static void put_in_front(struct list *of, struct entry e)
{
    REQUIRE(of->n <= MOST);
    for (uint32_t i = of->n; i > 0; i--)
        of->at[i] = of->at[i - 1];
    of->at[0] = e;
    of->n++;
}

/* The place of l in a list, or NONE. */
static uint32_t place_in(const struct list *of, uint32_t l)
{
    for (uint32_t i = 0; i < of->n; i++)
        if (of->at[i].word[0] == l)
            return i;
    return NONE;
}

/* "protected entries lie first".  Before P5 there are none: all is one list. */
static void take_apart(const struct world *x)
{
    uint32_t first = ind_order == IND_SEGMENTED ? x->slice[RECORD][PROTECTED] : 0;
    protected.n = trial.n = 0;
    for (uint32_t rank = 0; rank < x->slice[RECORD][USED]; rank++) {
        const uint32_t *words = x->slice[CACHE] + 3 * rank;
        struct list *part = rank < first ? &protected : &trial;
        part->at[part->n++] = (struct entry){{words[0], words[1], words[2]}};
    }
}

static void put_together(struct world *x)
{
    uint32_t *words = x->slice[CACHE];
    for (uint32_t i = 0; i < protected.n; i++)
        for (int k = 0; k < 3; k++)
            *words++ = protected.at[i].word[k];
    for (uint32_t i = 0; i < trial.n; i++)
        for (int k = 0; k < 3; k++)
            *words++ = trial.at[i].word[k];
    while (words < x->slice[CACHE] + x->n[CACHE])
        *words++ = NONE;
    x->slice[RECORD][USED] = protected.n + trial.n;
    if (ind_order == IND_SEGMENTED)
        x->slice[RECORD][PROTECTED] = protected.n;
}

/* 01 before P5: "A cached entry moves to the front." */
static void hit_plain(const struct world *x, uint32_t l, struct tally *n)
{
    n->order[x->slice[RECORD][PROTECTED] > 0 ? ORDER_PLAIN_BORDER : ORDER_PLAIN_HIT]++;
    put_in_front(&trial, take(&trial, place_in(&trial, l)));
}

/* "A hit in protected moves to its front." */
static void hit_protected(uint32_t place, struct tally *n)
{
    if (place == 0)
        n->order[ORDER_HIT_FIRST]++;
    else
        n->order[place + 1 == protected.n ? ORDER_HIT_LAST : ORDER_HIT_BETWEEN]++;
    put_in_front(&protected, take(&protected, place));
}

/*
 * "A hit in trial moves to the protected front; if protected is then over its
 * limit, its last goes to the trial front."
 */
static void hit_trial(uint32_t place, uint32_t limit, struct tally *n)
{
    put_in_front(&protected, take(&trial, place));
    if (protected.n > limit) {
        n->order[limit == 0 ? ORDER_HIT_LIMIT_0 : ORDER_HIT_AT]++;
        put_in_front(&trial, take_last(&protected));
    } else {
        n->order[ORDER_HIT_BELOW]++;
    }
}

void naive_hit(struct world *x, uint32_t l, struct tally *n)
{
    take_apart(x);
    if (ind_order == IND_PLAIN)
        hit_plain(x, l, n);
    else if (place_in(&protected, l) != NONE)
        hit_protected(place_in(&protected, l), n);
    else
        hit_trial(place_in(&trial, l), x->c / 2, n);
    put_together(x);
}

/* "The victim is the trial part's last." */
uint32_t naive_victim(const struct world *x)
{
    take_apart(x);
    return take_last(&trial).word[0];
}

void naive_drop(struct world *x, struct tally *n)
{
    take_apart(x);
    n->order[ORDER_DROP_BEHIND] += protected.n > 0;
    take_last(&trial);
    put_together(x);
}

/* "A miss enters at the trial front", which before P5 is the list's: "in front". */
void naive_enter(struct world *x, uint32_t l, uint32_t place, struct tally *n)
{
    take_apart(x);
    if (ind_order == IND_PLAIN)
        n->order[x->slice[RECORD][PROTECTED] > 0 ? ORDER_PLAIN_BORDER : ORDER_PLAIN_MISS]++;
    else if (protected.n == 0)
        n->order[ORDER_MISS_FOREMOST]++;
    else
        n->order[trial.n > 0 ? ORDER_MISS_BETWEEN : ORDER_MISS_LAST]++;
    put_in_front(&trial, (struct entry){{l, place, 0}});
    put_together(x);
}
