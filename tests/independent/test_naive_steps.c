/*
 * The steps read literally: see test_naive.h.  Everything is looked up afresh in
 * the lent memory, and each program requires its page to be erased.
 */
#include "test_naive.h"

#include "independent.h"

#include <string.h>

enum { DATA = 0, TRANSLATION = 1 };

static uint32_t *spare(struct world *x, uint32_t page) { return x->slice[SPARE] + 2 * page; }
static uint32_t *words(struct world *x, uint32_t page)
{
    return x->slice[CHIP] + (size_t)page * x->w;
}
static uint32_t *open_block(struct world *x, int region) { return x->slice[RECORD] + 2 * region; }
static uint32_t *offset(struct world *x, int region) { return x->slice[RECORD] + 2 * region + 1; }
static uint32_t *used(struct world *x) { return x->slice[RECORD] + 4; }

/* Adds to one of two kinds that P5's order met, by the part that an entry is in. */
static void note_part(const struct world *x, const uint32_t *entry, int if_protected,
                      int if_trial, struct tally *n)
{
    bool protected = entry < x->slice[CACHE] + 3 * x->slice[RECORD][5];
    if (ind_order == IND_SEGMENTED)
        n->order[protected ? if_protected : if_trial]++;
}

static void read_page(struct world *x, uint32_t page, uint32_t *into, struct tally *n)
{
    REQUIRE(spare(x, page)[0] == 65535);
    memcpy(into, words(x, page), x->w * sizeof(uint32_t));
    n->reads++;
    n->translation_reads += page >= x->d * x->p;
}

static uint32_t program_next(struct world *x, int region, const uint32_t *from, uint32_t owner,
                             struct tally *n)
{
    uint32_t page = *open_block(x, region) * x->p + *offset(x, region);
    REQUIRE(*offset(x, region) < x->p);
    REQUIRE(spare(x, page)[0] == NONE && spare(x, page)[1] == NONE);
    for (uint32_t i = 0; i < x->w; i++)
        REQUIRE(words(x, page)[i] == NONE);
    memcpy(words(x, page), from, x->w * sizeof(uint32_t));
    spare(x, page)[0] = 65535;
    spare(x, page)[1] = owner;
    ++*offset(x, region);
    n->programs++;
    return page;
}

static void mark_invalid(struct world *x, uint32_t page)
{
    REQUIRE(spare(x, page)[0] == 65535);
    spare(x, page)[0] = 0;
}

static void erase_block(struct world *x, uint32_t block, struct tally *n)
{
    for (uint32_t page = block * x->p; page < (block + 1) * x->p; page++) {
        REQUIRE(spare(x, page)[0] != 65535);
        spare(x, page)[0] = spare(x, page)[1] = NONE;
        for (uint32_t i = 0; i < x->w; i++)
            words(x, page)[i] = NONE;
    }
    n->erases++;
}

static uint32_t pages_in_state(struct world *x, uint32_t block, uint32_t state)
{
    uint32_t count = 0;
    for (uint32_t page = block * x->p; page < (block + 1) * x->p; page++)
        count += spare(x, page)[0] == state;
    return count;
}

static uint32_t *cached(struct world *x, uint32_t l)
{
    for (uint32_t rank = 0; rank < *used(x); rank++)
        if (x->slice[CACHE][3 * rank] == l)
            return x->slice[CACHE] + 3 * rank;
    return NULL;
}

static void make_room(struct world *x, int region, struct tally *n);

/* moved[l] is the new place of each l to set, NONE for the others. */
static void update(struct world *x, uint32_t t, const uint32_t *moved, struct tally *n)
{
    uint32_t page[512];
    make_room(x, TRANSLATION, n);
    uint32_t former = x->slice[DIRECTORY][t];
    if (former != NONE)
        read_page(x, former, page, n);
    else
        memset(page, 0xff, sizeof page);
    for (uint32_t i = 0; i < x->w && t * x->w + i < x->l; i++)
        if (moved[t * x->w + i] != NONE)
            page[i] = moved[t * x->w + i];
    uint32_t place = program_next(x, TRANSLATION, page, t, n);
    if (former != NONE)
        mark_invalid(x, former);
    x->slice[DIRECTORY][t] = place;
}

static uint32_t choose_victim(struct world *x, uint32_t first, uint32_t end)
{
    uint32_t victim = NONE;
    for (uint32_t block = first; block < end; block++) {
        if (pages_in_state(x, block, NONE) > 0)
            continue;
        if (victim == NONE || pages_in_state(x, block, 65535) < pages_in_state(x, victim, 65535))
            victim = block;
    }
    REQUIRE(victim != NONE);
    return victim;
}

static void collect(struct world *x, int region, uint32_t erased, struct tally *n)
{
    static uint32_t moved[65536];
    uint32_t page_copy[512];
    uint32_t first = region ? x->d : 0, end = region ? x->d + x->t : x->d;
    uint32_t victim = choose_victim(x, first, end);
    if (region == DATA)
        memset(moved, 0xff, x->l * sizeof(uint32_t));
    *open_block(x, region) = erased;
    *offset(x, region) = 0;
    for (uint32_t page = victim * x->p; page < (victim + 1) * x->p; page++) {
        if (spare(x, page)[0] != 65535)
            continue;
        uint32_t owner = spare(x, page)[1];
        read_page(x, page, page_copy, n);
        uint32_t place = program_next(x, region, page_copy, owner, n);
        mark_invalid(x, page);
        n->copied += region == DATA;
        uint32_t *entry = region == DATA ? cached(x, owner) : NULL;
        if (region == TRANSLATION) {
            x->slice[DIRECTORY][owner] = place;
        } else if (entry != NULL) {
            entry[1] = place;
            entry[2] = 1;
            note_part(x, entry, ORDER_MOVED_PROTECTED, ORDER_MOVED_TRIAL, n);
        } else {
            moved[owner] = place;
        }
    }
    for (uint32_t t = 0; region == DATA && t < x->m; t++) {
        bool touched = false;
        for (uint32_t l = t * x->w; l < x->l && l < (t + 1) * x->w; l++)
            touched = touched || moved[l] != NONE;
        if (touched)
            update(x, t, moved, n);
    }
    erase_block(x, victim, n);
}

static void make_room(struct world *x, int region, struct tally *n)
{
    uint32_t first = region ? x->d : 0, end = region ? x->d + x->t : x->d;
    uint32_t count = 0, lowest = NONE;
    if (*offset(x, region) < x->p)
        return;
    for (uint32_t block = end; block-- > first;)
        if (pages_in_state(x, block, NONE) == x->p) {
            count++;
            lowest = block;
        }
    REQUIRE(count >= 1);
    if (count >= 2) {
        *open_block(x, region) = lowest;
        *offset(x, region) = 0;
    } else {
        collect(x, region, lowest, n);
    }
}

/*
 * Whether the update that writes `dropped` back sets the word of l: "all changed
 * cached entries of the same translation page", or before P2 "that one entry".
 */
static bool is_set(struct world *x, uint32_t l, uint32_t dropped)
{
    if (ind_rule == IND_ONE_ENTRY)
        return l == dropped;
    return cached(x, l) != NULL && cached(x, l)[2] == 1;
}

/* What stands beside `dropped` when it is written back. */
static void note_met(struct world *x, uint32_t dropped, bool collected, bool first,
                     struct tally *n)
{
    struct tally along = {0};
    uint32_t neighbours = 0;
    for (uint32_t rank = 0; rank < *used(x); rank++) {
        const uint32_t *entry = x->slice[CACHE] + 3 * rank;
        if (entry[0] == dropped)
            continue;
        if (entry[0] / x->w != dropped / x->w) {
            n->met[MET_ELSEWHERE] += entry[2];
        } else if (entry[2] == 0) {
            n->met[MET_UNCHANGED]++;
        } else {
            bool set = is_set(x, entry[0], dropped);
            neighbours++;
            n->met[set ? MET_ALONG : MET_CHANGED]++;
            n->met[MET_AT_NONE] += set && entry[1] == NONE;
            if (set)
                note_part(x, entry, ORDER_ALONG_PROTECTED, ORDER_ALONG_TRIAL, &along);
        }
    }
    uint64_t in_protected = along.order[ORDER_ALONG_PROTECTED];
    uint64_t in_trial = along.order[ORDER_ALONG_TRIAL];
    n->order[ORDER_ALONG_PROTECTED] += in_protected;
    n->order[ORDER_ALONG_TRIAL] += in_trial;
    n->order[ORDER_ALONG_BOTH] += in_protected > 0 && in_trial > 0;
    n->met[MET_COLLECTED] += neighbours > 0 && collected;
    n->met[MET_FIRST] += neighbours > 0 && first;
}

/* Word after word of the page is set, and then entry after entry "become unchanged". */
static void write_back(struct world *x, uint32_t dropped, struct tally *n)
{
    uint32_t t = dropped / x->w, erases = n->erases;
    uint32_t page[512];
    make_room(x, TRANSLATION, n);
    uint32_t former = x->slice[DIRECTORY][t];
    memset(page, 0xff, sizeof page);
    if (former != NONE)
        read_page(x, former, page, n);
    for (uint32_t i = 0; i < x->w; i++)
        if (is_set(x, t * x->w + i, dropped))
            page[i] = cached(x, t * x->w + i)[1];
    x->slice[DIRECTORY][t] = program_next(x, TRANSLATION, page, t, n);
    if (former != NONE)
        mark_invalid(x, former);
    note_met(x, dropped, n->erases > erases, former == NONE, n);
    for (uint32_t i = 0; i < x->w; i++)
        if (is_set(x, t * x->w + i, dropped))
            cached(x, t * x->w + i)[2] = 0;
}

static void translate(struct world *x, uint32_t l, struct tally *n)
{
    uint32_t page[512];
    if (cached(x, l) != NULL) {
        naive_hit(x, l, n);
        return;
    }
    if (*used(x) == x->c) {
        uint32_t victim = naive_victim(x);
        if (cached(x, victim)[2] == 1)
            write_back(x, victim, n);
        naive_drop(x, n);
    }
    uint32_t place = NONE;
    if (x->slice[DIRECTORY][l / x->w] != NONE) {
        read_page(x, x->slice[DIRECTORY][l / x->w], page, n);
        place = page[l % x->w];
    }
    naive_enter(x, l, place, n);
}

uint32_t naive_read(struct world *x, uint32_t l, uint32_t *buffer, struct tally *n)
{
    translate(x, l, n);
    uint32_t place = cached(x, l)[1];
    if (place == NONE)
        return 1;
    read_page(x, place, buffer, n);
    return 0;
}

uint32_t naive_write(struct world *x, uint32_t l, const uint32_t *buffer, struct tally *n)
{
    translate(x, l, n);
    uint32_t former = cached(x, l)[1];
    make_room(x, DATA, n);
    uint32_t page = program_next(x, DATA, buffer, l, n);
    n->host++;
    uint32_t *entry = cached(x, l);
    n->order[ORDER_MOVED_OWN] += entry[1] != former && entry > x->slice[CACHE];
    if (entry[1] != NONE)
        mark_invalid(x, entry[1]);
    entry[1] = page;
    entry[2] = 1;
    return 0;
}
