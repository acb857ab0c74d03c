/*
 * The steps on pages and blocks: update a translation page, make room, collect,
 * read and write.  They start from a sound state, so every page number they meet
 * is in range and every region has room; they keep the summary as they go.
 */
#include "ind_internal.h"

#include "independent.h"

#include <string.h>

/* A new place for word `index` of translation page `t`. */
struct move {
    uint32_t t, index, place;
};

/* Programs the open block's next page, whose words the caller fills. */
static uint32_t program(struct ind_work *k, int region, uint32_t owner)
{
    uint32_t open = k->record[IND_OPEN(region)];
    uint32_t page = open * k->g.p + k->record[IND_NEXT(region)]++;
    k->spare[2 * (size_t)page] = IND_VALID;
    k->spare[2 * (size_t)page + 1] = owner;
    k->s.valid[open]++;
    k->programs++;
    ind_translation_programs += region == IND_TRANSLATION;
    return page;
}

/* The owner stays.  "Marking a page invalid isn't counted." */
static void mark_invalid(struct ind_work *k, uint32_t page)
{
    k->spare[2 * (size_t)page] = IND_INVALID;
    k->s.valid[page / k->g.p]--;
}

static void erase(struct ind_work *k, int region, uint32_t block)
{
    size_t pages = k->g.p;
    memset(k->chip + block * pages * k->g.w, 0xff, pages * ind_page_bytes(k));
    memset(k->spare + block * pages * 2, 0xff, pages * 2 * sizeof *k->spare);
    k->s.valid[block] = IND_FREE;
    k->s.free_blocks[region]++;
    k->erases++;
}

/* Opens the lowest erased block; a sound state has one besides the open one. */
static void open_lowest(struct ind_work *k, int region)
{
    uint32_t first = ind_first_block(&k->g, region);
    uint32_t count = ind_end_block(&k->g, region) - first;
    const uint8_t *found = memchr(k->s.valid + first, IND_FREE, count);
    uint32_t block = (uint32_t)(found - k->s.valid);
    k->s.valid[block] = 0;
    k->s.free_blocks[region]--;
    k->record[IND_OPEN(region)] = block;
    k->record[IND_NEXT(region)] = 0;
}

/*
 * "if the open block's offset is below P, nothing.  Else, if two or more blocks
 * are wholly erased, open the lowest."  False where neither holds: "Else
 * collect."  A full open block isn't erased, so the free blocks are all of them.
 */
static bool room_without_collecting(struct ind_work *k, int region)
{
    if (k->record[IND_NEXT(region)] < k->g.p)
        return true;
    if (k->s.free_blocks[region] < 2)
        return false;
    open_lowest(k, region);
    return true;
}

/*
 * "the victim is the block with no erased page that has the fewest valid pages,
 * lowest number on a tie.  The one erased block becomes the open one."  The open
 * block is full here, so only the erased one has erased pages, and IND_FREE is
 * above any number of valid pages.
 */
static uint32_t begin_collection(struct ind_work *k, int region)
{
    uint32_t victim = ind_first_block(&k->g, region);
    uint32_t end = ind_end_block(&k->g, region);
    for (uint32_t block = victim + 1; block < end; block++)
        if (k->s.valid[block] < k->s.valid[victim])
            victim = block;
    open_lowest(k, region);
    return victim;
}

/*
 * "In page order each valid page is read, programmed with the same owner, and
 * the old one marked invalid."  The new place of page i of the victim goes to
 * moved_to[i], *none* if it wasn't valid.
 */
static void copy_valid_pages(struct ind_work *k, int region, uint32_t victim,
                             uint32_t moved_to[IND_MAX_P])
{
    uint32_t first = victim * k->g.p;
    for (uint32_t i = 0; i < k->g.p; i++) {
        const uint32_t *spare = k->spare + 2 * (size_t)(first + i);
        moved_to[i] = IND_NONE;
        if (spare[0] != IND_VALID)
            continue;
        k->reads++;
        ind_translation_reads += region == IND_TRANSLATION;
        moved_to[i] = program(k, region, spare[1]);
        memcpy(ind_page_words(k, moved_to[i]), ind_page_words(k, first + i), ind_page_bytes(k));
        mark_invalid(k, first + i);
    }
}

/* "Translation region: the directory follows at once." */
static void collect_translation(struct ind_work *k)
{
    uint32_t moved_to[IND_MAX_P];
    uint32_t victim = begin_collection(k, IND_TRANSLATION);
    uint32_t first = victim * k->g.p;
    copy_valid_pages(k, IND_TRANSLATION, victim, moved_to);
    for (uint32_t i = 0; i < k->g.p; i++)
        if (moved_to[i] != IND_NONE)
            k->directory[k->spare[2 * (size_t)(first + i) + 1]] = moved_to[i];
    erase(k, IND_TRANSLATION, victim);
}

/*
 * Room is made first, since that may move the page the directory names.  A page
 * that begins "with W times *none*" is one still erased.
 */
uint32_t *ind_update(struct ind_work *k, uint32_t t)
{
    if (!room_without_collecting(k, IND_TRANSLATION))
        collect_translation(k);
    uint32_t former = k->directory[t];
    uint32_t page = program(k, IND_TRANSLATION, t);
    uint32_t *words = ind_page_words(k, page);
    if (former != IND_NONE) {
        k->reads++;
        ind_translation_reads++;
        memcpy(words, ind_page_words(k, former), ind_page_bytes(k));
        mark_invalid(k, former);
    }
    k->directory[t] = page;
    return words;
}

/*
 * "if the owner is cached, its entry takes the new place and is changed, with
 * its rank kept; the others wait".  By rule 6 an entry that names a page of the
 * victim names the valid page of its own logical page, so one pass over the
 * cache finds them all.  What is left in moved_to waits.
 */
static void follow_in_cache(struct ind_work *k, uint32_t first, uint32_t moved_to[IND_MAX_P])
{
    uint32_t *end = k->cache + (size_t)k->record[IND_USED] * 3;
    for (uint32_t *entry = k->cache; entry < end; entry += 3) {
        uint32_t i = entry[1] - first; /* wraps, and so is P or more, if not in the victim */
        if (i >= k->g.p)
            continue;
        entry[1] = moved_to[i];
        entry[2] = 1;
        moved_to[i] = IND_NONE;
    }
}

/*
 * "after the last copy each touched translation page, in rising number, is
 * updated once with all its moved entries."  The moves are sorted by translation
 * page as they are gathered.
 */
static void follow_in_flash(struct ind_work *k, uint32_t first, const uint32_t moved_to[IND_MAX_P])
{
    struct move moves[IND_MAX_P];
    uint32_t n = 0;
    for (uint32_t i = 0; i < k->g.p; i++) {
        if (moved_to[i] == IND_NONE)
            continue;
        uint32_t owner = k->spare[2 * (size_t)(first + i) + 1];
        struct move move = {owner / k->g.w, owner % k->g.w, moved_to[i]};
        uint32_t at = n++;
        for (; at > 0 && moves[at - 1].t > move.t; at--)
            moves[at] = moves[at - 1];
        moves[at] = move;
    }
    for (uint32_t i = 0; i < n;) {
        uint32_t t = moves[i].t;
        uint32_t *words = ind_update(k, t);
        for (; i < n && moves[i].t == t; i++)
            words[moves[i].index] = moves[i].place;
    }
}

static void collect_data(struct ind_work *k)
{
    uint32_t moved_to[IND_MAX_P];
    uint32_t victim = begin_collection(k, IND_DATA);
    if (k->s.valid[victim] > 0) {
        copy_valid_pages(k, IND_DATA, victim, moved_to);
        follow_in_cache(k, victim * k->g.p, moved_to);
        follow_in_flash(k, victim * k->g.p, moved_to);
    }
    erase(k, IND_DATA, victim);
}

/* "translate; *none* answers UNWRITTEN; else read the page." */
uint32_t ind_step_read(struct ind_work *k, uint32_t l, uint32_t *buffer)
{
    const uint32_t *entry = ind_translate(k, l);
    if (entry[1] == IND_NONE)
        return IND_UNWRITTEN;
    k->reads++;
    memcpy(buffer, ind_page_words(k, entry[1]), ind_page_bytes(k));
    return IND_DONE;
}

/*
 * "mark invalid the page that the cached entry names now": after room is made,
 * since a collection may have moved it.  The entry itself stays where it is, as
 * a collection keeps ranks.
 */
uint32_t ind_step_write(struct ind_work *k, uint32_t l, const uint32_t *buffer)
{
    uint32_t *entry = ind_translate(k, l);
    if (!room_without_collecting(k, IND_DATA))
        collect_data(k);
    uint32_t page = program(k, IND_DATA, l);
    memcpy(ind_page_words(k, page), buffer, ind_page_bytes(k));
    if (entry[1] != IND_NONE)
        mark_invalid(k, entry[1]);
    entry[1] = page;
    entry[2] = 1;
    return IND_DONE;
}
