/*
 * For tests: the seven rules of a sound state one by one, in number order, with
 * the place where the first one fails.  Each rule may rely on those before it.
 */
#include "independent.h"

#include "ind_internal.h"

struct rules {
    struct ind_geometry g;
    struct ind_view v;
    uint32_t page_of[IND_REGIONS][IND_MAX_PAGES]; /* the valid page of each owner, or none */
    uint32_t rank_of[IND_MAX_PAGES];              /* the rank of each cached page, or none */
    uint32_t where;
};

static bool fails_at(struct rules *r, uint32_t where)
{
    r->where = where;
    return false;
}

static uint32_t state(const struct rules *r, uint32_t page)
{
    return r->v.spare[2 * (size_t)page];
}

static uint32_t owner(const struct rules *r, uint32_t page)
{
    return r->v.spare[2 * (size_t)page + 1];
}

static const uint32_t *words(const struct rules *r, uint32_t page)
{
    return r->v.chip + (size_t)page * r->g.w;
}

static int region_of_page(const struct rules *r, uint32_t page)
{
    return page < r->g.d * r->g.p ? IND_DATA : IND_TRANSLATION;
}

static bool page_is_clean(const struct rules *r, uint32_t page)
{
    if (owner(r, page) != IND_NONE)
        return false;
    for (uint32_t i = 0; i < r->g.w; i++)
        if (words(r, page)[i] != IND_ERASED)
            return false;
    return true;
}

static bool rule_1(struct rules *r)
{
    for (uint32_t page = 0; page < (r->g.d + r->g.t) * r->g.p; page++) {
        uint32_t owners = region_of_page(r, page) == IND_DATA ? r->g.l : r->g.m;
        bool fits;
        if (state(r, page) == IND_ERASED)
            fits = page_is_clean(r, page);
        else
            fits = (state(r, page) == IND_VALID || state(r, page) == IND_INVALID) &&
                   owner(r, page) < owners;
        if (!fits)
            return fails_at(r, page);
    }
    return true;
}

static bool rule_2(struct rules *r)
{
    for (uint32_t l = 0; l < r->g.l; l++)
        r->page_of[IND_DATA][l] = IND_NONE;
    for (uint32_t t = 0; t < r->g.m; t++)
        r->page_of[IND_TRANSLATION][t] = IND_NONE;
    for (uint32_t page = 0; page < (r->g.d + r->g.t) * r->g.p; page++) {
        if (state(r, page) != IND_VALID)
            continue;
        uint32_t *page_of = &r->page_of[region_of_page(r, page)][owner(r, page)];
        if (*page_of != IND_NONE)
            return fails_at(r, page);
        *page_of = page;
    }
    return true;
}

static uint32_t erased_pages(const struct rules *r, uint32_t block)
{
    uint32_t n = 0;
    for (uint32_t i = 0; i < r->g.p; i++)
        n += state(r, block * r->g.p + i) == IND_ERASED;
    return n;
}

static bool open_block_fits(const struct rules *r, uint32_t open, uint32_t next)
{
    for (uint32_t i = 0; i < r->g.p; i++)
        if ((state(r, open * r->g.p + i) == IND_ERASED) != (i >= next))
            return false;
    return true;
}

static bool rule_3(struct rules *r)
{
    for (int region = 0; region < IND_REGIONS; region++) {
        uint32_t first = ind_first_block(&r->g, region);
        uint32_t end = ind_end_block(&r->g, region);
        uint32_t open = r->v.record[IND_OPEN(region)];
        uint32_t next = r->v.record[IND_NEXT(region)];
        uint32_t free_blocks = 0;
        if (open < first || open >= end || next > r->g.p || !open_block_fits(r, open, next))
            return fails_at(r, open);
        for (uint32_t block = first; block < end; block++) {
            uint32_t erased = erased_pages(r, block);
            if (block == open)
                continue;
            if (erased != 0 && erased != r->g.p)
                return fails_at(r, block);
            free_blocks += erased == r->g.p;
        }
        if (free_blocks == 0)
            return fails_at(r, open);
    }
    return true;
}

static bool rule_4(struct rules *r)
{
    for (uint32_t t = 0; t < r->g.m; t++)
        if (r->v.directory[t] != r->page_of[IND_TRANSLATION][t])
            return fails_at(r, t);
    return true;
}

static bool rule_5(struct rules *r)
{
    uint32_t used = r->v.record[IND_USED], protected = r->v.record[IND_PROTECTED];
    if (used > r->g.c || protected > r->g.c / 2 || protected > used)
        return fails_at(r, r->g.c);
    for (uint32_t l = 0; l < r->g.l; l++)
        r->rank_of[l] = IND_NONE;
    for (uint32_t rank = 0; rank < r->g.c; rank++) {
        const uint32_t *entry = r->v.cache + 3 * (size_t)rank;
        bool fits;
        if (rank < used)
            fits = entry[0] < r->g.l && entry[2] <= 1 && r->rank_of[entry[0]] == IND_NONE;
        else
            fits = entry[0] == IND_NONE && entry[1] == IND_NONE && entry[2] == IND_NONE;
        if (!fits)
            return fails_at(r, rank);
        if (rank < used)
            r->rank_of[entry[0]] = rank;
    }
    return true;
}

/* The translation page's word, or *none* where that page doesn't exist. */
static uint32_t word_of(const struct rules *r, uint32_t l)
{
    uint32_t named = r->v.directory[l / r->g.w];
    return named == IND_NONE ? IND_NONE : words(r, named)[l % r->g.w];
}

static bool rule_6(struct rules *r)
{
    for (uint32_t l = 0; l < r->g.l; l++) {
        uint32_t rank = r->rank_of[l];
        uint32_t place = rank != IND_NONE ? r->v.cache[3 * (size_t)rank + 1] : word_of(r, l);
        if (place != r->page_of[IND_DATA][l])
            return fails_at(r, l);
    }
    for (uint32_t past = r->g.l; past < r->g.m * r->g.w; past++)
        if (word_of(r, past) != IND_NONE)
            return fails_at(r, past);
    return true;
}

static bool rule_7(struct rules *r)
{
    for (uint32_t rank = 0; rank < r->v.record[IND_USED]; rank++) {
        const uint32_t *entry = r->v.cache + 3 * (size_t)rank;
        if (entry[2] == 0 && entry[1] != word_of(r, entry[0]))
            return fails_at(r, rank);
    }
    return true;
}

int ind_first_broken_rule(uint32_t p, uint32_t w, uint32_t d, uint32_t t, uint32_t l, uint32_t c,
                          const uint32_t *chip, size_t chip_n,
                          const uint32_t *spare, size_t spare_n,
                          const uint32_t *directory, size_t directory_n,
                          const uint32_t *cache, size_t cache_n,
                          const uint32_t *record, size_t record_n, uint32_t *where)
{
    static bool (*const rules[])(struct rules *) = {rule_1, rule_2, rule_3, rule_4,
                                                    rule_5, rule_6, rule_7};
    const struct ind_lengths lengths = {chip_n, spare_n, directory_n, cache_n, record_n};
    struct rules r;
    r.v = (struct ind_view){chip, spare, directory, cache, record};
    if (!ind_accept(&r.g, p, w, d, t, l, c) || !ind_lengths_fit(&r.g, &lengths))
        return -1;
    for (int rule = 1; rule <= 7; rule++) {
        if (!rules[rule - 1](&r)) {
            if (where != NULL)
                *where = r.where;
            return rule;
        }
    }
    return 0;
}
