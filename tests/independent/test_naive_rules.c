/* The seven rules read literally: see test_naive.h. */
#include "test_naive.h"

static uint32_t state(const struct world *x, uint32_t page) { return x->slice[SPARE][2 * page]; }
static uint32_t owner(const struct world *x, uint32_t page)
{
    return x->slice[SPARE][2 * page + 1];
}
static uint32_t word(const struct world *x, uint32_t page, uint32_t i)
{
    return x->slice[CHIP][(size_t)page * x->w + i];
}
static uint32_t data_pages(const struct world *x) { return x->d * x->p; }
static uint32_t all_pages(const struct world *x) { return (x->d + x->t) * x->p; }

static bool rule_1(const struct world *x)
{
    for (uint32_t page = 0; page < all_pages(x); page++) {
        uint32_t s = state(x, page);
        if (s != 4294967295u && s != 65535u && s != 0u)
            return false;
        if (s == 4294967295u) {
            if (owner(x, page) != NONE)
                return false;
            for (uint32_t i = 0; i < x->w; i++)
                if (word(x, page, i) != 4294967295u)
                    return false;
        } else if (page < data_pages(x)) {
            if (!(owner(x, page) < x->l))
                return false;
        } else {
            if (!(owner(x, page) < x->m))
                return false;
        }
    }
    return true;
}

static bool rule_2(const struct world *x)
{
    for (uint32_t a = 0; a < all_pages(x); a++)
        for (uint32_t b = a + 1; b < all_pages(x); b++)
            if ((a < data_pages(x)) == (b < data_pages(x)) && state(x, a) == 65535u &&
                state(x, b) == 65535u && owner(x, a) == owner(x, b))
                return false;
    return true;
}

static uint32_t erased_in(const struct world *x, uint32_t block)
{
    uint32_t n = 0;
    for (uint32_t page = block * x->p; page < (block + 1) * x->p; page++)
        if (state(x, page) == 4294967295u)
            n++;
    return n;
}

static bool rule_3_region(const struct world *x, uint32_t first, uint32_t end, uint32_t open,
                          uint32_t next)
{
    bool spare_block = false;
    if (open < first || end <= open || next > x->p)
        return false;
    for (uint32_t i = 0; i < next; i++)
        if (state(x, open * x->p + i) == 4294967295u)
            return false;
    for (uint32_t i = next; i < x->p; i++)
        if (state(x, open * x->p + i) != 4294967295u)
            return false;
    for (uint32_t block = first; block < end; block++) {
        if (block == open)
            continue;
        if (erased_in(x, block) == x->p)
            spare_block = true;
        else if (erased_in(x, block) != 0)
            return false;
    }
    return spare_block;
}

static bool rule_3(const struct world *x)
{
    const uint32_t *record = x->slice[RECORD];
    return rule_3_region(x, 0, x->d, record[0], record[1]) &&
           rule_3_region(x, x->d, x->d + x->t, record[2], record[3]);
}

/* The valid page of a region with that owner, or none. */
static uint32_t valid_page(const struct world *x, uint32_t from, uint32_t to, uint32_t of)
{
    for (uint32_t page = from; page < to; page++)
        if (state(x, page) == 65535u && owner(x, page) == of)
            return page;
    return NONE;
}

static bool rule_4(const struct world *x)
{
    for (uint32_t t = 0; t < x->m; t++)
        if (x->slice[DIRECTORY][t] != valid_page(x, data_pages(x), all_pages(x), t))
            return false;
    return true;
}

static bool rule_5(const struct world *x)
{
    const uint32_t *cache = x->slice[CACHE];
    uint32_t used = x->slice[RECORD][4], protected = x->slice[RECORD][5];
    if (used > x->c)
        return false;
    if (protected > x->c / 2 || protected > used)
        return false;
    for (uint32_t a = 0; a < used; a++) {
        if (cache[3 * a] >= x->l || (cache[3 * a + 2] != 0 && cache[3 * a + 2] != 1))
            return false;
        for (uint32_t b = 0; b < a; b++)
            if (cache[3 * a] == cache[3 * b])
                return false;
    }
    for (uint32_t i = 3 * used; i < 3 * x->c; i++)
        if (cache[i] != NONE)
            return false;
    return true;
}

static uint32_t flash_word(const struct world *x, uint32_t l)
{
    uint32_t page = x->slice[DIRECTORY][l / x->w];
    return page == NONE ? NONE : word(x, page, l % x->w);
}

static uint32_t current_place(const struct world *x, uint32_t l)
{
    for (uint32_t rank = 0; rank < x->slice[RECORD][4]; rank++)
        if (x->slice[CACHE][3 * rank] == l)
            return x->slice[CACHE][3 * rank + 1];
    return flash_word(x, l);
}

static bool rule_6(const struct world *x)
{
    for (uint32_t l = 0; l < x->l; l++)
        if (current_place(x, l) != valid_page(x, 0, data_pages(x), l))
            return false;
    for (uint32_t t = 0; t < x->m; t++)
        for (uint32_t i = 0; i < x->w; i++)
            if (x->slice[DIRECTORY][t] != NONE && t * x->w + i >= x->l &&
                word(x, x->slice[DIRECTORY][t], i) != NONE)
                return false;
    return true;
}

static bool rule_7(const struct world *x)
{
    for (uint32_t rank = 0; rank < x->slice[RECORD][4]; rank++) {
        const uint32_t *entry = x->slice[CACHE] + 3 * rank;
        if (entry[2] == 0 && entry[1] != flash_word(x, entry[0]))
            return false;
    }
    return true;
}

int naive_first_broken(const struct world *x)
{
    if (!rule_1(x))
        return 1;
    if (!rule_2(x))
        return 2;
    if (!rule_3(x))
        return 3;
    if (!rule_4(x))
        return 4;
    if (!rule_5(x))
        return 5;
    if (!rule_6(x))
        return 6;
    return rule_7(x) ? 0 : 7;
}
