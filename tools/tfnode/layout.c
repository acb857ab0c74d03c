/* The table of layouts, and the step from one to the next. */
#include "layout.h"

#include "stream.h"

struct layout {
    size_t unit[SLICES]; /* words in a unit: a word of the chip, a page's spare, an entry, .. */
    uint32_t appended;   /* each word that a unit has beyond the layout before */
};

static const struct layout layouts[] = {
    /* Document 01's state. */
    [1] = {.unit = {[CHIP] = 1, [SPARE] = 2, [DIRECTORY] = 1, [CACHE] = 3, [RECORD] = 5}},
    /* Document 02's P5: the record ends with the number of protected entries.  All are on trial. */
    [2] = {.unit = {[CHIP] = 1, [SPARE] = 2, [DIRECTORY] = 1, [CACHE] = 3, [RECORD] = 6},
           .appended = 0},
};
_Static_assert(sizeof layouts / sizeof *layouts == NEWEST_LAYOUT + 1, "a row for each layout");

/* The newest is what the library is lent.  If that has grown, a row is missing above. */
_Static_assert(TF_WORDS_IN_SPARE == 2 && TF_WORDS_IN_ENTRY == 3 && TF_RECORD_WORDS == 6,
               "the newest layout has the sizes of trianglefire.h");

void layout_sizes(uint32_t layout, const struct geometry *geometry, size_t words[SLICES])
{
    slice_sizes(geometry, words);
    for (int slice = 0; slice < SLICES; slice++)
        words[slice] = words[slice] / layouts[NEWEST_LAYOUT].unit[slice] *
                       layouts[layout].unit[slice];
}

/* The n words of a slice whose units had `before` words and have `after` now. */
static uint32_t *grown(const uint32_t *old, size_t n, size_t before, size_t after,
                       uint32_t appended)
{
    uint32_t *words = allocate_words(n);
    for (size_t i = 0; i < n; i++)
        words[i] = i % after < before ? old[i / after * before + i % after] : appended;
    return words;
}

void layout_step(struct node *node, uint32_t layout)
{
    const struct layout *before = &layouts[layout - 1], *after = &layouts[layout];
    size_t words[SLICES];
    layout_sizes(layout, &node->geometry, words);
    for (int slice = 0; slice < SLICES; slice++) {
        if (words[slice] == node->words[slice])
            continue;
        node->slices[slice] = grown(node->slices[slice], words[slice], before->unit[slice],
                                    after->unit[slice], after->appended);
        node->words[slice] = words[slice];
    }
}
