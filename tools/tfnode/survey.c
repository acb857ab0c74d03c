/* Counts the blocks and pages of a region by their states. */
#include "survey.h"

#include <string.h>

const char page_marks[PAGE_STATES] = {'.', '#', 'x', '?'};
const char *const region_names[REGIONS] = {"data", "translation"};

static const int open_of_region[REGIONS] = {TF_RECORD_OPEN_DATA, TF_RECORD_OPEN_TRANSLATION};

void region_blocks(const struct node *node, enum region region, uint32_t *first, uint32_t *end)
{
    *first = region == DATA ? 0 : number(node, D);
    *end = region == DATA ? number(node, D) : blocks(node);
}

bool block_is_open(const struct node *node, enum region region, uint32_t block)
{
    return node->slices[RECORD][open_of_region[region]] == block;
}

enum page_state state_of_page(const struct node *node, uint32_t page)
{
    switch (node->slices[SPARE][(size_t)page * TF_WORDS_IN_SPARE + TF_SPARE_STATE]) {
    case TF_STATE_ERASED:
        return PAGE_ERASED;
    case TF_STATE_VALID:
        return PAGE_VALID;
    case TF_STATE_INVALID:
        return PAGE_INVALID;
    default:
        return PAGE_UNKNOWN;
    }
}

void survey_region(const struct node *node, enum region region, struct survey *survey)
{
    const uint32_t p = number(node, P);
    uint32_t first, end;
    memset(survey, 0, sizeof *survey);
    region_blocks(node, region, &first, &end);
    survey->blocks = end - first;
    survey->open = node->slices[RECORD][open_of_region[region]];
    for (uint32_t block = first; block < end; block++) {
        uint32_t erased_before = survey->pages[PAGE_ERASED];
        for (uint32_t i = 0; i < p; i++)
            survey->pages[state_of_page(node, block * p + i)]++;
        uint32_t erased = survey->pages[PAGE_ERASED] - erased_before;
        survey->erased += erased == p;
        survey->full += erased == 0;
    }
}
