/*
 * What the spare words and the record of a node say of its blocks and pages.  Nothing here needs
 * the state to be sound: a damaged node can be looked at too.
 */
#ifndef SURVEY_H
#define SURVEY_H

#include "node.h"

#include <stdbool.h>
#include <stdint.h>

enum page_state { PAGE_ERASED, PAGE_VALID, PAGE_INVALID, PAGE_UNKNOWN, PAGE_STATES };

/* One character for each, as `map` shows it. */
extern const char page_marks[PAGE_STATES];

enum region { DATA, TRANSLATION, REGIONS };

extern const char *const region_names[REGIONS];

struct survey {
    uint32_t blocks, erased, full; /* blocks, those wholly erased, those with no erased page */
    uint32_t open;                 /* the open block, as the record has it */
    uint32_t pages[PAGE_STATES];   /* how many are in each state */
};

/* The blocks of a region: from *first up to but not with *end. */
void region_blocks(const struct node *node, enum region region, uint32_t *first, uint32_t *end);

/* Whether a block is its region's open one. */
bool block_is_open(const struct node *node, enum region region, uint32_t block);

enum page_state state_of_page(const struct node *node, uint32_t page);

void survey_region(const struct node *node, enum region region, struct survey *survey);

#endif
