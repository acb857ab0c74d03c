/*
 * The layouts that image files have had, by their version.  All of them have image.h's header and
 * the same slices.  A slice is a row of units, as many as the geometry fixes, and a later layout
 * may have further words at the end of each unit: the record is one unit, and grew.
 *
 * A change of what is stored is a new layout: one more row in layout.c, with its sizes and what is
 * appended to the units of the layout before.  An image of any older layout goes through the rows
 * after its own, one by one.
 */
#ifndef LAYOUT_H
#define LAYOUT_H

#include "node.h"

enum { OLDEST_LAYOUT = 1, NEWEST_LAYOUT = 2 };

/* Words of each slice in a layout, which an accepted geometry fixes. */
void layout_sizes(uint32_t layout, const struct geometry *geometry, size_t words[SLICES]);

/*
 * Takes a node from the layout before to this one.  A slice that grows moves to memory of its own;
 * the words that it had are all in it, whatever they are.
 */
void layout_step(struct node *node, uint32_t layout);

#endif
