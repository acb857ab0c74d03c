/*
 * What a step asks for: the arguments of its call, the words of the slices that
 * the call reads or that it must leave alone, and the words of a state that are
 * changed before a call.
 */
#ifndef FILL_H
#define FILL_H

#include "session.h"

/* Any words in the five slices, in some worlds plausible ones. */
void fill_any_words(struct world *x, uint64_t *seed);

/* The call of a step, with both sides' buffer, requests, data, answers and counts filled alike. */
void fill_call(struct call *c, const struct world state[2], const struct lent lent[2],
               const struct step *step);

/* What a step of kind CHANGED_WORD changes in this state. */
struct changes fill_changes(const struct world *x, const struct step *step);
void changes_set(const struct changes *c, struct world *x, const uint32_t value[MOST_CHANGES]);
/* Whether nothing but the number of protected entries is changed. */
bool changes_protected(const struct changes *c, const struct world *x);

/*
 * Sets a cached entry of a sound state to *none*, changed, and marks its page
 * invalid: sound too, and a state that no call leaves.  False if no entry names a
 * page.
 */
bool fill_emptied(struct world *x, uint64_t seed);

/* A word of the five slices taken as one row: its slice and index there. */
uint32_t *row_word(const struct world *x, size_t at, int *slice, size_t *index);

#endif
