/* Long sessions of good requests: nothing is lost, and what a request costs at the most. */
#ifndef SOAK_H
#define SOAK_H

#include "session.h"

/* Both print what they saw; false, with the difference told, if something is wrong. */
bool soak(uint64_t seed, size_t calls);
/* For every P from 1 to 64: the bounds of demand 3 are kept, and reached. */
bool bounds(uint64_t seed);

#endif
