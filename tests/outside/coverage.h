/* What the sessions met, so that a run shows what it covered and fails if it missed something. */
#ifndef COVERAGE_H
#define COVERAGE_H

#include "neighbours.h"
#include "replacement.h"

enum { REGIONS = 2, RULES = 7 };

enum {
    ONE_PAGE, ONE_WORD, TWO_DATA, TWO_TRANSLATION, LARGEST_L, LARGEST_M, ONE_ENTRY, TWO_ENTRIES,
    THREE_ENTRIES, MORE_ENTRIES, NO_MULTIPLE, CORNERS
};

struct coverage {
    uint64_t sessions, calls, records;
    uint64_t replies[CALLS][REPLIES];  /* by call and reply */
    uint64_t answers[REPLIES];         /* of the records of runs that were served */
    uint64_t wrong_length[ALL];        /* by slice */
    uint64_t broken[RULES + 1];        /* by the first rule broken, where asked */
    uint64_t still_sound;              /* changed words that left a sound state */
    uint64_t collections[REGIONS];     /* in single reads and writes */
    uint64_t erases;                   /* in runs */
    uint64_t full_offset;              /* writes that found the open block at offset P */
    uint64_t odd;                      /* times that words bound by no rule were changed */
    uint64_t emptied;                  /* times that an entry was set to *none* */
    uint64_t null;                     /* calls with an empty slice given as NULL, 0 */
    uint64_t corners[CORNERS];         /* sessions by corner of the geometry */
    uint32_t open, offset, erased;     /* of the data region, as the step before left it */
    struct neighbours neighbours;
    struct replacement replacement;
};

void coverage_start(struct coverage *v, const struct play *p);
/* Before and after each step; what was met is counted if the two sides agree in it. */
void coverage_before(struct coverage *v, const struct play *p, const struct step *step);
void coverage_step(struct coverage *v, const struct play *p, const struct step *step);
void coverage_print(const struct coverage *v);
/* False, with a line for each, if something was never met. */
bool coverage_whole(const struct coverage *v);

#endif
