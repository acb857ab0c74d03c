/*
 * Plays a session on two copies of the lent memory, the archive's and the
 * independent program's, and compares reply, counts and lent words.
 */
#ifndef PLAY_H
#define PLAY_H

#include "session.h"

struct play {
    const struct session *session;
    struct world state[2];  /* the five slices, as either side has them */
    struct call call;       /* the last call */
    uint32_t reply;         /* what the independent program answered */
    bool called;            /* whether the last step made a call */
    bool emptied;           /* whether it set an entry to *none* */
    struct changes changes; /* for CHANGED_WORD: what was changed */
    int broken;             /* the first rule that broke by it, where that was asked; else -1 */
    char text[160];         /* what differs, after a step that failed */
};

enum { OF_ARCHIVE, OF_INDEPENDENT };

/* Both false if the two sides differ. */
bool play_start(struct play *p, const struct session *s);
/* The words of the state are compared if `whole`; all else always. */
bool play_step(struct play *p, const struct step *step, bool whole);
bool play_compare_state(struct play *p);

/* A slice of the last call, as one side has it. */
const uint32_t *play_slice(const struct play *p, int side, int slice);

#endif
