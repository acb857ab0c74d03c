/*
 * What the sessions met of P2, in single reads and writes: a changed entry that
 * is dropped is written back with its neighbours, which are the other changed
 * entries of its translation page.
 */
#ifndef NEIGHBOURS_H
#define NEIGHBOURS_H

#include "play.h"

enum {
    TOGETHER,       /* a drop that wrote neighbours back; of these: */
    SEVERAL,        /* two or more of them */
    AT_NONE,        /* one at *none*, as its word was */
    NONE_OVER_WORD, /* one at *none*, whose word was another */
    FIRST_WORD,     /* one at the translation page's first word */
    LAST_WORD,      /* one at its last, as W or L has it */
    BETWEEN,        /* an unchanged entry of the page ranked between */
    ELSEWHERE,      /* a changed entry of another translation page was left */
    NEW_PAGE,       /* the translation page did not exist */
    COLLECTED,      /* room was made by collecting; told of reads alone */
    PAGE_MOVED,     /* that moved the page to be updated; likewise */
    /* And beside them: */
    UNCHANGED,      /* an unchanged entry dropped, its page's changed ones left */
    UPDATE_LEFT,    /* a collection's own update that left a changed entry of its page */
    NEIGHBOURS
};

struct neighbours {
    uint64_t met[NEIGHBOURS];
    /* Of the request at hand, and of the state before it: */
    uint32_t bits;       /* one for each of the above */
    bool written_back;   /* its drop is of a changed entry */
    uint32_t former;     /* where that one's translation page lies, or *none* */
    uint32_t open, next; /* the open translation block and its next offset */
};

/* To be called before and after each step. */
void neighbours_before(struct neighbours *n, const struct play *p, const struct step *step);
void neighbours_after(struct neighbours *n, const struct play *p, const struct step *step);

void neighbours_print(const struct neighbours *n);
/* False, with a line for each, if something was never met. */
bool neighbours_whole(const struct neighbours *n);

#endif
