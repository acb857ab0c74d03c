/*
 * A session as data: a geometry, the state that it starts from, and steps.  Each
 * step brings its own seed for all that is random in it, so that a step can be
 * dropped without changing what the others ask for.
 */
#ifndef SESSION_H
#define SESSION_H

#include "call.h"

/* What a step does; FORMAT to RUN are that call with lengths that fit. */
enum {
    OTHER_LENGTH = CALLS, /* a call with a slice of another length */
    OTHER_GEOMETRY,       /* a call with another geometry, often with other lengths too */
    TOO_MANY,             /* a run of more than 1,024 records, whose lengths fit each other */
    CHANGED_WORD,         /* a word of the state changed, then a call */
    ODD_WORDS,            /* no call: words that no rule binds changed, or how many are protected */
    EMPTIED,              /* no call: a cached entry set to *none*, changed, and its page invalid */
};

/* One to three words of a state, taken as one row, with their values before and after. */
enum { MOST_CHANGES = 3 };
struct changes {
    uint32_t n;
    size_t at[MOST_CHANGES];
    uint32_t from[MOST_CHANGES], to[MOST_CHANGES];
};

struct step {
    int kind;
    uint32_t at; /* a read's or write's page, a run's records, the changed word */
    uint64_t seed;
    const struct changes *fixed; /* for CHANGED_WORD: these, and not what the seed gives */
};

/* The state at the start: after format, sound at random, or words at random. */
enum { FORMATTED, SOUND, ANY_WORDS };

struct session {
    uint32_t g[6];
    enum placing placing;
    bool read_only; /* shared slices are mapped read-only during a call */
    int start;
    uint64_t seed;
    size_t steps;
    struct step *step;
    struct changes *fixed; /* room for those of the steps, or NULL */
};

/* The kinds of session; a part, a seed and a number are one session. */
enum { SMALL, DAMAGE, MIDDLE, LARGEST, PARTS };
extern const char *const part_name[PARTS];

/* A further step, with a seed of its own drawn from `seed`. */
void session_add(struct session *s, int kind, uint32_t at, uint64_t *seed);

struct session session_make(int part, uint64_t seed, uint32_t number, enum placing placing);
void session_free(struct session *s);

/* session_bounds.c: the sessions of soak and bounds, whose requests are all good. */
struct session session_bounds(uint32_t p, uint64_t seed);
struct session session_bounds_together(uint32_t p, uint64_t seed);
struct session session_bounds_protected(uint32_t p, uint64_t seed);
struct session session_soak(uint64_t seed, size_t calls);

#endif
