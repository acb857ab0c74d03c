/*
 * For tests: a geometry with its five slices of memory, pseudo-random numbers,
 * and random geometries and sound states.
 */
#ifndef TEST_WORLD_H
#define TEST_WORLD_H

#include <stdbool.h>
#include <stddef.h>
#include <stdint.h>

#define NONE UINT32_MAX

enum { CHIP, SPARE, DIRECTORY, CACHE, RECORD, SLICES };

struct world {
    uint32_t p, w, d, t, l, c, m;
    uint32_t *slice[SLICES];
    size_t n[SLICES];
};

/* The arguments of a call. */
#define GEOMETRY_OF(x) (x)->p, (x)->w, (x)->d, (x)->t, (x)->l, (x)->c
#define STATE_OF(x)                                                                      \
    (x)->slice[CHIP], (x)->n[CHIP], (x)->slice[SPARE], (x)->n[SPARE],                    \
        (x)->slice[DIRECTORY], (x)->n[DIRECTORY], (x)->slice[CACHE], (x)->n[CACHE],      \
        (x)->slice[RECORD], (x)->n[RECORD]

/* Ends the program with a message if the condition fails. */
#define REQUIRE(condition) require((condition), #condition, __FILE__, __LINE__)
void require(bool holds, const char *what, const char *file, int line);
extern char test_context[256]; /* printed with the message: what was being tried */

uint64_t random_64(uint64_t *seed);
uint32_t random_below(uint64_t *seed, uint32_t n); /* n at least 1 */

/* Every word random; the slices are allocated one by one and to measure. */
struct world world_make(uint32_t p, uint32_t w, uint32_t d, uint32_t t, uint32_t l, uint32_t c,
                        uint64_t *seed);
struct world world_copy(const struct world *from);
void world_assign(struct world *to, const struct world *from); /* of one geometry */
bool world_equal(const struct world *a, const struct world *b);
void world_free(struct world *x);

/* A random accepted small geometry, often at a corner. */
struct world world_random_small(uint64_t *seed);
/* Fills the world with a random sound state, of shapes no session need reach. */
void world_random_sound(struct world *x, uint64_t *seed);
/*
 * Changes words that no rule binds, and the changed mark and the number of
 * protected entries where that is allowed.
 */
void world_make_odd(struct world *x, uint64_t *seed);

#endif
