/* Numbers and pages drawn as if by chance, the same in every run of a program and on every machine. */
#ifndef BENCH_DRAW_H
#define BENCH_DRAW_H

#include <stdint.h>

static inline uint32_t draw(uint64_t *seed)
{
    *seed = *seed * UINT64_C(6364136223846793005) + UINT64_C(1442695040888963407);
    return (uint32_t)(*seed >> 33);
}

/* One of `hot` pages that lie evenly on a node of `l`. */
static inline uint32_t draw_hot(uint64_t *seed, uint32_t hot, uint32_t l)
{
    return (uint32_t)((uint64_t)(draw(seed) % hot) * l / hot);
}

#endif
