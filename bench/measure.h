/*
 * What every measurement shares: the clock, the least of several times, and
 * callgrind's counting where its header is there.  For files that define
 * _POSIX_C_SOURCE.
 */
#ifndef BENCH_MEASURE_H
#define BENCH_MEASURE_H

#include <time.h>

#if __has_include(<valgrind/callgrind.h>)
#include <valgrind/callgrind.h>
#else
#define CALLGRIND_START_INSTRUMENTATION (void)0
#define CALLGRIND_STOP_INSTRUMENTATION (void)0
#define CALLGRIND_ZERO_STATS (void)0
#define CALLGRIND_DUMP_STATS_AT(label) (void)(label)
#endif

enum { FEWEST_ROUNDS = 75, MOST_ROUNDS = 3000 };
static const double BUDGET = 5e9; /* nanoseconds for a case, once it has its fewest rounds */
static const double NEVER = 1e18;

/*
 * The time by the clock, in nanoseconds.  Not the processor's time spent here, which on a
 * shared machine was told a quarter too short for some calls: the least must not be one of these.
 */
static inline double now(void)
{
    struct timespec t;
    clock_gettime(CLOCK_MONOTONIC, &t);
    return (double)t.tv_sec * 1e9 + (double)t.tv_nsec;
}

static inline void keep_least(double *best, double time)
{
    if (time < *best)
        *best = time;
}

#endif
