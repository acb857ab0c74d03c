/* The two libraries that are measured side by side. */
#ifndef BENCH_SIDE_H
#define BENCH_SIDE_H

/* Which of the two answers. */
enum side { OURS, THEIRS, SIDES };

/* Its name in a dump of instructions. */
static inline const char *side_name(enum side s)
{
    return s == OURS ? "ours" : "theirs";
}

#endif
