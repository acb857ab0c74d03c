/* The parts of the self-test, each in its own file; selftest.c runs them. */
#ifndef SELFTEST_H
#define SELFTEST_H

#include "independent.h"
#include "test_naive.h"
#include "test_world.h"

/* What the random parts met, so that a run shows what it covered. */
struct coverage {
    uint64_t calls, runs, unwritten, erases, full_bound_writes, full_bound_reads;
    uint64_t states, corruptions, broken[8]; /* broken[0]: still sound */
    uint64_t programs, host, copied; /* all; those of data pages, by writes and collections */
    uint64_t translation_reads;
    uint64_t met[2][MET_KINDS], order[ORDER_KINDS]; /* the first by rule */
    uint64_t bordered[2][2]; /* numbers of protected entries: over C/2, over the used ones */
    uint64_t lent_protected; /* sessions begun from a state with protected entries */
    uint64_t records[7], writes[2]; /* settings: by the reader's answer; written, refused */
};

/* test_coverage.c */
void print_coverage(const struct coverage *seen);
void require_coverage(const struct coverage *seen); /* what was never met is a failure */

/* test_sessions.c */
struct oracle {
    bool *written;
    uint32_t *words; /* what was last written to each page, l*w words */
};
struct oracle oracle_of(const struct world *sound); /* what the state itself holds */
void oracle_free(struct oracle *o);
/* One random read, write or run, held against the literal steps and the oracle. */
void random_call(struct world *x, struct oracle *o, uint64_t *seed, struct coverage *seen);
void test_sessions(uint64_t seed, uint32_t worlds, uint32_t calls, struct coverage *seen);
void test_medium(uint64_t seed, uint32_t calls, struct coverage *seen);
void test_many_pages(uint64_t seed, uint32_t runs, struct coverage *seen);

/* test_neighbours.c */
void test_neighbours(void);

/* test_replacement.c */
void test_replacement(uint64_t seed, uint32_t worlds);

/* test_protected.c */
void test_protected(void);

/* test_damage.c */
/* Every call must answer DAMAGED, with counts 0, 0, 0, and change nothing. */
void refused_everywhere(struct world *x);
void test_damage(uint64_t seed, uint32_t states, struct coverage *seen);

/* test_refusals.c */
bool accepted(const uint32_t g[6]); /* the table of the geometry, in 64 bits */
void edge_geometry(uint32_t g[6], uint64_t *seed);
void test_geometry_edges(uint64_t seed, uint32_t tries);
void test_lengths(uint64_t seed, uint32_t worlds);
void test_arbitrary_input(uint64_t seed, uint32_t tries);

/* test_settings.c */
void test_settings(uint64_t seed, uint32_t records, struct coverage *seen);

#endif
