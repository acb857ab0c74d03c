/*
 * What the studies share.  A study counts what the independent program does with the
 * same requests under two settings of its rules, from the same node.
 */
#ifndef BENCH_STUDY_H
#define BENCH_STUDY_H

#include "exchange.h"
#include "independent.h"
#include "node.h"
#include "traces.h"

/* What was counted.  Of the reads and programs, those of translation pages. */
struct totals {
    uint64_t requests, writes, reads, programs, erases;
    uint64_t translation_reads, translation_programs;
};

/* The contents of a node: the word that each page was last filled with. */
struct contents {
    uint32_t *words;
    uint32_t last;
};

/* One chip: where every setting begins, and where the present one is. */
struct study {
    struct node start, node;
    struct contents start_contents, contents;
    struct exchange *exchange;
    struct totals totals;
};

/* The rules that a trace is played under. */
struct setting {
    const char *name;
    enum ind_rule rule;
    enum ind_order order;
};
enum { SETTINGS = 2 };

/* Both settings of a study, and whether the same entries are cached under both. */
struct comparison {
    struct setting settings[SETTINGS];
    bool same_misses;
};

/* Memory for a study; it ends the program if there is none. */
struct study study_new(struct geometry g);
void study_free(struct study *s);

/* The start: every page written once, in order, under this setting. */
void study_fill(struct study *s, const struct setting *setting);

/*
 * The start again, with as many pages written anywhere: a node that was filled in
 * order takes long to lie as such writes leave it.
 */
void study_scatter(struct study *s, const struct setting *setting);

/*
 * Plays a trace from the start under both settings and prints a line for each,
 * fields separated by tabs:
 *
 *   P W D T L C TRACE SETTING REQUESTS WRITES MISSES PROGRAMS TRANSLATION READS ERASES
 *
 * WRITES are the host's, TRANSLATION the translation pages among PROGRAMS, READS
 * those of translation pages.  Afterwards each page must hold what was last written
 * to it, and whatever the settings have no part in must be the same; it ends the
 * program otherwise.
 */
void study_compare(struct study *s, const struct trace *t, const struct comparison *c);

#endif
