/*
 * The settings record, read and written by either side.  A call takes some ten
 * nanoseconds, so what is timed is a batch of them, each on a record of its own.
 */
#define _POSIX_C_SOURCE 200809L
#include "settings.h"

#include "independent.h"
#include "measure.h"
#include "side.h"
#include "trianglefire.h"

#include <stdint.h>
#include <stdio.h>
#include <stdlib.h>
#include <string.h>

enum { BATCH = 1024, MOST_SKIPPED = 64, SKIPPED_BYTES = 4, SKIPPED_FIELD = 3 + SKIPPED_BYTES };
enum { MOST_BYTES = TF_SETTINGS_BYTES + MOST_SKIPPED * SKIPPED_FIELD };

/* A batch of records, with a case's fields of higher tags behind each, and their numbers. */
struct records {
    uint8_t bytes[BATCH][MOST_BYTES];
    uint32_t numbers[BATCH][TF_SETTINGS_NUMBERS];
    uint32_t answers[BATCH];
};

static const struct settings_case {
    const char *name;
    bool write;
    uint32_t skipped; /* fields of a higher tag behind each record */
} settings_cases[] = {
    {"settings read", false, 0},
    {"settings read, 64 fields of 4 bytes skipped", false, MOST_SKIPPED},
    {"settings write", true, 0},
};
enum { SETTINGS_CASES = sizeof settings_cases / sizeof *settings_cases };

static struct records records[SIDES];

static size_t bytes_of(const struct settings_case *c)
{
    return TF_SETTINGS_BYTES + (size_t)c->skipped * SKIPPED_FIELD;
}

/* Accepted geometries, no two alike in a batch. */
static void put_geometry(uint32_t numbers[TF_SETTINGS_NUMBERS], uint32_t i)
{
    const uint32_t p = 1 + i % 64, d = 4 + i % 900;
    const uint32_t g[TF_SETTINGS_NUMBERS] = {p, 64 + i % 449, d, 100, 1 + i % (d - 2), 1 + i};
    memcpy(numbers, g, sizeof g);
}

/* Both sides start from the same numbers and the same bytes. */
static void prepare(struct records *r, const struct settings_case *c)
{
    for (uint32_t i = 0; i < BATCH; i++) {
        uint32_t *g = r->numbers[i];
        put_geometry(g, i);
        if (ind_settings_write(g[0], g[1], g[2], g[3], g[4], g[5], r->bytes[i],
                               TF_SETTINGS_BYTES) != 0) {
            fprintf(stderr, "bench: a geometry of the settings cases is refused\n");
            exit(1);
        }
        for (uint32_t k = 0; k < c->skipped; k++) {
            static const uint8_t field[SKIPPED_FIELD] = {8, 0, SKIPPED_BYTES};
            memcpy(r->bytes[i] + TF_SETTINGS_BYTES + k * SKIPPED_FIELD, field, sizeof field);
        }
    }
}

static void call_batch(enum side s, const struct settings_case *c, struct records *r)
{
    size_t n = bytes_of(c);
    for (size_t i = 0; i < BATCH; i++) {
        uint32_t *g = r->numbers[i];
        r->answers[i] = c->write
            ? (s == OURS ? tf_settings_write : ind_settings_write)(
                  g[0], g[1], g[2], g[3], g[4], g[5], r->bytes[i], TF_SETTINGS_BYTES)
            : (s == OURS ? tf_settings_read : ind_settings_read)(r->bytes[i], n, g,
                                                                 TF_SETTINGS_NUMBERS);
    }
}

static void must_agree(const struct settings_case *c)
{
    if (memcmp(&records[OURS], &records[THEIRS], sizeof records[OURS]) == 0)
        return;
    fprintf(stderr, "bench: the two programs disagree in case \"%s\"\n", c->name);
    exit(1);
}

static void time_case(const struct settings_case *c)
{
    double best[SIDES] = {NEVER, NEVER};
    for (size_t round = 0; round < MOST_ROUNDS; round++) {
        for (int turn = 0; turn < SIDES; turn++) {
            enum side s = (round + turn) % 2 == 0 ? OURS : THEIRS;
            prepare(&records[s], c);
            double begin = now();
            call_batch(s, c, &records[s]);
            keep_least(&best[s], now() - begin);
        }
        must_agree(c);
    }
    printf("settings\t%zu\t%s\t%.1f\t%.1f\t0\t%d\n", bytes_of(c), c->name, best[OURS] / BATCH,
           best[THEIRS] / BATCH, MOST_ROUNDS);
    fflush(stdout);
}

static void count_case(const struct settings_case *c)
{
    char label[128];
    for (int s = 0; s < SIDES; s++) {
        prepare(&records[s], c);
        snprintf(label, sizeof label, "settings\t%s\t%s\t%d", c->name, side_name(s), BATCH);
        CALLGRIND_START_INSTRUMENTATION;
        CALLGRIND_ZERO_STATS;
        call_batch(s, c, &records[s]);
        CALLGRIND_DUMP_STATS_AT(label);
        CALLGRIND_STOP_INSTRUMENTATION;
    }
}

void settings_run(bool count)
{
    for (size_t i = 0; i < SETTINGS_CASES; i++) {
        fprintf(stderr, "bench: %s\n", settings_cases[i].name);
        (count ? count_case : time_case)(&settings_cases[i]);
    }
}
