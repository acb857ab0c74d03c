/*
 * The five public calls: the tests in number order, then the steps, then the
 * counts.  "Tests go in number order and the first that applies answers."
 */
#include "independent.h"

#include "ind_internal.h"

#include <string.h>

enum { COUNTS_WORDS = 3 };

enum ind_rule ind_rule = IND_NEIGHBOURS;
enum ind_order ind_order = IND_SEGMENTED;
uint64_t ind_translation_programs = 0;
uint64_t ind_translation_reads = 0;

/* The counts are written in every answer if their slice has three words. */
static uint32_t answer(uint32_t reply, uint32_t reads, uint32_t programs, uint32_t erases,
                       uint32_t *counts, size_t counts_n)
{
    if (counts_n == COUNTS_WORDS) {
        counts[0] = reads;
        counts[1] = programs;
        counts[2] = erases;
    }
    return reply;
}

/* Every refusal counts 0, 0, 0. */
static uint32_t refuse(uint32_t reply, uint32_t *counts, size_t counts_n)
{
    return answer(reply, 0, 0, 0, counts, counts_n);
}

/* The answer of the steps, with what they counted. */
static uint32_t answer_steps(uint32_t reply, const struct ind_work *k, uint32_t *counts,
                             size_t counts_n)
{
    return answer(reply, k->reads, k->programs, k->erases, counts, counts_n);
}

/* Takes the lent state, whose lengths fit, to work on; false if it isn't sound. */
static bool take(struct ind_work *k, uint32_t *chip, uint32_t *spare, uint32_t *directory,
                 uint32_t *cache, uint32_t *record)
{
    const struct ind_view view = {chip, spare, directory, cache, record};
    k->chip = chip;
    k->spare = spare;
    k->directory = directory;
    k->cache = cache;
    k->record = record;
    k->reads = k->programs = k->erases = 0;
    return ind_sound(&k->g, &view, &k->s);
}

/* "The old state isn't tested."  Everything erased is all ones. */
uint32_t ind_format(uint32_t p, uint32_t w, uint32_t d, uint32_t t, uint32_t l, uint32_t c,
                    uint32_t *chip, size_t chip_n, uint32_t *spare, size_t spare_n,
                    uint32_t *directory, size_t directory_n, uint32_t *cache, size_t cache_n,
                    uint32_t *record, size_t record_n, uint32_t *counts, size_t counts_n)
{
    const struct ind_lengths lengths = {chip_n, spare_n, directory_n, cache_n, record_n};
    struct ind_geometry g;
    if (!ind_accept(&g, p, w, d, t, l, c))
        return refuse(IND_GEOMETRY, counts, counts_n);
    if (!ind_lengths_fit(&g, &lengths) || counts_n != COUNTS_WORDS)
        return refuse(IND_LENGTH, counts, counts_n);
    memset(chip, 0xff, chip_n * sizeof *chip);
    memset(spare, 0xff, spare_n * sizeof *spare);
    memset(directory, 0xff, directory_n * sizeof *directory);
    memset(cache, 0xff, cache_n * sizeof *cache);
    record[IND_OPEN(IND_DATA)] = 0;
    record[IND_NEXT(IND_DATA)] = 0;
    record[IND_OPEN(IND_TRANSLATION)] = d;
    record[IND_NEXT(IND_TRANSLATION)] = 0;
    record[IND_USED] = 0;
    record[IND_PROTECTED] = 0;
    return answer(IND_DONE, 0, 0, d + t, counts, counts_n);
}

uint32_t ind_check(uint32_t p, uint32_t w, uint32_t d, uint32_t t, uint32_t l, uint32_t c,
                   const uint32_t *chip, size_t chip_n, const uint32_t *spare, size_t spare_n,
                   const uint32_t *directory, size_t directory_n,
                   const uint32_t *cache, size_t cache_n,
                   const uint32_t *record, size_t record_n, uint32_t *counts, size_t counts_n)
{
    const struct ind_lengths lengths = {chip_n, spare_n, directory_n, cache_n, record_n};
    const struct ind_view view = {chip, spare, directory, cache, record};
    struct ind_geometry g;
    struct ind_summary summary;
    if (!ind_accept(&g, p, w, d, t, l, c))
        return refuse(IND_GEOMETRY, counts, counts_n);
    if (!ind_lengths_fit(&g, &lengths) || counts_n != COUNTS_WORDS)
        return refuse(IND_LENGTH, counts, counts_n);
    if (!ind_sound(&g, &view, &summary))
        return refuse(IND_DAMAGED, counts, counts_n);
    return answer(IND_DONE, 0, 0, 0, counts, counts_n);
}

uint32_t ind_read(uint32_t p, uint32_t w, uint32_t d, uint32_t t, uint32_t l, uint32_t c,
                  uint32_t page,
                  uint32_t *chip, size_t chip_n, uint32_t *spare, size_t spare_n,
                  uint32_t *directory, size_t directory_n, uint32_t *cache, size_t cache_n,
                  uint32_t *record, size_t record_n, uint32_t *buffer, size_t buffer_n,
                  uint32_t *counts, size_t counts_n)
{
    const struct ind_lengths lengths = {chip_n, spare_n, directory_n, cache_n, record_n};
    struct ind_work k;
    if (!ind_accept(&k.g, p, w, d, t, l, c))
        return refuse(IND_GEOMETRY, counts, counts_n);
    if (!ind_lengths_fit(&k.g, &lengths) || buffer_n != w || counts_n != COUNTS_WORDS)
        return refuse(IND_LENGTH, counts, counts_n);
    if (!take(&k, chip, spare, directory, cache, record))
        return refuse(IND_DAMAGED, counts, counts_n);
    if (page >= l)
        return refuse(IND_PAGE, counts, counts_n);
    uint32_t reply = ind_step_read(&k, page, buffer);
    return answer_steps(reply, &k, counts, counts_n);
}

uint32_t ind_write(uint32_t p, uint32_t w, uint32_t d, uint32_t t, uint32_t l, uint32_t c,
                   uint32_t page,
                   uint32_t *chip, size_t chip_n, uint32_t *spare, size_t spare_n,
                   uint32_t *directory, size_t directory_n, uint32_t *cache, size_t cache_n,
                   uint32_t *record, size_t record_n, const uint32_t *buffer, size_t buffer_n,
                   uint32_t *counts, size_t counts_n)
{
    const struct ind_lengths lengths = {chip_n, spare_n, directory_n, cache_n, record_n};
    struct ind_work k;
    if (!ind_accept(&k.g, p, w, d, t, l, c))
        return refuse(IND_GEOMETRY, counts, counts_n);
    if (!ind_lengths_fit(&k.g, &lengths) || buffer_n != w || counts_n != COUNTS_WORDS)
        return refuse(IND_LENGTH, counts, counts_n);
    if (!take(&k, chip, spare, directory, cache, record))
        return refuse(IND_DAMAGED, counts, counts_n);
    if (page >= l)
        return refuse(IND_PAGE, counts, counts_n);
    uint32_t reply = ind_step_write(&k, page, buffer);
    return answer_steps(reply, &k, counts, counts_n);
}

/*
 * Whether the slices of a run fit: two words a record, at most 1,024 records
 * (tested before anything is multiplied), W words of data and one answer each.
 */
static bool run_lengths_fit(size_t requests_n, size_t data_n, size_t answers_n, uint32_t w)
{
    if (requests_n % 2 != 0 || requests_n / 2 > IND_MAX_REQUESTS)
        return false;
    size_t n = requests_n / 2;
    return data_n == n * w && answers_n == n;
}

/* One record: KIND, then PAGE, then the steps.  Each step leaves a sound state. */
static uint32_t serve(struct ind_work *k, uint32_t kind, uint32_t page, uint32_t *words)
{
    if (kind > 1)
        return IND_KIND;
    if (page >= k->g.l)
        return IND_PAGE;
    return kind == 0 ? ind_step_read(k, page, words) : ind_step_write(k, page, words);
}

/*
 * "A run tests 2, 3, 4 once; then each record gets its own number and the run
 * goes on.  The run itself answers DONE with the sums of its records' counts".
 */
uint32_t ind_run(uint32_t p, uint32_t w, uint32_t d, uint32_t t, uint32_t l, uint32_t c,
                 uint32_t *chip, size_t chip_n, uint32_t *spare, size_t spare_n,
                 uint32_t *directory, size_t directory_n, uint32_t *cache, size_t cache_n,
                 uint32_t *record, size_t record_n,
                 const uint32_t *requests, size_t requests_n, uint32_t *data, size_t data_n,
                 uint32_t *answers, size_t answers_n, uint32_t *counts, size_t counts_n)
{
    const struct ind_lengths lengths = {chip_n, spare_n, directory_n, cache_n, record_n};
    struct ind_work k;
    if (!ind_accept(&k.g, p, w, d, t, l, c))
        return refuse(IND_GEOMETRY, counts, counts_n);
    if (!ind_lengths_fit(&k.g, &lengths) ||
        !run_lengths_fit(requests_n, data_n, answers_n, w) || counts_n != COUNTS_WORDS)
        return refuse(IND_LENGTH, counts, counts_n);
    if (!take(&k, chip, spare, directory, cache, record))
        return refuse(IND_DAMAGED, counts, counts_n);
    for (size_t i = 0; i < answers_n; i++)
        answers[i] = serve(&k, requests[2 * i], requests[2 * i + 1], data + i * w);
    return answer_steps(IND_DONE, &k, counts, counts_n);
}
