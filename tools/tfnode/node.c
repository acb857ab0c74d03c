/* The library's calls on a node, and what its answers are called. */
#include "node.h"

#include "say.h"

#include <inttypes.h>
#include <stdio.h>

#define GEOMETRY_OF(g) \
    (g)->numbers[P], (g)->numbers[W], (g)->numbers[D], (g)->numbers[T], (g)->numbers[L], \
        (g)->numbers[C]
#define SLICE_OF(node, which) (node)->slices[which], (node)->words[which]
#define STATE_OF(node) \
    SLICE_OF(node, CHIP), SLICE_OF(node, SPARE), SLICE_OF(node, DIRECTORY), \
        SLICE_OF(node, CACHE), SLICE_OF(node, RECORD)

/* The library tests the geometry before anything else, so empty slices ask for that test alone. */
bool geometry_accepted(const struct geometry *geometry)
{
    uint32_t counts[TF_COUNTS_WORDS];
    return tf_check(GEOMETRY_OF(geometry), NULL, 0, NULL, 0, NULL, 0, NULL, 0, NULL, 0, counts,
                    TF_COUNTS_WORDS) != TF_GEOMETRY;
}

/* Whether a number is outside its limits, and then the words that say so. */
static bool outside(const struct geometry *geometry, int which, uint64_t least, uint64_t most,
                    char *words, size_t room)
{
    uint32_t value = geometry->numbers[which];
    if (value >= least && value <= most)
        return false;
    if (most < least)
        snprintf(words, room, "%c is %" PRIu32 ", and the other numbers leave nothing for it",
                 "PWDTLC"[which], value);
    else
        snprintf(words, room, "%c is %" PRIu32 ", and may be %" PRIu64 " to %" PRIu64,
                 "PWDTLC"[which], value, least, most);
    return true;
}

const char *geometry_fault(const struct geometry *geometry)
{
    static char words[160];
    const uint64_t p = geometry->numbers[P], w = geometry->numbers[W], d = geometry->numbers[D];
    const uint64_t t = geometry->numbers[T], l = geometry->numbers[L];
    if (outside(geometry, P, 1, TF_MOST_PAGES_IN_BLOCK, words, sizeof words) ||
        outside(geometry, W, 1, TF_MOST_WORDS_IN_PAGE, words, sizeof words) ||
        outside(geometry, D, 2, TF_MOST_BLOCKS - 2, words, sizeof words) ||
        outside(geometry, T, 2, TF_MOST_BLOCKS - d, words, sizeof words) ||
        outside(geometry, L, 1, (d - 1) * p - 1, words, sizeof words) ||
        outside(geometry, C, 1, TF_MOST_ENTRIES, words, sizeof words))
        return words;
    const uint64_t m = (l + w - 1) / w;
    if (m <= (t - 1) * p - 1)
        return NULL;
    snprintf(words, sizeof words,
             "L/W rounded up is %" PRIu64 " translation pages, and T and P leave room for %" PRIu64,
             m, (t - 1) * p - 1);
    return words;
}

void slice_sizes(const struct geometry *geometry, size_t words[SLICES])
{
    words[CHIP] = tf_chip_words(GEOMETRY_OF(geometry));
    words[SPARE] = tf_spare_words(GEOMETRY_OF(geometry));
    words[DIRECTORY] = tf_directory_words(GEOMETRY_OF(geometry));
    words[CACHE] = tf_cache_words(GEOMETRY_OF(geometry));
    words[RECORD] = TF_RECORD_WORDS;
}

static void add(struct totals *totals, const uint32_t counts[TF_COUNTS_WORDS])
{
    totals->reads += counts[TF_COUNTS_READS];
    totals->programs += counts[TF_COUNTS_PROGRAMS];
    totals->erases += counts[TF_COUNTS_ERASES];
}

uint32_t node_format(struct node *node, struct totals *totals)
{
    uint32_t counts[TF_COUNTS_WORDS];
    uint32_t reply =
        tf_format(GEOMETRY_OF(&node->geometry), STATE_OF(node), counts, TF_COUNTS_WORDS);
    add(totals, counts);
    return reply;
}

uint32_t node_check(const struct node *node)
{
    uint32_t counts[TF_COUNTS_WORDS];
    return tf_check(GEOMETRY_OF(&node->geometry), STATE_OF(node), counts, TF_COUNTS_WORDS);
}

uint32_t node_read(struct node *node, uint32_t page, uint32_t *buffer, struct totals *totals)
{
    uint32_t counts[TF_COUNTS_WORDS];
    uint32_t reply = tf_read(GEOMETRY_OF(&node->geometry), page, STATE_OF(node), buffer,
                             number(node, W), counts, TF_COUNTS_WORDS);
    add(totals, counts);
    return reply;
}

uint32_t node_write(struct node *node, uint32_t page, const uint32_t *buffer,
                    struct totals *totals)
{
    uint32_t counts[TF_COUNTS_WORDS];
    uint32_t reply = tf_write(GEOMETRY_OF(&node->geometry), page, STATE_OF(node), buffer,
                              number(node, W), counts, TF_COUNTS_WORDS);
    add(totals, counts);
    return reply;
}

uint32_t node_run(struct node *node, const uint32_t *requests, uint32_t *data, uint32_t *answers,
                  size_t n, struct totals *totals)
{
    uint32_t counts[TF_COUNTS_WORDS];
    uint32_t reply = tf_run(GEOMETRY_OF(&node->geometry), STATE_OF(node), requests,
                            n * TF_WORDS_IN_REQUEST, data, n * number(node, W), answers, n, counts,
                            TF_COUNTS_WORDS);
    add(totals, counts);
    return reply;
}

uint32_t settings_read(const uint8_t *bytes, size_t n, struct geometry *geometry)
{
    return tf_settings_read(bytes, n, geometry->numbers, NUMBERS);
}

uint32_t settings_write(const struct geometry *geometry, uint8_t record[TF_SETTINGS_BYTES])
{
    return tf_settings_write(GEOMETRY_OF(geometry), record, TF_SETTINGS_BYTES);
}

const char *reply_name(uint32_t reply)
{
    static const char *const names[] = {"DONE",    "UNWRITTEN", "GEOMETRY", "LENGTH",
                                        "DAMAGED", "KIND",      "PAGE"};
    return reply < sizeof names / sizeof *names ? names[reply] : "unknown";
}

const char *settings_answer_name(uint32_t answer)
{
    static const char *const names[] = {"ACCEPTED", "SHORT", "TAG",      "LENGTH",
                                        "VERSION",  "AFTER", "GEOMETRY", "PLACE"};
    return answer < sizeof names / sizeof *names ? names[answer] : "unknown";
}

void fail_refused(uint32_t reply, const char *path)
{
    if (reply == TF_DAMAGED)
        fail(STATUS_ANSWER, "%s is damaged, so nothing was done; `tfnode check` says what is wrong",
             path);
    fail(STATUS_FILE, "the library answered %" PRIu32 " (%s) for %s, which it has no cause to; "
         "please report it", reply, reply_name(reply), path);
}
