/*
 * The header's numbers and sizes, held to documents 01 and 02 by value.  Compiled as C11 and as
 * C++17, with warnings as errors: that this file compiles is half of the test.
 */
#include "trianglefire.h"

#include <assert.h>
#include <inttypes.h>
#include <stdio.h>

/* 01's geometry G, and the largest chip. */
#define G 2, 2, 3, 3, 3, 1
#define LARGEST 64, 512, 1000, 24, 63935, 4096

/* The sizes are constant expressions: a node of geometry G as one object. */
struct node {
    uint32_t chip[TF_CHIP_WORDS(G)];
    uint32_t spare[TF_SPARE_WORDS(G)];
    uint32_t directory[TF_DIRECTORY_WORDS(G)];
    uint32_t cache[TF_CACHE_WORDS(G)];
    uint32_t record[TF_RECORD_WORDS];
};
static_assert(sizeof(struct node) == (24 + 24 + 2 + 3 + 6) * sizeof(uint32_t), "a node of G");
static_assert(TF_CHIP_WORDS(LARGEST) == 33554432, "the largest chip");
static_assert(sizeof(enum tf_reply) == sizeof(int), "an enum of small numbers");

static_assert(TF_DONE == 0 && TF_UNWRITTEN == 1 && TF_GEOMETRY == 2 && TF_LENGTH == 3, "replies");
static_assert(TF_DAMAGED == 4 && TF_KIND == 5 && TF_PAGE == 6, "replies");
static_assert(TF_NONE == 4294967295 && TF_ERASED == 4294967295, "none and the erased word");
static_assert(TF_STATE_ERASED == 4294967295 && TF_STATE_VALID == 65535 && TF_STATE_INVALID == 0,
              "states");
static_assert(TF_RECORD_OPEN_DATA == 0 && TF_RECORD_DATA_OFFSET == 1, "record");
static_assert(TF_RECORD_OPEN_TRANSLATION == 2 && TF_RECORD_TRANSLATION_OFFSET == 3, "record");
static_assert(TF_RECORD_USED == 4 && TF_RECORD_PROTECTED == 5 && TF_RECORD_WORDS == 6, "record");
static_assert(TF_COUNTS_READS == 0 && TF_COUNTS_PROGRAMS == 1, "counts");
static_assert(TF_COUNTS_ERASES == 2 && TF_COUNTS_WORDS == 3, "counts");
static_assert(TF_SPARE_STATE == 0 && TF_SPARE_OWNER == 1 && TF_WORDS_IN_SPARE == 2, "spare");
static_assert(TF_ENTRY_LOGICAL == 0 && TF_ENTRY_PHYSICAL == 1, "cache");
static_assert(TF_ENTRY_CHANGED == 2 && TF_WORDS_IN_ENTRY == 3, "cache");
static_assert(TF_KIND_READ == 0 && TF_KIND_WRITE == 1 && TF_WORDS_IN_REQUEST == 2, "requests");

/* 02's settings record: heads and numbers of seven fields; refusals "numbered from 1". */
static_assert(TF_SETTINGS_BYTES == 7 * 3 + 1 + 2 + 2 + 2 + 2 + 4 + 2, "settings");
static_assert(TF_SETTINGS_BYTES == 36 && TF_SETTINGS_NUMBERS == 6, "settings");
static_assert(TF_SETTINGS_ACCEPTED == 0 && TF_SETTINGS_SHORT == 1, "settings");
static_assert(TF_SETTINGS_TAG == 2 && TF_SETTINGS_LENGTH == 3, "settings");
static_assert(TF_SETTINGS_VERSION == 4 && TF_SETTINGS_AFTER == 5, "settings");
static_assert(TF_SETTINGS_GEOMETRY == 6 && TF_SETTINGS_PLACE == 7, "settings");
static_assert(sizeof(enum tf_settings) == sizeof(int), "an enum of small numbers");

/* Arrays for both calls. */
struct settings {
    uint8_t place[TF_SETTINGS_BYTES];
    uint32_t numbers[TF_SETTINGS_NUMBERS];
};
static_assert(sizeof(struct settings) == 60, "a settings record and its numbers");

static int failures = 0;

static void same(const char *what, uint64_t expected, uint64_t macro, uint64_t function)
{
    if (expected != macro || expected != function) {
        printf("sizes: %s: expected %" PRIu64 ", the macro gives %" PRIu64
               " and the function %" PRIu64 "\n",
               what, expected, macro, function);
        failures++;
    }
}

/* The five sizes of one geometry, with n requests. */
#define SIZES(name, chip_, spare_, directory_, cache_, data_, n, ...)                             \
    do {                                                                                          \
        same(name ": chip", chip_, TF_CHIP_WORDS(__VA_ARGS__), tf_chip_words(__VA_ARGS__));       \
        same(name ": spare", spare_, TF_SPARE_WORDS(__VA_ARGS__), tf_spare_words(__VA_ARGS__));   \
        same(name ": directory", directory_, TF_DIRECTORY_WORDS(__VA_ARGS__),                     \
             tf_directory_words(__VA_ARGS__));                                                    \
        same(name ": cache", cache_, TF_CACHE_WORDS(__VA_ARGS__), tf_cache_words(__VA_ARGS__));   \
        same(name ": data", data_, TF_DATA_WORDS(__VA_ARGS__, n), tf_data_words(__VA_ARGS__, n)); \
    } while (0)

#define MOST UINT32_C(4294967295)

int main(void)
{
    SIZES("G", 24, 24, 2, 3, 6, 3, G);
    SIZES("six primes", 13365, 5346, 1, 87, 0, 0, 11, 5, 13, 230, 3, 29);
    SIZES("the largest chip", 33554432, 131072, 125, 12288, 524288, 1024, LARGEST);
    SIZES("l a multiple of w", 2048, 128, 2, 3, 64, 2, 8, 32, 4, 4, 64, 1);
    SIZES("l one more", 2048, 128, 3, 3, 64, 2, 8, 32, 4, 4, 65, 1);
    SIZES("one past each limit", 0, 0, 1, 0, 0, 1025, 65, 513, 1000, 25, 1, 4097);
    SIZES("zeros", 0, 0, 0, 0, 0, 0, 0, 0, 0, 0, 0, 0);
    SIZES("all ones: nothing wraps", 0, 0, 1, 0, 0, SIZE_MAX, MOST, MOST, MOST, MOST, MOST, MOST);
    SIZES("blocks that wrap at 32 bits", 0, 0, 1, 3, 0, 0, 64, 1, MOST, 3, 1, 1);
    if (failures == 0)
        printf("sizes: all agree\n");
    return failures == 0 ? 0 : 1;
}
