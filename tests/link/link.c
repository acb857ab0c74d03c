/* A C program over the header and the archive alone: a node is formatted, a page is written, and it is read back; so are its settings.
 * That it links and does so shows that the archive has what the header declares, with the arguments where C puts them. */
#include <stdio.h>
#include <string.h>
#include "trianglefire.h"

#define NODE 2, 2, 3, 3, 3, 1
#define LISTS chip, TF_CHIP_WORDS(NODE), spare, TF_SPARE_WORDS(NODE), directory, TF_DIRECTORY_WORDS(NODE), cache, TF_CACHE_WORDS(NODE)
#define STATE LISTS, record, TF_RECORD_WORDS

static uint32_t chip[TF_CHIP_WORDS(NODE)], spare[TF_SPARE_WORDS(NODE)];
static uint32_t directory[TF_DIRECTORY_WORDS(NODE)], cache[TF_CACHE_WORDS(NODE)], record[TF_RECORD_WORDS];

/* A record of five words, as firmware with an earlier library stored it: refused, and with the 0 that the header asks for sound. */
static int stored_record_right(void)
{
    uint32_t stored[TF_RECORD_WORDS] = {record[0], record[1], record[2], record[3], record[4], 0}, counts[TF_COUNTS_WORDS];

    int right = tf_check(NODE, LISTS, stored, 5, counts, TF_COUNTS_WORDS) == TF_LENGTH
        && tf_check(NODE, LISTS, stored, TF_RECORD_WORDS, counts, TF_COUNTS_WORDS) == TF_DONE;
    stored[TF_RECORD_PROTECTED] = 1; /* of one entry none can be protected */
    return right && tf_check(NODE, LISTS, stored, TF_RECORD_WORDS, counts, TF_COUNTS_WORDS) == TF_DAMAGED;
}

/* The geometry as a record, byte by byte; back; and each call refused. */
static int settings_right(void)
{
    static const uint32_t node[TF_SETTINGS_NUMBERS] = {NODE}, zeros[TF_SETTINGS_NUMBERS];
    static const uint8_t expected[TF_SETTINGS_BYTES] = {1, 0, 1, 1, 2, 0, 2, 0, 2, 3, 0, 2, 0, 2, 4, 0, 2, 0, 3,
                                                        5, 0, 2, 0, 3, 6, 0, 4, 0, 0, 0, 3, 7, 0, 2, 0, 1};
    uint8_t place[TF_SETTINGS_BYTES] = {0};
    uint32_t numbers[TF_SETTINGS_NUMBERS] = {9, 9, 9, 9, 9, 9};

    return tf_settings_write(2, 2, 3, 3, 4, 1, place, TF_SETTINGS_BYTES) == TF_SETTINGS_GEOMETRY
        && tf_settings_write(NODE, place, TF_SETTINGS_BYTES - 1) == TF_SETTINGS_PLACE && place[0] == 0
        && tf_settings_write(NODE, place, TF_SETTINGS_BYTES) == TF_SETTINGS_ACCEPTED && memcmp(place, expected, sizeof place) == 0
        && tf_settings_read(place, TF_SETTINGS_BYTES, numbers, TF_SETTINGS_NUMBERS - 1) == TF_SETTINGS_PLACE && numbers[0] == 9
        && tf_settings_read(place, TF_SETTINGS_BYTES, numbers, TF_SETTINGS_NUMBERS) == TF_SETTINGS_ACCEPTED
        && memcmp(numbers, node, sizeof numbers) == 0
        && tf_settings_read(place, TF_SETTINGS_BYTES - 1, numbers, TF_SETTINGS_NUMBERS) == TF_SETTINGS_SHORT
        && memcmp(numbers, zeros, sizeof numbers) == 0
        && tf_settings_read(NULL, 0, numbers, TF_SETTINGS_NUMBERS) == TF_SETTINGS_SHORT;
}

int main(void)
{
    const uint32_t written[2] = {10, 11};
    const uint32_t requests[2 * TF_WORDS_IN_REQUEST] = {TF_KIND_READ, 1, TF_KIND_READ, 0};
    uint32_t read[2] = {0, 0}, data[4] = {0, 0, 0, 0}, answers[2] = {9, 9}, counts[TF_COUNTS_WORDS];

    int right = tf_format(NODE, STATE, counts, TF_COUNTS_WORDS) == TF_DONE && counts[TF_COUNTS_ERASES] == 6
        && tf_write(NODE, 0, STATE, written, 2, counts, TF_COUNTS_WORDS) == TF_DONE && counts[TF_COUNTS_PROGRAMS] == 1
        && tf_read(NODE, 0, STATE, read, 2, counts, TF_COUNTS_WORDS) == TF_DONE && read[0] == 10 && read[1] == 11
        && tf_run(NODE, STATE, requests, 4, data, 4, answers, 2, counts, TF_COUNTS_WORDS) == TF_DONE
        && answers[0] == TF_UNWRITTEN && answers[1] == TF_DONE && data[2] == 10 && data[3] == 11
        && tf_check(NODE, STATE, counts, TF_COUNTS_WORDS) == TF_DONE
        && stored_record_right() && settings_right();
    puts(right ? "link: formatted, written, read back, run and checked; settings written and read"
               : "link: an answer is not what it must be");
    return !right;
}
