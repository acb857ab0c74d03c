/* tfnode settings: the settings record of a node, shown, and written to a file of its own. */
#include "settings.h"

#include "beside.h"
#include "commands.h"
#include "image.h"
#include "report.h"

#include <inttypes.h>
#include <stdio.h>

const struct field fields[FIELDS] = {
    {"the version", "version", 1},     {"P", "P, pages in a block", 2},
    {"W", "W, words in a page", 2},    {"D", "D, data blocks", 2},
    {"T", "T, translation blocks", 2}, {"L", "L, logical pages", 4},
    {"C", "C, cache entries", 2},
};

/* The geometry of an image, or of a settings record that was kept; how much of that was skipped. */
static size_t take_geometry(const char *path, struct geometry *geometry)
{
    struct image image;
    size_t skipped = 0;
    if (settings_from_file(path, " is no node image, and as a settings record", geometry, &skipped))
        return skipped;
    image_open(&image, path, LOOK);
    *geometry = image.node.geometry;
    return 0;
}

static void print_hex(const uint8_t *bytes, size_t n)
{
    for (size_t i = 0; i < n; i++)
        printf("%02x", bytes[i]);
}

/* A field a line: its bytes, what its value is, and the value. */
static void print_record(const uint8_t record[TF_SETTINGS_BYTES])
{
    enum { MOST_VALUE_BYTES = 4, GAP = 3 };
    for (int i = 0; i < FIELDS; i++) {
        const size_t n = fields[i].bytes;
        print_hex(record, TAG_BYTES);
        putchar(' ');
        print_hex(record + TAG_BYTES, LENGTH_BYTES);
        putchar(' ');
        print_hex(record + BEFORE_VALUE, n);
        printf("%*s%-24s%" PRIu32 "\n", (int)(2 * (MOST_VALUE_BYTES - n)) + GAP, "",
               fields[i].value, number_from_bytes(record + BEFORE_VALUE, n));
        record += BEFORE_VALUE + n;
    }
    printf("%d bytes: tag, length and value of each field in hex, and what the value is\n",
           TF_SETTINGS_BYTES);
}

static void print_record_json(const uint8_t record[TF_SETTINGS_BYTES],
                              const struct geometry *geometry)
{
    printf("{\"hex\": \"");
    print_hex(record, TF_SETTINGS_BYTES);
    printf("\", \"version\": %" PRIu32 ", \"geometry\": {",
           number_from_bytes(record + BEFORE_VALUE, fields[0].bytes));
    print_geometry(geometry, true);
    puts("}}");
}

static void write_record(const char *path, const uint8_t record[TF_SETTINGS_BYTES])
{
    beside_begin_new(path);
    beside_write(record, TF_SETTINGS_BYTES);
    beside_commit(NULL);
}

enum status command_settings(const struct arguments *arguments)
{
    const char *path = arguments->operands[0];
    struct geometry geometry;
    uint8_t record[TF_SETTINGS_BYTES];
    size_t skipped = take_geometry(path, &geometry);
    uint32_t answer = settings_write(&geometry, record);
    if (answer != TF_SETTINGS_ACCEPTED)
        fail(STATUS_FILE, "the library answered %" PRIu32 " (%s) for the settings of %s, which it "
             "has no cause to; please report it", answer, settings_answer_name(answer), path);
    if (given(arguments, OPTION_WRITE))
        write_record(arguments->write, record);
    note_skipped(path, skipped);
    if (given(arguments, OPTION_JSON)) {
        print_record_json(record, &geometry);
        return STATUS_DONE;
    }
    print_record(record);
    if (given(arguments, OPTION_WRITE))
        printf("%s is written: these %d bytes\n", arguments->write, TF_SETTINGS_BYTES);
    return STATUS_DONE;
}
