/* tfnode new: an image of an empty node. */
#include "commands.h"
#include "image.h"
#include "report.h"
#include "settings.h"

#include <inttypes.h>
#include <stdio.h>

/* The geometry that was asked for; how many bytes of a settings record were skipped. */
static size_t take_geometry(const struct arguments *arguments, struct geometry *geometry)
{
    const char *path = arguments->settings;
    size_t skipped = 0;
    if (!geometry_option(arguments, geometry) &&
        !settings_from_file(path, "", geometry, &skipped))
        fail(STATUS_FILE, "%s is a node image, and no settings record; `tfnode settings --write` "
             "makes one of it", path);
    return skipped;
}

enum status command_new(const struct arguments *arguments)
{
    struct geometry geometry;
    struct image image;
    struct totals totals = {0};
    size_t skipped = take_geometry(arguments, &geometry);
    if (!geometry_accepted(&geometry)) {
        const char *fault = geometry_fault(&geometry);
        fail(STATUS_USAGE, "this geometry is not accepted: %s; see docs/TFNODE.md for the limits",
             fault != NULL ? fault : "a limit is broken");
    }
    image_create(&image, arguments->operands[0], &geometry);
    uint32_t reply = node_format(&image.node, &totals);
    if (reply != TF_DONE)
        fail_refused(reply, image.path);
    image_commit(&image);
    note_skipped(arguments->settings, skipped);
    bool json = given(arguments, OPTION_JSON);
    if (json) {
        printf("{\"geometry\": {");
        print_geometry(&geometry, json);
        printf("}, \"bytes\": %" PRIu64 ", ", image.bytes);
    } else {
        printf("%s is an empty node of %" PRIu32 " pages of %" PRIu32 " words, %" PRIu64
               " bytes: ", image.path, geometry.numbers[L], geometry.numbers[W], image.bytes);
    }
    print_totals(&totals, json);
    puts(json ? "}" : "");
    return STATUS_DONE;
}
