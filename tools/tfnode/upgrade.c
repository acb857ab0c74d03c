/*
 * tfnode upgrade: makes an image of an older layout one of the newest, as layout.c says.  A damaged
 * node is upgraded too and stays as damaged as it was, since every command that could show what is
 * wrong with it works on the newest layout alone.
 */
#include "commands.h"
#include "image.h"
#include "layout.h"

#include <inttypes.h>
#include <stdio.h>

static void print_upgrade(const struct image *image, uint32_t from, bool sound)
{
    if (from == image->layout)
        printf("%s is of version %" PRIu32 ", the newest; nothing is to be done\n", image->path,
               from);
    else
        printf("%s is of version %" PRIu32 " now, and was of version %" PRIu32 ": %" PRIu64
               " bytes, %s\n", image->path, image->layout, from, image->bytes,
               sound ? "sound" : "damaged as it was before; `tfnode check` says why");
}

enum status command_upgrade(const struct arguments *arguments)
{
    static struct image image; /* lasts, and so does what its slices grow into */
    const char *path = arguments->operands[0];
    /* What is of the newest layout needs no lock and no right to write.  Anything else is opened
     * again under the lock, since another tool may have changed it. */
    image_open_any_layout(&image, path, LOOK);
    if (image.layout < NEWEST_LAYOUT)
        image_open_any_layout(&image, path, CHANGE);
    const uint32_t from = image.layout;
    image_upgrade(&image);
    uint32_t reply = node_check(&image.node);
    if (reply != TF_DONE && reply != TF_DAMAGED)
        fail_refused(reply, image.path);
    bool sound = reply == TF_DONE;
    if (from < NEWEST_LAYOUT)
        image_commit(&image);
    if (given(arguments, OPTION_JSON))
        printf("{\"from\": %" PRIu32 ", \"version\": %" PRIu32 ", \"bytes\": %" PRIu64
               ", \"sound\": %s}\n", from, image.layout, image.bytes, sound ? "true" : "false");
    else
        print_upgrade(&image, from, sound);
    return STATUS_DONE;
}
