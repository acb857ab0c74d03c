/*
 * The image file of a node.  All of it is little-endian 32-bit words: a header, and then the five
 * slices one after the other.
 *
 *     words 0, 1    the mark of a node image, the bytes "TFNODE\r\n"
 *     word 2        version of the layout, 2
 *     word 3        words in this header, 17
 *     word 4        how many numbers the geometry has, 6, and then the numbers: P, W, D, T, L, C
 *     word 11       how many slices follow, 5, and then the words of each: chip, spare, directory,
 *                   cache, record
 *
 * A reader finds every number and slice by counting.  What they are goes by the version (layout.h),
 * and the counts are held to it, so that a damaged count is not taken for another layout.  The line
 * end in the mark shows an image that was sent as text.
 */
#ifndef IMAGE_H
#define IMAGE_H

#include "node.h"

#include <sys/stat.h>

struct image {
    const char *path; /* as it was typed, for messages */
    uint32_t layout;  /* its version, which the slices of the node are laid out by */
    struct node node;
    uint64_t bytes; /* of the file */
    bool on_disk;
    struct stat file; /* the old file's, if on_disk */
};

/* Whether the n bytes that a file begins with have the mark of an image. */
bool image_marked(const unsigned char *bytes, size_t n);

/* What a command wants of an image. */
enum purpose { LOOK, CHANGE };

/*
 * Opens an image of the newest layout.  Its slices are mapped privately: what the library does to
 * them stays in memory until image_commit, which only a command that opened for CHANGE may call.
 * Fails with one line.
 */
void image_open(struct image *image, const char *path, enum purpose purpose);

/* The same for any layout that there has been.  The library knows the newest alone. */
void image_open_any_layout(struct image *image, const char *path, enum purpose purpose);

/* Takes what is in memory to the newest layout. */
void image_upgrade(struct image *image);

/* Begins an image that does not exist yet, with slices that are not formatted. */
void image_create(struct image *image, const char *path, const struct geometry *geometry);

/* Replaces the file by what is in memory, whole or not at all. */
void image_commit(const struct image *image);

#endif
