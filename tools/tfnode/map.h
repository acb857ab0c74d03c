/* The form of a map that has a file of its own. */
#ifndef MAP_H
#define MAP_H

#include "image.h"

/* map_svg.c: writes a picture of every block to a file, which must not be the image. */
void map_to_svg(const struct image *image, const char *path);

#endif
