/*
 * The part `settings`: tf_settings_read and tf_settings_write against the
 * independent program.  A case is one call, numbered through: first those that
 * are made one by one, and from there on random ones.
 */
#ifndef SETTINGS_H
#define SETTINGS_H

#include <stdbool.h>
#include <stdint.h>

/* Random cases: by `seed`, that many.  One case alone, or one placing, if they are not -1. */
struct settings_asked {
    uint64_t seed, records;
    int64_t only;
    int placing;
};

bool settings(const struct settings_asked *asked);

#endif
