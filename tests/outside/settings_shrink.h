/* A failed case of the settings record, and the shortest record that still fails. */
#ifndef SETTINGS_SHRINK_H
#define SETTINGS_SHRINK_H

#include "settings_call.h"

/* The call, in a line. */
void settings_list(const struct settings_call *c);

/* Drops bytes, and sets bytes to zero, while the two sides differ, and prints what is left. */
void settings_shrink(const struct settings_call *c, enum placing placing);

#endif
