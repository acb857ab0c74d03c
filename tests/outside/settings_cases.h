/* The cases of the part `settings`. */
#ifndef SETTINGS_CASES_H
#define SETTINGS_CASES_H

#include "settings_record.h"

/* settings.c: tries the next case, unless one before it failed or another is asked for. */
struct settings_run;
void settings_case(struct settings_run *r, const struct settings_call *c);

/* settings_made.c: records with one thing wrong, and with two; and lengths of what is lent. */
void settings_made(struct settings_run *r);
/* settings_tails.c: what follows tag 7. */
void settings_tails(struct settings_run *r);
/* settings_corners.c: geometries at their limits, read and written. */
void settings_corners(struct settings_run *r);

/* settings_long.c: counts that are right only in 32 bits; false, with what differs, if so. */
bool settings_long(char *text, size_t size);

/* settings_random.c: the random case of a number. */
void settings_random(struct settings_call *c, uint64_t seed, uint64_t number);

#endif
