/* The shortest session that still shows a difference. */
#ifndef SHRINK_H
#define SHRINK_H

#include "play.h"

/* Plays to the end or to the first difference; false there, with how many steps were taken. */
bool session_agrees(const struct session *s, size_t *steps, char *text, size_t size);

/* Drops steps from a session for as long as it differs; false if it does not. */
bool session_shrink(struct session *s);

#endif
