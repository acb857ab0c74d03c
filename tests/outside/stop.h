/* A call that is stopped if it touches what it may not touch, aborts or does not return. */
#ifndef STOP_H
#define STOP_H

#include <stdbool.h>
#include <stddef.h>

/* To be called once, before the first call. */
void stop_prepare(void);

/* Makes a call; false if it was stopped. */
bool stop_watch(void (*call)(void *with), void *with);

/* Of the last call that was stopped: the address it may not touch, or NULL if that is not why. */
const void *stop_address(void);
/* Of the same: what ended it. */
void stop_say(char *text, size_t size);
/* Whether the last call did not return. */
bool stop_hung(void);

#endif
