/* What a run says of itself: how far it is, what it met, and a failure with what shows it. */
#ifndef TELL_H
#define TELL_H

#include "session.h"

/* A line every few seconds. */
void tell_progress(const char *what, uint64_t done, uint64_t all);

/*
 * The failure, what replays it, and the shortest session found that shows it.
 * The session is shrunk in place.
 */
void tell_failure(const char *part, uint64_t seed, uint32_t number, uint64_t calls,
                  struct session *s, const char *text);

/* A line of how often each of these was met. */
void tell_row(const char *head, const char *const name[], const uint64_t n[], int from, int to);
/* Whether this was met; a line if it never was. */
bool tell_met(const char *head, const char *name, uint64_t n);

#endif
