/* Prints a session line by line, as far as its first difference. */
#ifndef LIST_H
#define LIST_H

#include "play.h"

void session_list(const struct session *s);

#endif
