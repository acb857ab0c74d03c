/* Numbers of an answer, in words for a person or as the members of a JSON object. */
#ifndef REPORT_H
#define REPORT_H

#include "node.h"

#include <stdbool.h>
#include <stdint.h>

/* "1 block", "2 blocks": a number and what it counts. */
void print_number(uint64_t n, const char *one, const char *many);

/* What the flash did. */
void print_totals(const struct totals *totals, bool json);

/* The six numbers. */
void print_geometry(const struct geometry *geometry, bool json);

#endif
