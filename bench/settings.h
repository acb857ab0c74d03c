/* The settings record's two calls, measured: they name no node and no chip. */
#ifndef BENCH_SETTINGS_H
#define BENCH_SETTINGS_H

#include <stdbool.h>

/* Prints a line for each case, or dumps its instructions, as bench.c says. */
void settings_run(bool count);

#endif
