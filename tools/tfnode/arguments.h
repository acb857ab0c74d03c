/* What was typed: a command, its operands and its options. */
#ifndef ARGUMENTS_H
#define ARGUMENTS_H

#include "node.h"
#include "say.h"

#include <stdbool.h>
#include <stddef.h>
#include <stdint.h>

enum { MOST_OPERANDS = 3 };

/* The options, each a bit, so that a command can list those that it takes. */
enum option {
    OPTION_JSON = 1,
    OPTION_GEOMETRY = 2,
    OPTION_PRESET = 4,
    OPTION_LINES = 8,
    OPTION_SVG = 16,
    OPTION_SETTINGS = 32,
    OPTION_WRITE = 64,
    OPTION_HELP = 128
};

struct arguments {
    const char *operands[MOST_OPERANDS];
    unsigned given; /* the options that were */
    const char *geometry, *preset, *svg, *settings, *write;
};

struct command {
    const char *name;
    const char *operands[MOST_OPERANDS + 1]; /* their names, ended by NULL */
    unsigned options;                        /* those it takes besides --help */
    enum status (*run)(const struct arguments *arguments);
    const char *help;
};

static inline bool given(const struct arguments *arguments, enum option option)
{
    return (arguments->given & (unsigned)option) != 0;
}

/* Takes the words after the command's name.  Fails with one line if they are not its own; with
 * --help the operands may be missing. */
void take_arguments(struct arguments *arguments, const struct command *command, char **words);

/* A decimal number of 32 bits, digits only; false for anything else. */
bool parse_number(const char *text, uint32_t *number);

/* The same for an operand; fails, and names it, if it is no such number. */
uint32_t number_operand(const char *text, const char *name);

/* The geometry that --geometry or --preset gives; false if --settings names a file that has it.
 * Fails unless one of the three is given. */
bool geometry_option(const struct arguments *arguments, struct geometry *geometry);

/* Fails unless `count` pages from `first` are logical pages of the node. */
void demand_pages(const struct node *node, uint32_t first, uint64_t count);

#endif
