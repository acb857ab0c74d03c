/* The commands, each in the file that its purpose names.  The table of them is in commands.c. */
#ifndef COMMANDS_H
#define COMMANDS_H

#include "arguments.h"

/* new.c */
enum status command_new(const struct arguments *arguments);
/* info.c */
enum status command_info(const struct arguments *arguments);
/* settings.c */
enum status command_settings(const struct arguments *arguments);
/* check.c */
enum status command_check(const struct arguments *arguments);
/* page.c */
enum status command_write(const struct arguments *arguments);
enum status command_read(const struct arguments *arguments);
/* pages.c */
enum status command_load(const struct arguments *arguments);
enum status command_dump(const struct arguments *arguments);
/* replay.c */
enum status command_replay(const struct arguments *arguments);
/* map.c */
enum status command_map(const struct arguments *arguments);
/* upgrade.c */
enum status command_upgrade(const struct arguments *arguments);

/* The command of that name, NULL if there is none. */
const struct command *find_command(const char *name);

/* What `tfnode --help` prints. */
extern const char overview[];

#endif
