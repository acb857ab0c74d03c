/*
 * What the tool says to a person on standard error: the one line of an error, notes, and a progress
 * bar.  Answers go to standard output and are printed where they are found.
 */
#ifndef SAY_H
#define SAY_H

#include <stdint.h>

/* Exit statuses, as docs/TFNODE.md lists them. */
enum status {
    STATUS_DONE = 0,
    STATUS_ANSWER = 1, /* the node answered DAMAGED or UNWRITTEN */
    STATUS_USAGE = 2,  /* what was typed or fed in cannot be meant */
    STATUS_FILE = 3    /* a file could not be read, written or understood */
};

/* Prints one line and ends the program.  The line says the cause and, after it, what to do. */
_Noreturn void fail(enum status status, const char *format, ...)
    __attribute__((format(printf, 2, 3)));

/* From here on the line of an error says that the change itself is done. */
void change_is_done(void);

/* Prints one line that the person should know of; the command goes on. */
void note(const char *format, ...) __attribute__((format(printf, 1, 2)));

/* Draws how many pages are done, on a terminal only.  A total of 0 is one that is not known. */
void show_progress(const char *command, uint64_t done, uint64_t total);

/* Takes the bar away. */
void end_progress(void);

/* Fails unless everything printed so far has reached standard output. */
void flush_answer(void);

#endif
