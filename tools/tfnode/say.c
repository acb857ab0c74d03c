/* Errors, notes and the progress bar, all on standard error. */
#include "say.h"

#include <errno.h>
#include <inttypes.h>
#include <stdarg.h>
#include <stdbool.h>
#include <stdio.h>
#include <stdlib.h>
#include <string.h>
#include <unistd.h>

static bool bar_shown, change_done;

static void say_line(const char *before, const char *format, va_list values, const char *after)
{
    end_progress();
    fprintf(stderr, "tfnode: %s", before);
    vfprintf(stderr, format, values);
    fprintf(stderr, "%s\n", after);
}

void fail(enum status status, const char *format, ...)
{
    va_list values;
    va_start(values, format);
    say_line("", format, values, change_done ? " (the change itself is done)" : "");
    va_end(values);
    exit(status);
}

void change_is_done(void)
{
    change_done = true;
}

void note(const char *format, ...)
{
    va_list values;
    va_start(values, format);
    say_line("note: ", format, values, "");
    va_end(values);
}

void show_progress(const char *command, uint64_t done, uint64_t total)
{
    static const char full[] = "########################################";
    const int width = (int)sizeof full - 1;
    if (!isatty(STDERR_FILENO))
        return;
    bar_shown = true;
    if (total == 0) {
        fprintf(stderr, "\r%s: %" PRIu64 " pages", command, done);
        return;
    }
    int filled = done >= total ? width : (int)(done * (uint64_t)width / total);
    fprintf(stderr, "\r%s: [%.*s%*s] %" PRIu64 " of %" PRIu64 " pages", command, filled, full,
            width - filled, "", done, total);
}

void end_progress(void)
{
    if (bar_shown)
        fputs("\r\033[K", stderr);
    bar_shown = false;
}

void flush_answer(void)
{
    if (fflush(stdout) != 0 || ferror(stdout))
        fail(STATUS_FILE, "cannot write standard output: %s; send it where there is room",
             strerror(errno));
}
