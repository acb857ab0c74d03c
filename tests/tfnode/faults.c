/*
 * Stops the tool, or makes a system call fail, at a chosen step of its work on files.  Linked with
 * --wrap in a build for the tests, so that every step can be tried.
 *
 * TFNODE_FAULT is "STEP kill" or "STEP ERRNO".  Steps count from 1.  A killed write has written
 * half of its bytes.
 */
#include <errno.h>
#include <fcntl.h>
#include <signal.h>
#include <stdarg.h>
#include <stdbool.h>
#include <stdlib.h>
#include <string.h>
#include <sys/stat.h>
#include <sys/types.h>
#include <unistd.h>

int __real_open(const char *path, int flags, ...);
int __real_ftruncate(int fd, off_t length);
ssize_t __real_write(int fd, const void *bytes, size_t n);
int __real_fchmod(int fd, mode_t mode);
int __real_fsync(int fd);
int __real_rename(const char *from, const char *to);

int __wrap_open(const char *path, int flags, ...);
int __wrap_ftruncate(int fd, off_t length);
ssize_t __wrap_write(int fd, const void *bytes, size_t n);
int __wrap_fchmod(int fd, mode_t mode);
int __wrap_fsync(int fd);
int __wrap_rename(const char *from, const char *to);

/* Counts a step.  At the chosen one the tool is killed, or true is given and errno set. */
static bool step_fails(int fd, const void *bytes, size_t n)
{
    static unsigned long step;
    const char *fault = getenv("TFNODE_FAULT");
    char *rest;
    if (fault == NULL || ++step != strtoul(fault, &rest, 10))
        return false;
    if (strcmp(rest, " kill") != 0) {
        errno = atoi(rest);
        return true;
    }
    if (n > 0 && __real_write(fd, bytes, n / 2) < 0)
        abort();
    kill(getpid(), SIGKILL);
    return true;
}

int __wrap_open(const char *path, int flags, ...)
{
    va_list values;
    va_start(values, flags);
    mode_t mode = (flags & O_CREAT) != 0 ? va_arg(values, mode_t) : 0;
    va_end(values);
    return step_fails(-1, NULL, 0) ? -1 : __real_open(path, flags, mode);
}

int __wrap_ftruncate(int fd, off_t length)
{
    return step_fails(-1, NULL, 0) ? -1 : __real_ftruncate(fd, length);
}

ssize_t __wrap_write(int fd, const void *bytes, size_t n)
{
    return step_fails(fd, bytes, n) ? -1 : __real_write(fd, bytes, n);
}

int __wrap_fchmod(int fd, mode_t mode)
{
    return step_fails(-1, NULL, 0) ? -1 : __real_fchmod(fd, mode);
}

int __wrap_fsync(int fd)
{
    return step_fails(-1, NULL, 0) ? -1 : __real_fsync(fd);
}

int __wrap_rename(const char *from, const char *to)
{
    return step_fails(-1, NULL, 0) ? -1 : __real_rename(from, to);
}
