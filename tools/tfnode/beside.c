/* The file beside: lock, write, flush, rename, flush the folder. */
#include "beside.h"

#include "say.h"

#include <errno.h>
#include <fcntl.h>
#include <libgen.h>
#include <signal.h>
#include <stdatomic.h>
#include <stdbool.h>
#include <stdio.h>
#include <stdlib.h>
#include <string.h>
#include <sys/file.h>
#include <unistd.h>

static const char suffix[] = ".tfnode-new";

static int fd = -1;
static char *target, *beside;

/* The file beside while it is ours to remove, for exits and signals. */
static _Atomic(char *) to_remove;

static void remove_beside(void)
{
    char *name = atomic_exchange(&to_remove, NULL);
    if (name != NULL)
        unlink(name);
}

/* The default action follows, since the handler is gone once it runs (SA_RESETHAND). */
static void on_signal(int number)
{
    remove_beside();
    raise(number);
}

static void remove_when_stopped(void)
{
    static const int stopping[] = {SIGINT, SIGTERM, SIGHUP, SIGPIPE};
    struct sigaction action = {.sa_handler = on_signal, .sa_flags = (int)SA_RESETHAND};
    sigemptyset(&action.sa_mask);
    for (size_t i = 0; i < sizeof stopping / sizeof *stopping; i++)
        sigaction(stopping[i], &action, NULL);
    signal(SIGXFSZ, SIG_IGN); /* a limit on file sizes is an error of write, not an end */
    atexit(remove_beside);
}

_Noreturn static void fail_to(const char *what, const char *name)
{
    int cause = errno;
    const char *advice = "see that its folder exists and may be written to";
    if (cause == ENOSPC || cause == EDQUOT || cause == EFBIG)
        advice = "make room there and try again";
    else if (cause == ELOOP || cause == EISDIR || cause == EEXIST)
        advice = "it is no file of this tool's, remove it";
    fail(STATUS_FILE, "cannot %s %s: %s; %s (%s is as it was)", what, name, strerror(cause), advice,
         target);
}

/* Whether the open file still has its name: another tool may have renamed or removed it before the
 * lock was ours. */
static bool still_named(void)
{
    struct stat open_file, named;
    if (fstat(fd, &open_file) != 0 || !S_ISREG(open_file.st_mode)) {
        errno = EEXIST;
        fail_to("use", beside);
    }
    return lstat(beside, &named) == 0 && named.st_dev == open_file.st_dev &&
           named.st_ino == open_file.st_ino;
}

static void take_lock(void)
{
    for (;;) {
        /* Private until the commit, since it holds what a private image may hold. */
        fd = open(beside, O_RDWR | O_CREAT | O_NOFOLLOW | O_CLOEXEC, 0600);
        if (fd < 0)
            fail_to("create", beside);
        bool locked = flock(fd, LOCK_EX | LOCK_NB) == 0;
        if (!locked && errno == EWOULDBLOCK)
            fail(STATUS_FILE, "another tfnode is changing %s; try again when it is done", target);
        if (!locked)
            fail_to("lock", beside);
        if (still_named())
            return;
        close(fd);
    }
}

void beside_begin(const char *path)
{
    size_t length = strlen(path);
    target = malloc(length + 1);
    beside = malloc(length + sizeof suffix);
    if (target == NULL || beside == NULL)
        fail(STATUS_FILE, "no memory left; close other programs and try again");
    memcpy(target, path, length + 1);
    memcpy(beside, path, length);
    memcpy(beside + length, suffix, sizeof suffix);
    take_lock();
    remove_when_stopped();
    atomic_store(&to_remove, beside);
    if (ftruncate(fd, 0) != 0)
        fail_to("empty", beside);
}

void beside_begin_new(const char *path)
{
    struct stat there;
    beside_begin(path);
    /* Asked under the lock, since another tool may just have made it. */
    if (lstat(path, &there) == 0)
        fail(STATUS_FILE, "%s exists; choose another name or remove it first", path);
}

void beside_write(const void *bytes, size_t n)
{
    const char *rest = bytes;
    while (n > 0) {
        ssize_t written = write(fd, rest, n);
        if (written < 0 && errno == EINTR)
            continue;
        if (written < 0)
            fail_to("write", beside);
        rest += written;
        n -= (size_t)written;
    }
}

/* The owner is kept where we may; the permissions always. */
static void take_permissions(const struct stat *old)
{
    mode_t mask = umask(0);
    umask(mask);
    if (old != NULL && fchown(fd, old->st_uid, old->st_gid) != 0 && errno != EPERM)
        fail_to("give its owner to", beside);
    if (fchmod(fd, old != NULL ? old->st_mode & 0777 : 0666 & ~mask) != 0)
        fail_to("give its permissions to", beside);
}

/* A name lasts once its folder is flushed.  Some file systems have nothing to flush there. */
static void flush_folder(void)
{
    int folder = open(dirname(beside), O_RDONLY | O_DIRECTORY | O_CLOEXEC);
    if (folder < 0 || (fsync(folder) != 0 && errno != EINVAL))
        fail(STATUS_FILE, "cannot flush the folder of %s: %s; run `sync`", target, strerror(errno));
    close(folder);
}

void beside_commit(const struct stat *old)
{
    take_permissions(old);
    if (fsync(fd) != 0)
        fail_to("flush", beside);
    /* From here on a signal may leave the file beside, but must not remove the next tool's. */
    atomic_store(&to_remove, NULL);
    if (rename(beside, target) != 0) {
        atomic_store(&to_remove, beside);
        fail_to("rename", beside);
    }
    change_is_done();
    flush_folder();
    close(fd);
}
