/*
 * Replaces a file safely.  The new contents are written to a file beside it, FILE.tfnode-new, which
 * then takes its name, so that whatever stops the tool the name stands for the old contents or the
 * new, never for a mixture.
 *
 * The file beside is also the lock: a tool holds it (flock) from before it reads FILE until it has
 * replaced it, and a second one is refused.  Since FILE itself is never written to, a tool that
 * only looks needs no lock.  A file beside that a killed tool left is taken over by the next.
 *
 * A process replaces one file at a time.  Every function fails with one line if it cannot do its
 * part; the file beside is then removed and FILE is as it was.
 */
#ifndef BESIDE_H
#define BESIDE_H

#include <stddef.h>
#include <sys/stat.h>

/* Takes the lock on `path`, which need not exist yet. */
void beside_begin(const char *path);

/* The same for a file that must not exist yet, so that nothing is replaced. */
void beside_begin_new(const char *path);

/* Adds bytes to the new contents. */
void beside_write(const void *bytes, size_t n);

/* Makes the new contents last and gives them the name.  Owner and permissions are those of `old`,
 * or a new file's where old is NULL. */
void beside_commit(const struct stat *old);

#endif
