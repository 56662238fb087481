/* Makes one call of a program with stores by path fail: the one whose number FAIL_AT says, counted from 1. Its name
 * goes to standard error.
 *
 * SHARE says how the system shares bytes between files: "clone", "copy", "part" (a few bytes, and then an error), or
 * not. With OLD_RENAME the file system can't rename without replacing; with TAKEN another file takes the name before
 * the last look at it. With LOST the second file loses its name before it is locked, as where another writer has just
 * renamed it.
 * The program is linked with --wrap for each of these calls.
 */
#define _GNU_SOURCE
#include "failing.h"
#include <fcntl.h>
#include <linux/fs.h>
#include <stdarg.h>
#include <stdio.h>
#include <string.h>
#include <sys/mman.h>
#include <sys/stat.h>
#include <unistd.h>

/* Whether the call of this name fails. */
static int is_failing(const char *name) {
    if (!fails()) {
        return 0;
    }
    dprintf(2, "failing: %s\n", name);
    errno = ENOSPC;
    return 1;
}

#define FAILS(name) is_failing(#name)

WRAPPED(void *, malloc, (size_t size), (size), NULL)
WRAPPED(void *, calloc, (size_t count, size_t size), (count, size), NULL)
WRAPPED(void *, realloc, (void *block, size_t size), (block, size), NULL)
WRAPPED(char *, strdup, (const char *text), (text), NULL)
WRAPPED(char *, realpath, (const char *path, char *room), (path, room), NULL)
WRAPPED(int, lstat, (const char *path, struct stat *found), (path, found), -1)
WRAPPED(int, fstat, (int file, struct stat *found), (file, found), -1)
WRAPPED(int, fstatat, (int folder, const char *path, struct stat *found, int flags), (folder, path, found, flags), -1)
WRAPPED(int, open, (const char *path, int flags), (path, flags), -1)
WRAPPED(int, openat, (int folder, const char *path, int flags, mode_t mode), (folder, path, flags, mode), -1)
WRAPPED(int, fchown, (int file, uid_t user, gid_t group), (file, user, group), -1)
WRAPPED(int, fchmod, (int file, mode_t mode), (file, mode), -1)
WRAPPED(int, ftruncate, (int file, off_t len), (file, len), -1)
WRAPPED(off_t, lseek, (int file, off_t to, int from), (file, to, from), -1)
WRAPPED(void *, mmap, (void *at, size_t len, int rights, int kind, int file, off_t from),
        (at, len, rights, kind, file, from), MAP_FAILED)
WRAPPED(ssize_t, write, (int file, const void *bytes, size_t len), (file, bytes, len), -1)
WRAPPED(int, fsync, (int file), (file), -1)
WRAPPED(int, renameat, (int folder, const char *from, int other, const char *to), (folder, from, other, to), -1)
WRAPPED(ssize_t, getline, (char **line, size_t *room, FILE *file), (line, room, file), -1)

/* A rename that replaces no file, by a file system that may not have it. */
int __real_renameat2(int folder, const char *from, int other, const char *to, unsigned flags);
int __wrap_renameat2(int folder, const char *from, int other, const char *to, unsigned flags);
int __wrap_renameat2(int folder, const char *from, int other, const char *to, unsigned flags) {
    if (is_failing("renameat2")) {
        return -1;
    }
    if (getenv("TAKEN") != NULL) {
        close(openat(other, to, O_WRONLY | O_CREAT | O_EXCL | O_CLOEXEC, 0600));
    }
    if (getenv("OLD_RENAME") != NULL) {
        errno = EINVAL;
        return -1;
    }
    return __real_renameat2(folder, from, other, to, flags);
}

static int shares_by(const char *kind) {
    const char *share = getenv("SHARE");
    return share != NULL && strcmp(share, kind) == 0;
}

int __real_flock(int file, int operation);
int __wrap_flock(int file, int operation);
int __wrap_flock(int file, int operation) {
    char link[64], path[4096];
    if (getenv("LOST") != NULL) {
        snprintf(link, sizeof link, "/proc/self/fd/%d", file);
        ssize_t len = readlink(link, path, sizeof path - 1);
        path[len > 0 ? len : 0] = '\0';
        unlink(path);
    }
    return is_failing("flock") ? -1 : __real_flock(file, operation);
}

/* Shares the whole of a file, which here is a copy. */
static int clone(int to, int from) {
    char bytes[4096];
    ssize_t len;
    for (off_t at = 0; (len = pread(from, bytes, sizeof bytes, at)) > 0; at += len) {
        if (pwrite(to, bytes, (size_t)len, at) != len) {
            return -1;
        }
    }
    return len < 0 ? -1 : 0;
}

int __wrap_ioctl(int file, unsigned long request, ...);
int __wrap_ioctl(int file, unsigned long request, ...) {
    va_list more;
    va_start(more, request);
    int from = va_arg(more, int);
    va_end(more);
    if (is_failing("ioctl") || request != FICLONE || !shares_by("clone")) {
        errno = EOPNOTSUPP;
        return -1;
    }
    return clone(file, from);
}

ssize_t __real_copy_file_range(int from, off_t *at, int to, off_t *to_at, size_t len, unsigned flags);
ssize_t __wrap_copy_file_range(int from, off_t *at, int to, off_t *to_at, size_t len, unsigned flags);
ssize_t __wrap_copy_file_range(int from, off_t *at, int to, off_t *to_at, size_t len, unsigned flags) {
    static int copied = 0;
    int is_part = shares_by("part") && copied++ < 2;
    if (is_failing("copy_file_range") || !(is_part || shares_by("copy"))) {
        errno = EXDEV;
        return -1;
    }
    return __real_copy_file_range(from, at, to, to_at, is_part && len > 7 ? 7 : len, flags);
}

/* A file or folder that can't be closed is closed all the same. */
int __real_close(int file);
int __wrap_close(int file);
int __wrap_close(int file) {
    int fails_here = is_failing("close");
    return __real_close(file) == 0 && !fails_here ? 0 : -1;
}
