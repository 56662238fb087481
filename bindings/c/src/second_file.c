/* The second file of a store that is written by path. It does what the Rattle `DiskSink` does, by the same names and
 * locks, so that writers of all kinds exclude one another. All names are looked up in the folder that was opened first,
 * so a program may change its working folder. */
#define _GNU_SOURCE
#include <errno.h>
#include <fcntl.h>
#include <linux/fs.h>
#include <stdio.h>
#include <stdlib.h>
#include <string.h>
#include <sys/file.h>
#include <sys/ioctl.h>
#include <sys/stat.h>
#include <unistd.h>

#include "by_path.h"

/* The path where links lead, or NULL with errno. A link that leads nowhere is an error. */
static char *without_links(const char *path) {
    struct stat found;
    if (lstat(path, &found) != 0) {
        return errno == ENOENT ? strdup(path) : NULL;
    }
    return S_ISLNK(found.st_mode) ? realpath(path, NULL) : strdup(path);
}

/* Sets both names, and opens the folder of a path, which may be cut. */
static int open_folder(zevk_part *part, char *path) {
    char *slash = strrchr(path, '/');
    const char *name = slash == NULL ? path : slash + 1;
    size_t len = strlen(name);
    part->name = strdup(name);
    part->part = malloc(len + sizeof ".part");
    if (part->name == NULL || part->part == NULL) {
        return ZEVK_NO_MEMORY;
    }
    memcpy(part->part, name, len);
    memcpy(part->part + len, ".part", sizeof ".part");
    if (slash != NULL) {
        slash[slash == path] = '\0';
    }
    part->folder = zevk_above_standard(open(slash == NULL ? "." : path, O_RDONLY | O_DIRECTORY | O_CLOEXEC));
    if (part->folder < 0) {
        return -errno;
    }
    return len > 0 ? 0 : ZEVK_NOT_PLAIN_FILE;
}

/* Sets `found` to what a name of the folder is, without following a link. Returns 1, or 0 if there is nothing of this
 * name, or an error. */
static int look(const zevk_part *part, const char *name, struct stat *found) {
    if (fstatat(part->folder, name, found, AT_SYMLINK_NOFOLLOW) == 0) {
        return 1;
    }
    return errno == ENOENT ? 0 : -errno;
}

/* Locks the second file. One that another holds, or that took its name in the meantime, is busy. */
static int lock(const zevk_part *part) {
    struct stat opened, named;
    if (flock(part->file, LOCK_EX | LOCK_NB) != 0) {
        return errno == EWOULDBLOCK ? ZEVK_BUSY : -errno;
    }
    if (fstat(part->file, &opened) != 0) {
        return -errno;
    }
    if (!S_ISREG(opened.st_mode)) {
        return ZEVK_NOT_PLAIN_FILE;
    }
    int is_there = look(part, part->part, &named);
    if (is_there < 0) {
        return is_there;
    }
    return is_there && opened.st_dev == named.st_dev && opened.st_ino == named.st_ino ? 0 : ZEVK_BUSY;
}

/* Gives the second file the mode of the file that it will replace, and its group and owner where the system lets us. */
static int copy_access(const zevk_part *part, const struct stat *replaced) {
    int is_given = fchown(part->file, (uid_t)-1, replaced->st_gid);
    is_given = fchown(part->file, replaced->st_uid, (gid_t)-1);
    (void)is_given;
    return fchmod(part->file, replaced->st_mode & 0777) == 0 ? 0 : -errno;
}

/* Opens the second file, and locks it. A pipe or a device of its name is not opened; one that comes meanwhile is not
 * waited for. */
static int claim(zevk_part *part, mode_t mode) {
    static const int flags = O_WRONLY | O_CREAT | O_CLOEXEC | O_NOFOLLOW | O_NONBLOCK | O_NOCTTY;
    struct stat found;
    int is_there = look(part, part->part, &found);
    if (is_there < 0) {
        return is_there;
    }
    if (is_there && !S_ISREG(found.st_mode) && !S_ISLNK(found.st_mode)) {
        return ZEVK_NOT_PLAIN_FILE;
    }
    part->file = zevk_above_standard(openat(part->folder, part->part, flags, mode));
    if (part->file < 0) {
        /* ENXIO: a pipe that nobody reads, or a socket. */
        return errno == ENXIO ? ZEVK_NOT_PLAIN_FILE : -errno;
    }
    int error = lock(part);
    part->is_owned = error != ZEVK_BUSY && error != ZEVK_NOT_PLAIN_FILE;
    return error;
}

int zevk_part_begin(zevk_part *part, const char *path, int replaces) {
    struct stat replaced;
    *part = (zevk_part){.folder = -1, .file = -1, .replaces = replaces};
    char *whole = without_links(path);
    if (whole == NULL) {
        return -errno;
    }
    int error = open_folder(part, whole);
    free(whole);
    if (error != 0) {
        return error;
    }
    int is_there = look(part, part->name, &replaced);
    if (is_there < 0) {
        return is_there;
    }
    if (is_there && !S_ISREG(replaced.st_mode)) {
        return ZEVK_NOT_PLAIN_FILE;
    }
    if (is_there && !replaces) {
        return -EEXIST;
    }
    /* Nobody else may open it before it has the mode of the file that it will replace. */
    error = claim(part, is_there ? 0600 : 0666);
    if (error == 0 && is_there) {
        error = copy_access(part, &replaced);
    }
    return error == 0 && ftruncate(part->file, 0) != 0 ? -errno : error;
}

int zevk_part_write(const zevk_part *part, const uint8_t *bytes, size_t len) {
    while (len > 0) {
        ssize_t written = write(part->file, bytes, len);
        if (written < 0 && errno != EINTR) {
            return -errno;
        }
        bytes += written < 0 ? 0 : written;
        len -= written < 0 ? 0 : (size_t)written;
    }
    return 0;
}

int zevk_part_share(const zevk_part *part, int descriptor, const uint8_t *bytes, size_t len) {
    loff_t done = 0;
    if (len > 0 && ioctl(part->file, FICLONE, descriptor) == 0) {
        int is_cut = ftruncate(part->file, (off_t)len) == 0 && lseek(part->file, (off_t)len, SEEK_SET) >= 0;
        return is_cut ? 0 : -errno;
    }
    /* It moves on in both files. Where it fails the rest is written, which meets the same error if there is one. */
    while ((size_t)done < len && copy_file_range(descriptor, &done, part->file, NULL, len - (size_t)done, 0) > 0) {
    }
    return zevk_part_write(part, bytes + done, len - (size_t)done);
}

/* Gives the second file a name that no file has. Where the file system has no such call, the name is looked up before
 * it is given. */
static int take_free_name(const zevk_part *part) {
    struct stat found;
    if (renameat2(part->folder, part->part, part->folder, part->name, RENAME_NOREPLACE) == 0) {
        return 0;
    }
    if (errno != EINVAL && errno != ENOSYS) {
        return -errno;
    }
    int is_there = look(part, part->name, &found);
    if (is_there != 0) {
        return is_there < 0 ? is_there : -EEXIST;
    }
    return renameat(part->folder, part->part, part->folder, part->name) == 0 ? 0 : -errno;
}

/* Gives the second file its name. */
static int take_name(const zevk_part *part) {
    if (!part->replaces) {
        return take_free_name(part);
    }
    return renameat(part->folder, part->part, part->folder, part->name) == 0 ? 0 : -errno;
}

int zevk_part_publish(zevk_part *part) {
    int error = fsync(part->file) == 0 ? take_name(part) : -errno;
    if (error != 0) {
        return error;
    }
    part->is_owned = 0;
    return fsync(part->folder) == 0 ? 0 : -errno;
}

void zevk_part_release(zevk_part *part) {
    if (part->is_owned) {
        unlinkat(part->folder, part->part, 0);
    }
    /* Only now, as the lock goes with it. */
    if (part->file >= 0) {
        close(part->file);
    }
    if (part->folder >= 0) {
        close(part->folder);
    }
    free(part->name);
    free(part->part);
}
