#include "files.h"

#include <fcntl.h>
#include <ftw.h>
#include <libgen.h>
#include <limits.h>
#include <stdio.h>
#include <stdlib.h>
#include <string.h>
#include <sys/mman.h>
#include <sys/stat.h>
#include <unistd.h>

#include "side.h"

enum { OPEN_FOLDERS = 16, PAGE = 4096 };

/* Sums over the files of a walk, which has no argument of its own. */
static uint64_t bytes_found, pages_found, pages_left;

static uint64_t bytes_taken(const struct stat *status) {
    uint64_t length = (uint64_t)status->st_size, taken = (uint64_t)status->st_blocks * 512;
    return length < taken ? length : taken;
}

static void walk(const char *path, __nftw_func_t visit) {
    require(nftw(path, visit, OPEN_FOLDERS, FTW_DEPTH | FTW_PHYS) == 0, "files", path);
}

bool path_exists(const char *path) {
    return access(path, F_OK) == 0;
}

static int add_size(const char *path, const struct stat *status, int kind, struct FTW *place) {
    (void)path, (void)place;
    bytes_found += kind == FTW_F ? bytes_taken(status) : 0;
    return 0;
}

uint64_t path_size(const char *path) {
    bytes_found = 0;
    walk(path, add_size);
    return bytes_found;
}

static int sync_one(const char *path, const struct stat *status, int kind, struct FTW *place) {
    (void)status, (void)kind, (void)place;
    int file = open(path, O_RDONLY);
    if (file < 0) {
        return 1;
    }
    int answer = fsync(file);
    close(file);
    return answer;
}

void path_sync(const char *path) {
    char above[PATH_MAX];
    require(strlen(path) < sizeof above, "files", "a path that is too long");
    strcpy(above, path);
    syncs_reach_the_system = true;
    walk(path, sync_one);
    require(sync_one(dirname(above), NULL, 0, NULL) == 0, "files", "the folder can't be synced");
    syncs_reach_the_system = false;
}

static int remove_one(const char *path, const struct stat *status, int kind, struct FTW *place) {
    (void)status, (void)kind, (void)place;
    return remove(path);
}

void path_remove(const char *path) {
    if (path_exists(path)) {
        walk(path, remove_one);
    }
}

/* Counts what the system still has of a file. A map brings nothing in until it is read from. */
static void count_left(int file, size_t length) {
    size_t pages = (length + PAGE - 1) / PAGE;
    void *start = mmap(NULL, length, PROT_READ, MAP_SHARED, file, 0);
    unsigned char *left = malloc(pages);
    require(start != MAP_FAILED && left != NULL, "files", "no memory");
    require(mincore(start, length, left) == 0, "files", "the page cache can't be asked");
    for (size_t page = 0; page < pages; page++) {
        pages_left += left[page] & 1;
    }
    free(left);
    munmap(start, length);
}

static int drop_one(const char *path, const struct stat *status, int kind, struct FTW *place) {
    (void)place;
    if (kind != FTW_F || status->st_size == 0) {
        return 0;
    }
    int file = open(path, O_RDONLY);
    require(file >= 0, "files", path);
    require(posix_fadvise(file, 0, 0, POSIX_FADV_DONTNEED) == 0, "files", "the page cache can't be dropped");
    count_left(file, (size_t)status->st_size);
    pages_found += (bytes_taken(status) + PAGE - 1) / PAGE;
    close(file);
    return 0;
}

unsigned path_drop(const char *path) {
    path_sync(path);  /* only pages that were written are dropped */
    pages_found = 0;
    pages_left = 0;
    walk(path, drop_one);
    return (unsigned)(pages_left * 1000 / (pages_found > 0 ? pages_found : 1));
}

struct map map_file(const char *path) {
    struct stat status;
    int file = open(path, O_RDONLY);
    require(file >= 0 && fstat(file, &status) == 0 && status.st_size > 0, "files", path);
    void *start = mmap(NULL, (size_t)status.st_size, PROT_READ, MAP_SHARED, file, 0);
    require(start != MAP_FAILED, "files", "a file can't be mapped");
    close(file);
    return (struct map){start, (size_t)status.st_size};
}

void map_scattered(struct map map) {
    require(madvise(map.start, map.length, MADV_RANDOM) == 0, "files", "madvise");
}

void unmap_file(struct map map) {
    munmap(map.start, map.length);
}

struct ranges ranges_open(const char *path) {
    struct stat status;
    int file = open(path, O_RDONLY);
    require(file >= 0 && fstat(file, &status) == 0, "files", path);
    return (struct ranges){file, (size_t)status.st_size, 0, 0};
}

void ranges_read(struct ranges *ranges, size_t start, size_t length, uint8_t *into) {
    require(pread(ranges->file, into, length, (off_t)start) == (ssize_t)length, "files", "a range can't be read");
    ranges->reads++;
    ranges->bytes += length;
}

void ranges_close(struct ranges *ranges) {
    close(ranges->file);
}
