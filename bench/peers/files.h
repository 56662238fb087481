/* What a side leaves on disk: a file or a folder of files. */
#ifndef FILES_H
#define FILES_H

#include <stdbool.h>
#include <stddef.h>
#include <stdint.h>

/* Whether calls that ask the system to keep a file are passed on to it. At first they are not: see syncs.c. */
extern bool syncs_reach_the_system;

bool path_exists(const char *path);

/* The bytes that are taken, without the holes of a file. */
uint64_t path_size(const char *path);

/* Asks the system to keep all files, their folder and the folder above. */
void path_sync(const char *path);

void path_remove(const char *path);

/* Drops the files from the page cache. Answers how many of a thousand of their pages are left there. */
unsigned path_drop(const char *path);

/* A file that is mapped for reading. */
struct map {
    uint8_t *start;
    size_t length;
};

struct map map_file(const char *path);
void map_scattered(struct map map);
void unmap_file(struct map map);

/* A file that is read by ranges, as one that lies elsewhere is: each range is asked for by itself, and counted. */
struct ranges {
    int file;
    size_t length;
    uint64_t reads;
    uint64_t bytes;
};

struct ranges ranges_open(const char *path);

/* Reads `length` bytes from `start` on. */
void ranges_read(struct ranges *ranges, size_t start, size_t length, uint8_t *into);

void ranges_close(struct ranges *ranges);

#endif
