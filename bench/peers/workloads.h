/* What is timed. Each workload does one thing to one side and reports it. */
#ifndef WORKLOADS_H
#define WORKLOADS_H

#include "side.h"

struct work {
    const struct side *side;
    const char *path;           /* of the store */
    struct settings settings;
    enum order order;
    size_t questions;           /* gets of each thread, or how often it is opened */
    uint32_t hot;
};

/* What a workload took and did. What it does not measure is 0. */
struct told {
    uint64_t count;
    uint64_t nanoseconds;
    uint64_t open_nanoseconds;  /* from the closed file to a reader, where it is timed alone */
    uint64_t sync_nanoseconds;
    uint64_t file_bytes;
    uint64_t own_bytes;         /* of memory, more than before the store was opened */
    uint64_t peak_bytes;
    uint64_t reads;             /* ranges of a file that were asked for, and their bytes */
    uint64_t read_bytes;
    uint64_t open_reads;        /* the same of opening */
    uint64_t open_read_bytes;
    uint64_t check;
};

/* Writes a store, with the sync told apart. A walk for the check follows, which no clock sees. */
struct told work_write(const struct work *work);

/* Gets by one thread, all bytes in memory. */
struct told work_get(const struct work *work);

/* Gets by one thread, no byte in memory: the pages are dropped before. */
struct told work_cold(const struct work *work);

/* Gets by several threads at once over one opened store. */
struct told work_threads(const struct work *work);

/* All documents in order. */
struct told work_iterate(const struct work *work);

/* Gets by one thread, each document copied to memory of its own that is kept. */
struct told work_keep(const struct work *work);

/* Adds as many documents as there are questions to a store, once, with the sync told apart. */
struct told work_append(const struct work *work);

/* Appends all documents to a new log, as many as there are questions at once. Each batch is kept before the next. */
struct told work_log(const struct work *work);

/* The same with one sync, after the last batch. */
struct told work_log_synced_once(const struct work *work);

/* Gets by one thread from a side that reads its file by ranges. */
struct told work_ranges(const struct work *work);

/* Opens the store and gets its document 0, again and again. */
struct told work_open(const struct work *work);

/* How large it is on disk. */
struct told work_size(const struct work *work);

#endif
