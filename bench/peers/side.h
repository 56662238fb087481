/* What each side is asked to do: the same few calls, so that one loop serves them all. */
#ifndef SIDE_H
#define SIDE_H

#include <stdbool.h>
#include <stddef.h>
#include <stdint.h>

#include "check.h"
#include "documents.h"
#include "files.h"

/* How a store is written and read. */
struct settings {
    uint32_t count;      /* documents, numbered from 0 */
    size_t length;       /* bytes of each, or their mean */
    bool are_many;       /* the documents have many lengths */
    size_t block_size;   /* bytes of a block, for the sides that take one: ours */
    size_t cache_bytes;  /* what a reader may keep of the file in memory of its own */
    unsigned threads;    /* how many read at once */
    bool scattered;      /* reads will be far apart, in a file that is not in memory */
    bool synced_once;    /* a log puts its syncs off until `log_sync` */
};

struct side {
    const char *name;

    /* Called once before anything else. NULL where there is nothing to do. */
    void (*prepare)(const struct settings *settings);

    /* Writes all documents by their numbers, and ends with a file that needs no more work before it is opened. */
    void (*write)(const char *path, const struct documents *documents, const struct settings *settings);

    /* Adds `more` documents after the `settings->count` of a store that was written, with the next numbers. NULL
     * where a library can't. */
    void (*append)(const char *path, const struct documents *documents, const struct settings *settings, uint32_t more);

    /* A new log, an append of the documents from one number up to another, which is back once the system keeps them
     * all, a sync for a log that puts it off, and the log's end. NULL where a side is no log. */
    void *(*log_begin)(const char *path, const struct settings *settings);
    void (*log_append)(void *log, const struct documents *documents, uint32_t first, uint32_t end);
    void (*log_sync)(void *log);
    void (*log_end)(void *log);

    /* Opens what was written. All threads share it. */
    void *(*open)(const char *path, const struct settings *settings);

    /* What one thread reads by, and its end. */
    void *(*begin)(void *store);
    void (*end)(void *reader);

    /* A document, whose bytes stay until the next call by the same reader. */
    struct bytes (*get)(void *reader, uint32_t number);

    /* Adds all documents to the check, in order, by the side's own walk. */
    void (*iterate)(void *reader, struct check *check);

    void (*close)(void *store);

    /* The ranges of its file that a reader has asked for so far. NULL for a side that reads no ranges. */
    const struct ranges *(*ranges)(const void *reader);
};

extern const struct side plain_side, lmdb_side, lmdb_cursor_side, sqlite_side, leveldb_side, rocksdb_side, cdb_side,
    zevk_side, unopened_side, path_side, checked_side, ranged_side, plain_ranged_side;

/* Beginning and end of a reader, for a side whose threads all read by the store itself. */
static inline void *begin_shared(void *store) {
    return store;
}

static inline void end_shared(void *reader) {
    (void)reader;
}

/* Ends the program with a text, and where it came from. */
_Noreturn void stop(const char *who, const char *why);

/* Ends the program where a condition does not hold. */
static inline void require(bool condition, const char *who, const char *why) {
    if (!condition) {
        stop(who, why);
    }
}

#endif
