/* Does one workload to one side, and prints what it took as one line of JSON.
 *
 * usage: peers SIDE WORKLOAD PATH [key=number ...]
 *
 * SIDE: plain, lmdb, lmdb_cursor, sqlite, leveldb, rocksdb, cdb, zevk, unopened, path, checked, ranged or
 * plain_ranged. PATH: the store, which `write`, `log_append` and `log_synced_once` make, `append` changes and the
 * others read.
 * WORKLOAD: write, append, log_append, log_synced_once, uniform, hot, zipf, sequence, keep_uniform, keep_sequence,
 * iterate, open, cold, threads, ranges or size; log_uniform and log_open are uniform and open.
 * Keys: n documents, l bytes of each, many (1: they have many lengths, and l is the mean), bs bytes of a block, cache
 * bytes that a reader may keep, q questions (of each thread; of log_append and log_synced_once the documents of a
 * batch), hot documents that are asked for most, threads.
 */
#include <inttypes.h>
#include <stdio.h>
#include <stdlib.h>
#include <string.h>

#include "workloads.h"

static const struct side *const sides[] = {&plain_side, &lmdb_side,      &lmdb_cursor_side, &sqlite_side,
                                           &leveldb_side, &rocksdb_side, &cdb_side,         &zevk_side,
                                           &unopened_side, &path_side,   &checked_side,   &ranged_side,
                                           &plain_ranged_side};

static const struct {
    const char *name;
    struct told (*run)(const struct work *work);
    enum order order;
} workloads[] = {
    {"write", work_write, UNIFORM},     {"uniform", work_get, UNIFORM},   {"hot", work_get, HOT},
    {"zipf", work_get, ZIPF},           {"sequence", work_get, SEQUENCE}, {"iterate", work_iterate, UNIFORM},
    {"open", work_open, UNIFORM},       {"cold", work_cold, UNIFORM},     {"threads", work_threads, UNIFORM},
    {"size", work_size, UNIFORM},         {"append", work_append, UNIFORM},
    {"log_append", work_log, UNIFORM},    {"log_synced_once", work_log_synced_once, UNIFORM},
    {"log_uniform", work_get, UNIFORM},   {"log_open", work_open, UNIFORM},
    {"keep_uniform", work_keep, UNIFORM}, {"keep_sequence", work_keep, SEQUENCE},
    {"ranges", work_ranges, UNIFORM},
};

_Noreturn void stop(const char *who, const char *why) {
    fprintf(stderr, "peers: %s: %s\n", who, why);
    exit(1);
}

static const struct side *side_of(const char *name) {
    for (size_t at = 0; at < sizeof sides / sizeof *sides; at++) {
        if (strcmp(sides[at]->name, name) == 0) {
            return sides[at];
        }
    }
    stop(name, "no such side");
}

static size_t workload_of(const char *name) {
    for (size_t at = 0; at < sizeof workloads / sizeof *workloads; at++) {
        if (strcmp(workloads[at].name, name) == 0) {
            return at;
        }
    }
    stop(name, "no such workload");
}

/* The number of a word `key=number`, if it has this key. */
static bool take(const char *word, const char *key, uint64_t least, uint64_t most, uint64_t *number) {
    size_t length = strlen(key);
    char *end;
    if (strncmp(word, key, length) != 0 || word[length] != '=') {
        return false;
    }
    *number = strtoull(word + length + 1, &end, 10);
    require(*end == '\0' && end != word + length + 1 && *number >= least && *number <= most, word, "no such number");
    return true;
}

static void take_word(struct work *work, const char *word) {
    uint64_t number;
    if (take(word, "n", 1, UINT32_MAX, &number)) {
        work->settings.count = (uint32_t)number;
    } else if (take(word, "l", 0, SIZE_MAX, &number)) {
        work->settings.length = number;
    } else if (take(word, "many", 0, 1, &number)) {
        work->settings.are_many = number == 1;
    } else if (take(word, "bs", 0, SIZE_MAX, &number)) {
        work->settings.block_size = number;
    } else if (take(word, "cache", 0, SIZE_MAX, &number)) {
        work->settings.cache_bytes = number;
    } else if (take(word, "q", 1, SIZE_MAX, &number)) {
        work->questions = number;
    } else if (take(word, "hot", 1, UINT32_MAX, &number)) {
        work->hot = (uint32_t)number;
    } else if (take(word, "threads", 1, 64, &number)) {
        work->settings.threads = (unsigned)number;
    } else {
        stop(word, "no such key");
    }
}

static void print_told(struct told told) {
    printf("{\"count\": %" PRIu64 ", \"ns\": %" PRIu64 ", \"open_ns\": %" PRIu64 ", \"sync_ns\": %" PRIu64
           ", \"file_bytes\": %" PRIu64 ", \"own_bytes\": %" PRIu64 ", \"peak_bytes\": %" PRIu64
           ", \"reads\": %" PRIu64 ", \"read_bytes\": %" PRIu64 ", \"open_reads\": %" PRIu64
           ", \"open_read_bytes\": %" PRIu64 ", \"check\": \"%" PRIu64 "\"}\n",
           told.count, told.nanoseconds, told.open_nanoseconds, told.sync_nanoseconds, told.file_bytes, told.own_bytes,
           told.peak_bytes, told.reads, told.read_bytes, told.open_reads, told.open_read_bytes, told.check);
}

int main(int argc, char **argv) {
    if (argc < 4) {
        fprintf(stderr, "usage: %s SIDE WORKLOAD PATH [key=number ...]\n", argv[0]);
        return 2;
    }
    size_t workload = workload_of(argv[2]);
    struct work work = {
        .side = side_of(argv[1]),
        .path = argv[3],
        .settings = {.count = 1000000, .length = 100, .block_size = 16384, .cache_bytes = 100 * 16384, .threads = 1},
        .order = workloads[workload].order,
        .questions = 200000,
        .hot = 5000,
    };
    for (int at = 4; at < argc; at++) {
        take_word(&work, argv[at]);
    }
    if (work.side->prepare != NULL) {
        work.side->prepare(&work.settings);
    }
    print_told(workloads[workload].run(&work));
    return 0;
}
