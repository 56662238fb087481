#include "workloads.h"

#include <stdlib.h>
#include <string.h>

#include "clock.h"
#include "files.h"
#include "memory.h"

/* One document of every WARM_EVERY is got before the clock starts, so that tables and inner pages are in memory too. */
enum { WARM_EVERY = 32, MOST_LEFT_OF_A_THOUSAND = 20 };

static struct check walked(const struct work *work, void *reader) {
    struct check check = {0, 0};
    work->side->iterate(reader, &check);
    require(check.count == work->settings.count, work->side->name, "not all documents came");
    return check;
}

/* A walk over a store that was just written. */
static struct check read_through(const struct work *work) {
    void *store = work->side->open(work->path, &work->settings);
    void *reader = work->side->begin(store);
    struct check check = walked(work, reader);
    work->side->end(reader);
    work->side->close(store);
    return check;
}

static void warm(const struct work *work, void *reader) {
    struct check check = walked(work, reader);
    for (uint32_t number = 0; number < work->settings.count; number += WARM_EVERY) {
        check_add(&check, work->side->get(reader, number));
    }
}

static struct check got(const struct side *side, void *reader, const uint32_t *numbers, size_t count) {
    struct check check = {0, 0};
    for (size_t at = 0; at < count; at++) {
        check_add(&check, side->get(reader, numbers[at]));
    }
    return check;
}

static uint64_t more(uint64_t now, uint64_t before) {
    return now > before ? now - before : 0;
}

struct told work_write(const struct work *work) {
    struct documents documents = documents_of(work->settings.length, work->settings.are_many);
    path_remove(work->path);
    uint64_t start = clock_now();
    work->side->write(work->path, &documents, &work->settings);
    uint64_t closed = clock_now();
    path_sync(work->path);
    uint64_t synced = clock_now();
    documents_free(&documents);
    struct check check = read_through(work);
    return (struct told){
        .count = work->settings.count,
        .nanoseconds = closed - start,
        .sync_nanoseconds = synced - closed,
        .file_bytes = path_size(work->path),
        .peak_bytes = peak_memory(),
        .check = check.value,
    };
}

/* Gets that are timed, by a reader that was opened before; `is_cold` is whether nothing is read before them. */
static struct told timed_gets(const struct work *work, bool is_cold) {
    const struct settings *settings = &work->settings;
    uint32_t *numbers = numbers_of(work->order, work->questions, settings->count, work->hot, 0);
    uint64_t before = own_memory(), start = clock_now();
    void *store = work->side->open(work->path, settings);
    void *reader = work->side->begin(store);
    uint64_t opened = clock_now();
    if (!is_cold) {
        warm(work, reader);
    }
    uint64_t warmed = clock_now();
    struct check check = got(work->side, reader, numbers, work->questions);
    uint64_t end = clock_now();
    struct told told = {
        .count = check.count,
        .nanoseconds = end - warmed,
        .open_nanoseconds = opened - start,
        .own_bytes = more(own_memory(), before),
        .peak_bytes = peak_memory(),
        .check = check.value,
    };
    work->side->end(reader);
    work->side->close(store);
    free(numbers);
    return told;
}

struct told work_get(const struct work *work) {
    return timed_gets(work, false);
}

struct told work_cold(const struct work *work) {
    struct work scattered = *work;
    scattered.settings.scattered = true;
    unsigned left = path_drop(work->path);
    require(left <= MOST_LEFT_OF_A_THOUSAND, work->side->name, "the file stays in memory: is it on a disk?");
    return timed_gets(&scattered, true);
}

struct told work_iterate(const struct work *work) {
    void *store = work->side->open(work->path, &work->settings);
    void *reader = work->side->begin(store);
    struct check before = walked(work, reader);
    uint64_t start = clock_now();
    struct check check = walked(work, reader);
    uint64_t end = clock_now();
    require(check.value == before.value, work->side->name, "two walks differ");
    work->side->end(reader);
    work->side->close(store);
    return (struct told){
        .count = check.count,
        .nanoseconds = end - start,
        .peak_bytes = peak_memory(),
        .check = check.value,
    };
}

static uint64_t time_to_first(const struct work *work, struct check *check) {
    uint64_t start = clock_now();
    void *store = work->side->open(work->path, &work->settings);
    void *reader = work->side->begin(store);
    check_add(check, work->side->get(reader, 0));
    uint64_t end = clock_now();
    work->side->end(reader);
    work->side->close(store);
    return end - start;
}

/* The first one brings the file into memory, and is not counted. */
struct told work_open(const struct work *work) {
    struct check unseen = {0, 0}, check = {0, 0};
    uint64_t before = own_memory(), sum = 0;
    time_to_first(work, &unseen);
    for (size_t time = 0; time < work->questions; time++) {
        sum += time_to_first(work, &check);
    }
    return (struct told){
        .count = work->questions,
        .nanoseconds = sum,
        .own_bytes = more(own_memory(), before),
        .peak_bytes = peak_memory(),
        .check = check.value,
    };
}

struct told work_keep(const struct work *work) {
    const struct settings *settings = &work->settings;
    uint32_t *numbers = numbers_of(work->order, work->questions, settings->count, work->hot, 0);
    uint8_t **copies = calloc(work->questions, sizeof *copies);
    require(copies != NULL, work->side->name, "no memory");
    void *store = work->side->open(work->path, settings);
    void *reader = work->side->begin(store);
    warm(work, reader);
    struct check check = {0, 0};
    uint64_t start = clock_now();
    for (size_t at = 0; at < work->questions; at++) {
        struct bytes document = work->side->get(reader, numbers[at]);
        copies[at] = malloc(document.length);
        require(copies[at] != NULL, work->side->name, "no memory");
        memcpy(copies[at], document.start, document.length);
        check_add(&check, (struct bytes){copies[at], document.length});
    }
    uint64_t end = clock_now();
    work->side->end(reader);
    work->side->close(store);
    return (struct told){.count = check.count, .nanoseconds = end - start, .check = check.value};
}

struct told work_append(const struct work *work) {
    require(work->side->append != NULL, work->side->name, "it can't append");
    struct work longer = *work;
    longer.settings.count += (uint32_t)work->questions;
    struct documents documents = documents_of(work->settings.length, work->settings.are_many);
    path_sync(work->path);  /* what was written before is not this append's */
    uint64_t start = clock_now();
    work->side->append(work->path, &documents, &work->settings, (uint32_t)work->questions);
    uint64_t closed = clock_now();
    path_sync(work->path);
    uint64_t synced = clock_now();
    documents_free(&documents);
    struct check check = read_through(&longer);
    return (struct told){
        .count = 1,
        .nanoseconds = closed - start,
        .sync_nanoseconds = synced - closed,
        .file_bytes = path_size(work->path),
        .peak_bytes = peak_memory(),
        .check = check.value,
    };
}

/* `log_sync` is NULL where each append is kept. */
static struct told timed_log(const struct work *work, void (*log_sync)(void *log)) {
    const struct side *side = work->side;
    const uint32_t count = work->settings.count;
    require(side->log_begin != NULL, side->name, "it is no log");
    struct documents documents = documents_of(work->settings.length, work->settings.are_many);
    path_remove(work->path);
    syncs_reach_the_system = true;
    void *log = side->log_begin(work->path, &work->settings);
    uint64_t start = clock_now();
    for (uint32_t first = 0, end; first < count; first = end) {
        end = count - first < work->questions ? count : first + (uint32_t)work->questions;
        side->log_append(log, &documents, first, end);
    }
    if (log_sync != NULL) {
        log_sync(log);
    }
    uint64_t appended = clock_now();
    side->log_end(log);
    syncs_reach_the_system = false;
    documents_free(&documents);
    struct check check = read_through(work);
    return (struct told){
        .count = check.count,
        .nanoseconds = appended - start,
        .file_bytes = path_size(work->path),
        .peak_bytes = peak_memory(),
        .check = check.value,
    };
}

struct told work_log(const struct work *work) {
    return timed_log(work, NULL);
}

struct told work_log_synced_once(const struct work *work) {
    struct work later = *work;
    later.settings.synced_once = true;
    return timed_log(&later, work->side->log_sync);
}

struct told work_ranges(const struct work *work) {
    require(work->side->ranges != NULL, work->side->name, "it reads no ranges");
    uint32_t *numbers = numbers_of(work->order, work->questions, work->settings.count, work->hot, 0);
    uint64_t start = clock_now();
    void *store = work->side->open(work->path, &work->settings);
    void *reader = work->side->begin(store);
    uint64_t opened = clock_now();
    const struct ranges before = *work->side->ranges(reader);
    got(work->side, reader, numbers, work->questions);
    uint64_t warmed = clock_now();
    const struct ranges between = *work->side->ranges(reader);
    struct check check = got(work->side, reader, numbers, work->questions);
    uint64_t end = clock_now();
    const struct ranges after = *work->side->ranges(reader);
    work->side->end(reader);
    work->side->close(store);
    free(numbers);
    return (struct told){
        .count = check.count,
        .nanoseconds = end - warmed,
        .open_nanoseconds = opened - start,
        .reads = after.reads - between.reads,
        .read_bytes = after.bytes - between.bytes,
        .open_reads = before.reads,
        .open_read_bytes = before.bytes,
        .check = check.value,
    };
}

struct told work_size(const struct work *work) {
    return (struct told){.count = work->settings.count, .file_bytes = path_size(work->path)};
}
