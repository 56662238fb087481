/* The floor, read by ranges of its file: the two ends of a document, and then the document. */
#include <stdlib.h>
#include <string.h>

#include "side.h"

enum { NUMBER = 8 };

struct plain_ranged {
    struct ranges ranges;
    uint64_t count;
    uint8_t *document;
    size_t room;
};

static uint64_t number_at(const uint8_t *at) {
    uint64_t number;
    memcpy(&number, at, sizeof number);
    return number;
}

static void *open_store(const char *path, const struct settings *settings) {
    struct plain_ranged *store = calloc(1, sizeof *store);
    uint8_t last[NUMBER];
    (void)settings;
    require(store != NULL, "plain_ranged", "no memory");
    store->ranges = ranges_open(path);
    ranges_read(&store->ranges, store->ranges.length - NUMBER, NUMBER, last);
    store->count = number_at(last);
    require(store->count < store->ranges.length / NUMBER, "plain_ranged", "a file that is damaged");
    return store;
}

static struct bytes get(void *reader, uint32_t number) {
    struct plain_ranged *store = reader;
    uint8_t ends[2 * NUMBER] = {0};
    size_t table = store->ranges.length - NUMBER * (store->count + 1), before = number > 0 ? NUMBER : 0;
    require(number < store->count, "plain_ranged", "no such document");
    ranges_read(&store->ranges, table + NUMBER * (size_t)number - before, NUMBER + before, ends + NUMBER - before);
    uint64_t start = number_at(ends), length = number_at(ends + NUMBER) - start;
    require(start + length <= table, "plain_ranged", "a file that is damaged");
    if (length > store->room) {
        store->room = length;
        store->document = realloc(store->document, store->room);
        require(store->document != NULL, "plain_ranged", "no memory");
    }
    ranges_read(&store->ranges, start, length, store->document);
    return (struct bytes){store->document, length};
}

static void iterate(void *reader, struct check *check) {
    const struct plain_ranged *store = reader;
    for (uint32_t number = 0; number < store->count; number++) {
        check_add(check, get(reader, number));
    }
}

static void close_store(void *closed) {
    struct plain_ranged *store = closed;
    ranges_close(&store->ranges);
    free(store->document);
    free(store);
}

static const struct ranges *ranges(const void *reader) {
    const struct plain_ranged *store = reader;
    return &store->ranges;
}

static void plain_ranged_write(const char *path, const struct documents *documents, const struct settings *settings) {
    plain_side.write(path, documents, settings);
}

const struct side plain_ranged_side = {
    .name = "plain_ranged",
    .write = plain_ranged_write,
    .open = open_store,
    .begin = begin_shared,
    .end = end_shared,
    .get = get,
    .iterate = iterate,
    .close = close_store,
    .ranges = ranges,
};
