/* Ours, read by ranges of its file as one that lies elsewhere: the index is kept, and a get reads a block. No block is
 * kept, so each get shows what one costs that finds nothing in a cache. */
#include <stdlib.h>
#include <zevkhadun.h>

#include "zevk.h"

enum { USUAL_TAIL = 1 << 16 };

struct ranged {
    struct ranges ranges;
    uint8_t *tail;
    size_t tail_length;
    uint8_t *block;
    size_t room;
    uint32_t count;
};

static uint8_t *longer(uint8_t *bytes, size_t length) {
    uint8_t *room = realloc(bytes, length);
    require(room != NULL, "ranged", "no memory");
    return room;
}

static void read_tail(struct ranged *store, size_t length) {
    store->tail = longer(store->tail, length);
    store->tail_length = length;
    ranges_read(&store->ranges, store->ranges.length - length, length, store->tail);
}

/* The block of a document. Where the end of the file lacks a part of the index, it is read once more. */
static zevk_block_place block_of(struct ranged *store, uint32_t number) {
    zevk_block_place block;
    size_t wanted = 0;
    uint32_t error;
    while ((error = zevk_block_of(store->tail, store->tail_length, store->ranges.length, number, &block, &wanted))
           == ZEVK_TAIL_TOO_SHORT) {
        read_tail(store, wanted);
    }
    expect_done(error);
    return block;
}

/* Reads the end of the file. */
static void *open_store(const char *path, const struct settings *settings) {
    struct ranged *store = calloc(1, sizeof *store);
    require(store != NULL, "ranged", "no memory");
    store->ranges = ranges_open(path);
    store->count = settings->count;
    read_tail(store, store->ranges.length < USUAL_TAIL ? store->ranges.length : USUAL_TAIL);
    block_of(store, 0);
    return store;
}

static struct bytes get(void *reader, uint32_t number) {
    struct ranged *store = reader;
    zevk_block_place block = block_of(store, number);
    zevk_place place;
    if (block.len > store->room) {
        store->room = block.len;
        store->block = longer(store->block, store->room);
    }
    ranges_read(&store->ranges, block.start, block.len, store->block);
    expect_done(zevk_get_in(store->block, block.len, &block, number, &place));
    return (struct bytes){store->block + (place.start - block.start), place.len};
}

static void iterate(void *reader, struct check *check) {
    const struct ranged *store = reader;
    for (uint32_t number = 0; number < store->count; number++) {
        check_add(check, get(reader, number));
    }
}

static void close_store(void *closed) {
    struct ranged *store = closed;
    ranges_close(&store->ranges);
    free(store->tail);
    free(store->block);
    free(store);
}

static const struct ranges *ranges(const void *reader) {
    const struct ranged *store = reader;
    return &store->ranges;
}

const struct side ranged_side = {
    .name = "ranged",
    .write = write_store,
    .open = open_store,
    .begin = begin_shared,
    .end = end_shared,
    .get = get,
    .iterate = iterate,
    .close = close_store,
    .ranges = ranges,
};
