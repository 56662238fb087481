/* Ours, by the library for C: a file that is written, and mapped, opened with all checks and read. */
#include <stdio.h>
#include <stdlib.h>
#include <zevkhadun.h>

#include "files.h"
#include "zevk.h"

enum { RUN = 512, USUAL_BLOCK = 8192, USUAL_ROWS = 64, PERIOD = 8, WRITE_BUFFER = 1 << 20 };

struct zevk_store {
    struct map map;
    zevk_block *table;
    size_t blocks;
    uint32_t count;
};

void expect_done(uint32_t refusal) {
    uint8_t text[ZEVK_TEXT_LEN];
    if (refusal != ZEVK_DONE) {
        zevk_refusal_text(refusal, text, sizeof text);
        stop("zevk", (const char *)text);
    }
}

/* A store that is written: its file, and the arrays of its writer. */
struct writing {
    FILE *file;
    zevk_writer writer;
    uint32_t *starts;
    zevk_block *table;
    size_t room;
};

static void grow(struct writing *to) {
    to->room *= 2;
    to->starts = realloc(to->starts, to->room * sizeof *to->starts);
    to->table = realloc(to->table, to->room * sizeof *to->table);
    require(to->starts != NULL && to->table != NULL, "zevk", "no memory");
}

static void append(struct writing *to, const void *start, size_t length) {
    require(fwrite_unlocked(start, 1, length, to->file) == length, "zevk", "a file that can't be written");
}

static void put_document(struct writing *to, struct bytes document) {
    size_t count = 0;
    uint32_t refusal;
    while ((refusal = zevk_writer_put(&to->writer, to->starts, to->room, to->table, to->room, document.length, &count))
           == ZEVK_NO_ROOM) {
        grow(to);
    }
    expect_done(refusal);
    append(to, document.start, document.length);
    append(to, to->starts, count * sizeof *to->starts);
}

static void put_end(struct writing *to) {
    size_t count = 0, length = 0;
    expect_done(zevk_writer_end_block(&to->writer, to->starts, to->room, to->table, to->room, &count));
    append(to, to->starts, count * sizeof *to->starts);
    uint32_t asked = zevk_writer_close(&to->writer, to->table, to->room, PERIOD, NULL, 0, &length);
    expect_done(asked == ZEVK_NO_ROOM ? ZEVK_DONE : asked);
    uint8_t *end = malloc(length);
    require(end != NULL, "zevk", "no memory");
    expect_done(zevk_writer_close(&to->writer, to->table, to->room, PERIOD, end, length, &length));
    append(to, end, length);
    free(end);
}

void write_store(const char *path, const struct documents *documents, const struct settings *settings) {
    struct writing to = {.file = fopen(path, "wb"), .room = USUAL_ROWS};
    require(to.file != NULL, "zevk", "a file that can't be written");
    require(setvbuf(to.file, NULL, _IOFBF, WRITE_BUFFER) == 0, "zevk", "no memory");
    grow(&to);
    zevk_writer_begin(&to.writer, settings->block_size);
    for (uint32_t number = 0; number < settings->count; number++) {
        put_document(&to, document_at(documents, number));
    }
    put_end(&to);
    require(fclose(to.file) == 0, "zevk", "a file that can't be written");
    free(to.starts);
    free(to.table);
}

static uint32_t opened(struct zevk_store *store, size_t rows) {
    store->table = realloc(store->table, rows * sizeof *store->table);
    require(store->table != NULL, "zevk", "no memory");
    return zevk_open(store->map.start, store->map.length, store->table, rows, &store->blocks, &store->count);
}

/* Opens with as many rows as a store of blocks of the usual size needs, and again where it has more blocks. */
static void *open_store(const char *path, const struct settings *settings) {
    struct zevk_store *store = calloc(1, sizeof *store);
    require(store != NULL, "zevk", "no memory");
    store->map = map_file(path);
    uint32_t refusal = opened(store, store->map.length / USUAL_BLOCK + USUAL_ROWS);
    expect_done(refusal == ZEVK_NO_ROOM ? opened(store, store->blocks) : refusal);
    if (settings->scattered) {
        map_scattered(store->map);
    }
    return store;
}

static struct bytes get(void *reader, uint32_t number) {
    const struct zevk_store *store = reader;
    zevk_place place;
    expect_done(zevk_locate(store->map.start, store->map.length, store->table, store->blocks, number, &place));
    return (struct bytes){store->map.start + place.start, place.len};
}

static void add_places(const struct zevk_store *store, const zevk_place *places, size_t count, struct check *check) {
    for (size_t at = 0; at < count; at++) {
        check_add(check, (struct bytes){store->map.start + places[at].start, places[at].len});
    }
}

static void iterate(void *reader, struct check *check) {
    const struct zevk_store *store = reader;
    zevk_place places[RUN];
    size_t count = 0;
    for (uint32_t first = 0; first < store->count; first += (uint32_t)count) {
        size_t most = store->count - first < RUN ? store->count - first : RUN;
        expect_done(zevk_locate_run(store->map.start, store->map.length, store->table, store->blocks, first, places,
                                    most, &count));
        add_places(store, places, count, check);
    }
}

static void close_store(void *closed) {
    struct zevk_store *store = closed;
    unmap_file(store->map);
    free(store->table);
    free(store);
}

const struct side zevk_side = {
    .name = "zevk",
    .write = write_store,
    .open = open_store,
    .begin = begin_shared,
    .end = end_shared,
    .get = get,
    .iterate = iterate,
    .close = close_store,
};
