/* Ours, by the calls of the library for C that open nothing: each takes the bytes of a mapped file alone. */
#include <stdlib.h>
#include <zevkhadun.h>

#include "files.h"
#include "zevk.h"

enum { RUN = 512 };

static void *open_store(const char *path, const struct settings *settings) {
    struct map *map = malloc(sizeof *map);
    require(map != NULL, "unopened", "no memory");
    *map = map_file(path);
    if (settings->scattered) {
        map_scattered(*map);
    }
    return map;
}

static struct bytes get(void *reader, uint32_t number) {
    const struct map *map = reader;
    zevk_place place;
    expect_done(zevk_get(map->start, map->length, number, &place));
    return (struct bytes){map->start + place.start, place.len};
}

static void iterate(void *reader, struct check *check) {
    const struct map *map = reader;
    zevk_place places[RUN];
    uint32_t first = 0, error = ZEVK_DONE;
    while (error == ZEVK_DONE) {
        size_t count = 0;
        error = zevk_get_run(map->start, map->length, first, places, RUN, &count);
        for (size_t at = 0; at < count; at++) {
            check_add(check, (struct bytes){map->start + places[at].start, places[at].len});
        }
        first += (uint32_t)count;
    }
    expect_done(error == ZEVK_NO_DOCUMENT ? ZEVK_DONE : error);
}

static void close_store(void *closed) {
    struct map *map = closed;
    unmap_file(*map);
    free(map);
}

const struct side unopened_side = {
    .name = "unopened",
    .write = write_store,
    .open = open_store,
    .begin = begin_shared,
    .end = end_shared,
    .get = get,
    .iterate = iterate,
    .close = close_store,
};
