/* The floor, what any store costs: a mapped file of documents, then eight bytes for the end of each, then the count. */
#include <stdio.h>
#include <stdlib.h>
#include <string.h>

#include "files.h"
#include "side.h"

enum { BUFFER = 16384 };

struct plain {
    struct map map;
    const uint8_t *ends;
    uint64_t count;
};

static void put(FILE *file, const void *bytes, size_t length) {
    require(fwrite_unlocked(bytes, 1, length, file) == length, "plain", "a write failed");
}

static void plain_write(const char *path, const struct documents *documents, const struct settings *settings) {
    FILE *file = fopen(path, "wb");
    uint64_t *ends = malloc((settings->count + (size_t)1) * sizeof *ends);
    require(file != NULL && ends != NULL && setvbuf(file, NULL, _IOFBF, BUFFER) == 0, "plain", path);
    uint64_t end = 0;
    for (uint32_t number = 0; number < settings->count; number++) {
        struct bytes document = document_at(documents, number);
        put(file, document.start, document.length);
        ends[number] = end += document.length;
    }
    ends[settings->count] = settings->count;
    put(file, ends, (settings->count + (size_t)1) * sizeof *ends);
    require(fclose(file) == 0, "plain", "the file's end failed");
    free(ends);
}

static uint64_t number_at(const uint8_t *at) {
    uint64_t number;
    memcpy(&number, at, sizeof number);
    return number;
}

static void *plain_open(const char *path, const struct settings *settings) {
    struct plain *plain = malloc(sizeof *plain);
    require(plain != NULL, "plain", "no memory");
    plain->map = map_file(path);
    plain->count = number_at(plain->map.start + plain->map.length - 8);
    require(plain->count < plain->map.length / 8, "plain", "a file that is damaged");
    plain->ends = plain->map.start + plain->map.length - 8 * (plain->count + 1);
    if (settings->scattered) {
        map_scattered(plain->map);
    }
    return plain;
}

static void *plain_begin(void *store) {
    return store;
}

static void plain_end(void *reader) {
    (void)reader;
}

/* Tests what a file could have wrong, as ours does. */
static inline struct bytes found(const struct plain *plain, uint32_t number) {
    require(number < plain->count, "plain", "no such document");
    uint64_t start = number == 0 ? 0 : number_at(plain->ends + 8 * (size_t)(number - 1));
    uint64_t end = number_at(plain->ends + 8 * (size_t)number);
    require(start <= end && end <= (uint64_t)(plain->ends - plain->map.start), "plain", "a file that is damaged");
    return (struct bytes){plain->map.start + start, end - start};
}

static struct bytes plain_get(void *reader, uint32_t number) {
    return found(reader, number);
}

static void plain_iterate(void *reader, struct check *check) {
    const struct plain *plain = reader;
    for (uint32_t number = 0; number < plain->count; number++) {
        check_add(check, found(plain, number));
    }
}

static void plain_close(void *store) {
    struct plain *plain = store;
    unmap_file(plain->map);
    free(plain);
}

const struct side plain_side = {
    .name = "plain",
    .write = plain_write,
    .open = plain_open,
    .begin = plain_begin,
    .end = plain_end,
    .get = plain_get,
    .iterate = plain_iterate,
    .close = plain_close,
};
