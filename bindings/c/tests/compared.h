/* The calls that read without opening, beside zevk_open and the calls by its table: of a store's file they give the
 * same, and of other bytes no place outside.
 */
#ifndef COMPARED_H
#define COMPARED_H

#include "stores.h"

/* How many places a run has, and how many documents at each end of a store are compared. */
enum { RUN = 5, ENDS = 400 };

/* The bytes of a file, what zevk_open gives of them, and the head of an outline with the same rows. */
typedef struct opened {
    const uint8_t *file;
    size_t len;
    zevk_block *table;
    size_t count;
    uint32_t num_docs;
    uint32_t error;
    zevk_head head;
} opened;

/* The rows of a table are those of an outline with room for all. */
static inline void is_outlined(opened *store) {
    size_t room = store->count * sizeof *store->table;
    zevk_block *rows = (zevk_block *)malloc(room + 1);
    WANT(rows != NULL && zevk_outline(store->file, store->len, rows, store->count, &store->head) == ZEVK_DONE);
    WANT(store->head.rows == store->count && store->head.height == 0 && memcmp(rows, store->table, room) == 0);
    free(rows);
}

/* Opens a file. The caller frees the table. */
static inline opened opened_file(const uint8_t *file, size_t len) {
    opened store;
    memset(&store, 0, sizeof store);
    store.file = file;
    store.len = len;
    store.error = zevk_open(file, len, NULL, 0, &store.count, &store.num_docs);
    store.table = (zevk_block *)malloc((store.count + 1) * sizeof *store.table);
    WANT(store.table != NULL);
    if (store.error == ZEVK_NO_ROOM) {
        store.error = zevk_open(file, len, store.table, store.count, &store.count, &store.num_docs);
    }
    if (store.error == ZEVK_DONE) {
        is_outlined(&store);
    }
    return store;
}

/* The place of a document and those of a run from it on are those by the table, and so are the errors. */
static inline void is_the_same(const opened *store, uint32_t id) {
    zevk_place place = {1, 2}, other = {1, 2}, run[RUN], others[RUN];
    size_t found = 77, wanted = 78;
    uint32_t error = zevk_get(store->file, store->len, id, &place);
    WANT(error == zevk_locate(store->file, store->len, store->table, store->count, id, &other));
    WANT(place.start == other.start && place.len == other.len);
    WANT(error == zevk_get_by(store->file, store->len, store->table, store->count, &store->head, id, &other));
    WANT(place.start == other.start && place.len == other.len);
    memset(run, 7, sizeof run);
    memset(others, 7, sizeof others);
    error = zevk_get_run(store->file, store->len, id, run, RUN, &found);
    WANT(error == zevk_locate_run(store->file, store->len, store->table, store->count, id, others, RUN, &wanted));
    WANT(found == wanted && memcmp(run, others, sizeof run) == 0);
}

/* The documents at both ends of a store, and numbers past the last. */
static inline void are_the_same(const opened *store) {
    uint32_t num_docs = 77;
    WANT(zevk_num_docs(store->file, store->len, &num_docs) == ZEVK_DONE && num_docs == store->num_docs);
    for (uint32_t at = 0; at < ENDS && at < num_docs; at++) {
        is_the_same(store, at);
        is_the_same(store, num_docs - 1 - at);
    }
    is_the_same(store, num_docs);
    is_the_same(store, UINT32_MAX);
}

/* Whether it is an error of bytes that zevk_open refuses. An error of the footer comes from every call. */
static inline int is_expected(const opened *store, uint32_t error, uint32_t most) {
    return store->error == ZEVK_BAD_INDEX ? error <= most : error == store->error;
}

/* Of bytes that are no store's, each place lies within, and what is not set is kept. */
static inline void are_within(const opened *store) {
    zevk_place place, run[80];
    size_t found = 77;
    uint32_t num_docs = 78;
    uint32_t error = zevk_num_docs(store->file, store->len, &num_docs);
    WANT(is_expected(store, error, ZEVK_BAD_INDEX) && (error == ZEVK_DONE || num_docs == 78));
    for (uint32_t id = 0; id < 80; id++) {
        place.start = place.len = 77;
        error = zevk_get(store->file, store->len, id * id * id * id * id, &place);
        WANT(is_expected(store, error, ZEVK_DAMAGED_DOCUMENT));
        WANT(error == ZEVK_DONE ? place.start <= store->len && place.len <= store->len - place.start
                                : place.start == 77 && place.len == 77);
    }
    memset(run, 7, sizeof run);
    error = zevk_get_run(store->file, store->len, 0, run, 80, &found);
    WANT(is_expected(store, error, ZEVK_DAMAGED_DOCUMENT) && found <= 80 && (error == ZEVK_DONE) == (found == 80));
    for (size_t at = 0; at < found; at++) {
        WANT(run[at].start <= store->len && run[at].len <= store->len - run[at].start);
    }
    memset(&place, 7, sizeof place);
    WANT(found == 80 || memcmp(&run[found], &place, sizeof place) == 0);
}

/* Compares the calls over some bytes, and returns what zevk_open does. */
static inline uint32_t compared(const uint8_t *file, size_t len) {
    opened store = opened_file(file, len);
    if (store.error == ZEVK_DONE) {
        are_the_same(&store);
    } else {
        are_within(&store);
    }
    free(store.table);
    return store.error;
}

#endif
