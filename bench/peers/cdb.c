/* tinycdb, which maps its files itself. */
#include <cdb.h>
#include <fcntl.h>
#include <stdlib.h>
#include <sys/mman.h>
#include <unistd.h>

#include "side.h"

/* Of a key of four bytes its hash has some nine million values, close together. Near as many documents they pile up,
 * so that a get takes many times as long as by a key of eight bytes; far below, the shorter key is quicker. */
enum { FEW = 4000000, SHORT_KEY = 4, LONG_KEY = 8 };

struct cdb_reader {
    struct cdb at;
    unsigned key_length;
};

static unsigned key_length_of(uint32_t count) {
    return count < FEW ? SHORT_KEY : LONG_KEY;
}

static void cdb_write(const char *path, const struct documents *documents, const struct settings *settings) {
    struct cdb_make make;
    int file = open(path, O_RDWR | O_CREAT | O_TRUNC, 0644);
    require(file >= 0 && cdb_make_start(&make, file) == 0, "cdb", path);
    for (uint64_t number = 0; number < settings->count; number++) {
        struct bytes document = document_at(documents, number);
        unsigned key_length = key_length_of(settings->count);
        int answer = cdb_make_add(&make, &number, key_length, document.start, (unsigned)document.length);
        require(answer == 0, "cdb", "a write failed");
    }
    require(cdb_make_finish(&make) == 0 && close(file) == 0, "cdb", "the file's end failed");
}

static void *cdb_open(const char *path, const struct settings *settings) {
    struct cdb_reader *store = malloc(sizeof *store);
    int file = open(path, O_RDONLY);
    require(store != NULL && file >= 0 && cdb_init(&store->at, file) == 0, "cdb", path);
    store->key_length = key_length_of(settings->count);
    if (settings->scattered) {
        void *start = (void *)(uintptr_t)store->at.cdb_mem;
        require(madvise(start, store->at.cdb_fsize, MADV_RANDOM) == 0, "cdb", "madvise");
    }
    return store;
}

/* A reader keeps where it is: each has a copy over the same map. */
static void *cdb_begin(void *store) {
    struct cdb_reader *reader = malloc(sizeof *reader);
    require(reader != NULL, "cdb", "no memory");
    *reader = *(struct cdb_reader *)store;
    return reader;
}

static void cdb_end(void *reader) {
    free(reader);
}

static inline struct bytes found(const struct cdb *reader) {
    const uint8_t *start = cdb_getdata(reader);
    require(start != NULL, "cdb", "a file that is damaged");
    return (struct bytes){start, cdb_datalen(reader)};
}

static struct bytes cdb_get_document(void *begun, uint32_t number) {
    struct cdb_reader *reader = begun;
    uint64_t key = number;
    require(cdb_find(&reader->at, &key, reader->key_length) > 0, "cdb", "no such document");
    return found(&reader->at);
}

/* Its walk goes through the file from the front, so by number. */
static void cdb_iterate(void *begun, struct check *check) {
    struct cdb_reader *reader = begun;
    unsigned at;
    cdb_seqinit(&at, &reader->at);
    int code = cdb_seqnext(&at, &reader->at);
    for (; code > 0; code = cdb_seqnext(&at, &reader->at)) {
        check_add(check, found(&reader->at));
    }
    require(code == 0, "cdb", "a file that is damaged");
}

static void cdb_close(void *opened) {
    struct cdb_reader *store = opened;
    int file = cdb_fileno(&store->at);
    cdb_free(&store->at);
    close(file);
    free(store);
}

const struct side cdb_side = {
    .name = "cdb",
    .write = cdb_write,
    .open = cdb_open,
    .begin = cdb_begin,
    .end = cdb_end,
    .get = cdb_get_document,
    .iterate = cdb_iterate,
    .close = cdb_close,
};
