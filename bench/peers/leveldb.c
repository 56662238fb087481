/* LevelDB. Its log and its levels are merged into tables while the clock runs, so that reading begins with those. */
#include <leveldb/c.h>
#include <stdlib.h>

#include "key.h"
#include "side.h"

enum { BATCH = 100, BUFFER = 16 << 20, TABLE = 64 << 20, BLOCK = 4096 };

struct leveldb_store {
    leveldb_options_t *options;
    leveldb_cache_t *cache;
    leveldb_readoptions_t *how;
    leveldb_t *database;
};

struct leveldb_reader {
    struct leveldb_store *store;
    char *kept;
};

static void expect(const char *why) {
    require(why == NULL, "leveldb", why);
}

static leveldb_options_t *options_of(leveldb_cache_t *cache, bool create) {
    leveldb_options_t *options = leveldb_options_create();
    leveldb_options_set_create_if_missing(options, create);
    leveldb_options_set_compression(options, leveldb_no_compression);
    leveldb_options_set_write_buffer_size(options, BUFFER);
    leveldb_options_set_max_file_size(options, TABLE);
    leveldb_options_set_block_size(options, BLOCK);
    leveldb_options_set_cache(options, cache);
    return options;
}

static struct leveldb_store *opened(const char *path, size_t cache_bytes, bool create) {
    struct leveldb_store *store = malloc(sizeof *store);
    char *why = NULL;
    require(store != NULL, "leveldb", "no memory");
    store->cache = leveldb_cache_create_lru(cache_bytes);
    store->options = options_of(store->cache, create);
    store->how = leveldb_readoptions_create();
    store->database = leveldb_open(store->options, path, &why);
    expect(why);
    return store;
}

static void *leveldb_open_store(const char *path, const struct settings *settings) {
    return opened(path, settings->cache_bytes, false);
}

static void leveldb_close_store(void *closed) {
    struct leveldb_store *store = closed;
    leveldb_close(store->database);
    leveldb_readoptions_destroy(store->how);
    leveldb_options_destroy(store->options);
    leveldb_cache_destroy(store->cache);
    free(store);
}

static void put_all(leveldb_t *database, const struct documents *documents, uint32_t first, uint32_t end) {
    leveldb_writeoptions_t *how = leveldb_writeoptions_create();
    leveldb_writebatch_t *batch = leveldb_writebatch_create();
    char *why = NULL;
    for (uint32_t number = first; number < end; number++) {
        struct bytes document = document_at(documents, number);
        struct key key = key_of(number);
        leveldb_writebatch_put(batch, key.bytes, KEY_LENGTH, (const char *)document.start, document.length);
        if (number % BATCH == BATCH - 1 || number == end - 1) {
            leveldb_write(database, how, batch, &why);
            expect(why);
            leveldb_writebatch_clear(batch);
        }
    }
    leveldb_writebatch_destroy(batch);
    leveldb_writeoptions_destroy(how);
}

static void leveldb_write_all(const char *path, const struct documents *documents, const struct settings *settings) {
    struct leveldb_store *store = opened(path, settings->cache_bytes, true);
    put_all(store->database, documents, 0, settings->count);
    leveldb_compact_range(store->database, NULL, 0, NULL, 0);
    leveldb_close_store(store);
}

/* Only the tables that have new keys are merged. */
static void leveldb_append(const char *path, const struct documents *documents, const struct settings *settings,
                           uint32_t more) {
    struct leveldb_store *store = opened(path, settings->cache_bytes, false);
    struct key first = key_of(settings->count), last = key_of(settings->count + more - 1);
    put_all(store->database, documents, settings->count, settings->count + more);
    leveldb_compact_range(store->database, first.bytes, KEY_LENGTH, last.bytes, KEY_LENGTH);
    leveldb_close_store(store);
}

static void *leveldb_begin(void *store) {
    struct leveldb_reader *reader = malloc(sizeof *reader);
    require(reader != NULL, "leveldb", "no memory");
    *reader = (struct leveldb_reader){store, NULL};
    return reader;
}

static void leveldb_end(void *begun) {
    struct leveldb_reader *reader = begun;
    leveldb_free(reader->kept);
    free(reader);
}

/* Its interface for C gives a copy, and nothing else. */
static struct bytes leveldb_get_document(void *begun, uint32_t number) {
    struct leveldb_reader *reader = begun;
    struct key key = key_of(number);
    size_t length = 0;
    char *why = NULL;
    leveldb_free(reader->kept);
    reader->kept = leveldb_get(reader->store->database, reader->store->how, key.bytes, KEY_LENGTH, &length, &why);
    expect(why);
    require(reader->kept != NULL, "leveldb", "no such document");
    return (struct bytes){(const uint8_t *)reader->kept, length};
}

static void leveldb_iterate(void *begun, struct check *check) {
    struct leveldb_reader *reader = begun;
    leveldb_iterator_t *iterator = leveldb_create_iterator(reader->store->database, reader->store->how);
    char *why = NULL;
    leveldb_iter_seek_to_first(iterator);
    for (; leveldb_iter_valid(iterator); leveldb_iter_next(iterator)) {
        size_t length;
        const char *start = leveldb_iter_value(iterator, &length);
        check_add(check, (struct bytes){(const uint8_t *)start, length});
    }
    leveldb_iter_get_error(iterator, &why);
    expect(why);
    leveldb_iter_destroy(iterator);
}

const struct side leveldb_side = {
    .name = "leveldb",
    .write = leveldb_write_all,
    .append = leveldb_append,
    .open = leveldb_open_store,
    .begin = leveldb_begin,
    .end = leveldb_end,
    .get = leveldb_get_document,
    .iterate = leveldb_iterate,
    .close = leveldb_close_store,
};
