/* RocksDB. Since all keys are there in order, a whole table is made outside of the database and then handed to it. */
#include <limits.h>
#include <rocksdb/c.h>
#include <stdio.h>
#include <stdlib.h>

#include "key.h"
#include "side.h"

enum { BLOCK = 4096, WARNINGS = 2, NO_CHECKSUM = 0 };

struct rocksdb_store {
    rocksdb_options_t *options;
    rocksdb_block_based_table_options_t *table;
    rocksdb_cache_t *cache;
    rocksdb_readoptions_t *how;
    rocksdb_t *database;
};

struct rocksdb_log {
    struct rocksdb_store *store;
    rocksdb_writeoptions_t *how;
    rocksdb_writebatch_t *batch;
};

struct rocksdb_reader {
    struct rocksdb_store *store;
    rocksdb_pinnableslice_t *pinned;
};

static void expect(const char *why) {
    require(why == NULL, "rocksdb", why);
}

static rocksdb_cache_t *cache_of(size_t bytes) {
    rocksdb_lru_cache_options_t *options = rocksdb_lru_cache_options_create();
    rocksdb_lru_cache_options_set_capacity(options, bytes);
    rocksdb_lru_cache_options_set_num_shard_bits(options, 0);
    rocksdb_cache_t *cache = rocksdb_cache_create_lru_opts(options);
    rocksdb_lru_cache_options_destroy(options);
    return cache;
}

static rocksdb_options_t *options_of(rocksdb_block_based_table_options_t *table, bool mapped) {
    rocksdb_options_t *options = rocksdb_options_create();
    rocksdb_options_set_create_if_missing(options, 1);
    rocksdb_options_set_compression(options, rocksdb_no_compression);
    rocksdb_options_set_max_open_files(options, -1);
    rocksdb_options_set_max_file_opening_threads(options, 1);
    rocksdb_options_set_allow_mmap_reads(options, mapped);
    rocksdb_options_set_skip_stats_update_on_db_open(options, 1);
    rocksdb_options_set_stats_dump_period_sec(options, 0);
    rocksdb_options_set_stats_persist_period_sec(options, 0);
    rocksdb_options_set_info_log_level(options, WARNINGS);
    rocksdb_options_set_block_based_table_factory(options, table);
    return options;
}

/* All but the database. Where reads are far apart and not in memory a map would read much that is not asked for. */
static struct rocksdb_store *store_of(const struct settings *settings) {
    struct rocksdb_store *store = malloc(sizeof *store);
    require(store != NULL, "rocksdb", "no memory");
    store->cache = cache_of(settings->cache_bytes);
    store->table = rocksdb_block_based_options_create();
    rocksdb_block_based_options_set_block_size(store->table, BLOCK);
    rocksdb_block_based_options_set_block_cache(store->table, store->cache);
    rocksdb_block_based_options_set_checksum(store->table, NO_CHECKSUM);
    store->options = options_of(store->table, !settings->scattered);
    store->how = rocksdb_readoptions_create();
    rocksdb_readoptions_set_verify_checksums(store->how, 0);
    store->database = NULL;
    return store;
}

static void rocksdb_close_store(void *closed) {
    struct rocksdb_store *store = closed;
    rocksdb_close(store->database);
    rocksdb_readoptions_destroy(store->how);
    rocksdb_options_destroy(store->options);
    rocksdb_block_based_options_destroy(store->table);
    rocksdb_cache_destroy(store->cache);
    free(store);
}

static void write_table(const char *table, rocksdb_options_t *options, const struct documents *documents,
                        uint32_t first, uint32_t end) {
    rocksdb_envoptions_t *environment = rocksdb_envoptions_create();
    rocksdb_sstfilewriter_t *writer = rocksdb_sstfilewriter_create(environment, options);
    char *why = NULL;
    rocksdb_sstfilewriter_open(writer, table, &why);
    expect(why);
    for (uint32_t number = first; number < end; number++) {
        struct bytes document = document_at(documents, number);
        struct key key = key_of(number);
        rocksdb_sstfilewriter_put(writer, key.bytes, KEY_LENGTH, (const char *)document.start, document.length, &why);
        expect(why);
    }
    rocksdb_sstfilewriter_finish(writer, &why);
    expect(why);
    rocksdb_sstfilewriter_destroy(writer);
    rocksdb_envoptions_destroy(environment);
}

/* Hands a table with the documents from one number up to another to the database, which is made if it is not there. */
static void ingest(const char *path, const struct documents *documents, const struct settings *settings, uint32_t first,
                   uint32_t end) {
    char table[PATH_MAX];
    const char *tables[] = {table};
    char *why = NULL;
    require(snprintf(table, sizeof table, "%s.table", path) < (int)sizeof table, "rocksdb", "a path that is too long");
    struct rocksdb_store *store = store_of(settings);
    write_table(table, store->options, documents, first, end);
    store->database = rocksdb_open(store->options, path, &why);
    expect(why);
    rocksdb_ingestexternalfileoptions_t *how = rocksdb_ingestexternalfileoptions_create();
    rocksdb_ingestexternalfileoptions_set_move_files(how, 1);
    rocksdb_ingest_external_file(store->database, tables, 1, how, &why);
    expect(why);
    rocksdb_ingestexternalfileoptions_destroy(how);
    rocksdb_close_store(store);
}

static void rocksdb_write_all(const char *path, const struct documents *documents, const struct settings *settings) {
    ingest(path, documents, settings, 0, settings->count);
}

static void rocksdb_append(const char *path, const struct documents *documents, const struct settings *settings,
                           uint32_t more) {
    ingest(path, documents, settings, settings->count, settings->count + more);
}

/* Its log is synced at each write, if that is not put off. Its first write reserves space on the disk, so one of
 * nothing comes here. */
static void *rocksdb_log_begin(const char *path, const struct settings *settings) {
    struct rocksdb_log *log = malloc(sizeof *log);
    char *why = NULL;
    require(log != NULL, "rocksdb", "no memory");
    *log = (struct rocksdb_log){store_of(settings), rocksdb_writeoptions_create(), rocksdb_writebatch_create()};
    rocksdb_writeoptions_set_sync(log->how, !settings->synced_once);
    log->store->database = rocksdb_open(log->store->options, path, &why);
    expect(why);
    rocksdb_write(log->store->database, log->how, log->batch, &why);
    expect(why);
    return log;
}

static void rocksdb_log_append(void *begun, const struct documents *documents, uint32_t first, uint32_t end) {
    struct rocksdb_log *log = begun;
    char *why = NULL;
    rocksdb_writebatch_clear(log->batch);
    for (uint32_t number = first; number < end; number++) {
        struct bytes document = document_at(documents, number);
        struct key key = key_of(number);
        rocksdb_writebatch_put(log->batch, key.bytes, KEY_LENGTH, (const char *)document.start, document.length);
    }
    rocksdb_write(log->store->database, log->how, log->batch, &why);
    expect(why);
}

static void rocksdb_log_sync(void *begun) {
    struct rocksdb_log *log = begun;
    char *why = NULL;
    rocksdb_flush_wal(log->store->database, 1, &why);
    expect(why);
}

static void rocksdb_log_end(void *begun) {
    struct rocksdb_log *log = begun;
    rocksdb_writebatch_destroy(log->batch);
    rocksdb_writeoptions_destroy(log->how);
    rocksdb_close_store(log->store);
    free(log);
}

static void *rocksdb_open_store(const char *path, const struct settings *settings) {
    struct rocksdb_store *store = store_of(settings);
    char *why = NULL;
    store->database = rocksdb_open_for_read_only(store->options, path, 0, &why);
    expect(why);
    return store;
}

static void *rocksdb_begin(void *store) {
    struct rocksdb_reader *reader = malloc(sizeof *reader);
    require(reader != NULL, "rocksdb", "no memory");
    *reader = (struct rocksdb_reader){store, NULL};
    return reader;
}

static void unpin(struct rocksdb_reader *reader) {
    if (reader->pinned != NULL) {
        rocksdb_pinnableslice_destroy(reader->pinned);
        reader->pinned = NULL;
    }
}

static void rocksdb_end(void *reader) {
    unpin(reader);
    free(reader);
}

/* Nothing is copied: the block is held for as long as the document may be looked at. */
static struct bytes rocksdb_get_document(void *begun, uint32_t number) {
    struct rocksdb_reader *reader = begun;
    struct key key = key_of(number);
    size_t length;
    char *why = NULL;
    unpin(reader);
    reader->pinned = rocksdb_get_pinned(reader->store->database, reader->store->how, key.bytes, KEY_LENGTH, &why);
    expect(why);
    require(reader->pinned != NULL, "rocksdb", "no such document");
    const char *start = rocksdb_pinnableslice_value(reader->pinned, &length);
    return (struct bytes){(const uint8_t *)start, length};
}

static void rocksdb_iterate(void *begun, struct check *check) {
    struct rocksdb_reader *reader = begun;
    rocksdb_iterator_t *iterator = rocksdb_create_iterator(reader->store->database, reader->store->how);
    char *why = NULL;
    rocksdb_iter_seek_to_first(iterator);
    for (; rocksdb_iter_valid(iterator); rocksdb_iter_next(iterator)) {
        size_t length;
        const char *start = rocksdb_iter_value(iterator, &length);
        check_add(check, (struct bytes){(const uint8_t *)start, length});
    }
    rocksdb_iter_get_error(iterator, &why);
    expect(why);
    rocksdb_iter_destroy(iterator);
}

const struct side rocksdb_side = {
    .name = "rocksdb",
    .write = rocksdb_write_all,
    .append = rocksdb_append,
    .log_begin = rocksdb_log_begin,
    .log_append = rocksdb_log_append,
    .log_sync = rocksdb_log_sync,
    .log_end = rocksdb_log_end,
    .open = rocksdb_open_store,
    .begin = rocksdb_begin,
    .end = rocksdb_end,
    .get = rocksdb_get_document,
    .iterate = rocksdb_iterate,
    .close = rocksdb_close_store,
};
