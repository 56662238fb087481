/* SQLite. The number is the row's own, so there is no second index; a connection for every thread that reads. */
#include <inttypes.h>
#include <sqlite3.h>
#include <stdio.h>
#include <stdlib.h>
#include <string.h>

#include "side.h"

static const int64_t MOST_MAPPED = 2000000000;
static const char INSERT[] = "INSERT INTO store(number, document) VALUES(?, ?)";

struct sqlite_store {
    char *path;
    size_t cache_bytes;
    bool mapped;
};

struct sqlite_log {
    sqlite3 *connection;
    sqlite3_stmt *begin, *insert, *commit;
};

struct sqlite_reader {
    sqlite3 *connection;
    sqlite3_stmt *select;
};

static void expect(int code) {
    require(code == SQLITE_OK, "sqlite", sqlite3_errstr(code));
}

static void run(sqlite3 *connection, const char *text) {
    expect(sqlite3_exec(connection, text, NULL, NULL, NULL));
}

static void run_with(sqlite3 *connection, const char *text, int64_t number) {
    char whole[128];
    snprintf(whole, sizeof whole, "%s%" PRId64, text, number);
    run(connection, whole);
}

static sqlite3_stmt *prepared(sqlite3 *connection, const char *text) {
    sqlite3_stmt *statement;
    expect(sqlite3_prepare_v3(connection, text, -1, SQLITE_PREPARE_PERSISTENT, &statement, NULL));
    return statement;
}

/* What its manual advises where speed matters: no mutexes that one thread does not need, no counting of memory. */
static void sqlite_prepare(const struct settings *settings) {
    expect(sqlite3_config(settings->threads > 1 ? SQLITE_CONFIG_MULTITHREAD : SQLITE_CONFIG_SINGLETHREAD));
    expect(sqlite3_config(SQLITE_CONFIG_MEMSTATUS, 0));
}

static void insert_all(sqlite3_stmt *insert, const struct documents *documents, uint32_t first, uint32_t end) {
    for (uint32_t number = first; number < end; number++) {
        struct bytes document = document_at(documents, number);
        expect(sqlite3_bind_int64(insert, 1, number));
        expect(sqlite3_bind_blob(insert, 2, document.start, (int)document.length, SQLITE_STATIC));
        require(sqlite3_step(insert) == SQLITE_DONE, "sqlite", "a write failed");
        expect(sqlite3_reset(insert));
    }
}

/* A connection that writes to a table, which is made where there is none, with this journal and these syncs. */
static sqlite3 *writing(const char *path, const struct settings *settings, const char *journal, const char *syncs) {
    sqlite3 *connection;
    expect(sqlite3_open_v2(path, &connection, SQLITE_OPEN_READWRITE | SQLITE_OPEN_CREATE, NULL));
    run(connection, "PRAGMA page_size = 4096");
    run(connection, "PRAGMA locking_mode = EXCLUSIVE");
    run(connection, journal);
    run(connection, syncs);
    run_with(connection, "PRAGMA cache_size = -", (int64_t)(settings->cache_bytes / 1024));
    run(connection, "CREATE TABLE IF NOT EXISTS store(number INTEGER PRIMARY KEY, document BLOB)");
    return connection;
}

/* Writes the documents from one number up to another in one transaction. */
static void write_range(const char *path, const struct documents *documents, const struct settings *settings,
                        uint32_t first, uint32_t end) {
    sqlite3 *connection = writing(path, settings, "PRAGMA journal_mode = OFF", "PRAGMA synchronous = OFF");
    sqlite3_stmt *insert = prepared(connection, INSERT);
    run(connection, "BEGIN");
    insert_all(insert, documents, first, end);
    run(connection, "COMMIT");
    expect(sqlite3_finalize(insert));
    expect(sqlite3_close(connection));
}

static void sqlite_write(const char *path, const struct documents *documents, const struct settings *settings) {
    write_range(path, documents, settings, 0, settings->count);
}

static void sqlite_append(const char *path, const struct documents *documents, const struct settings *settings,
                          uint32_t more) {
    write_range(path, documents, settings, settings->count, settings->count + more);
}

/* A journal that is written ahead, and synced at each commit; or where it is copied, if syncs are put off. */
static void *sqlite_log_begin(const char *path, const struct settings *settings) {
    struct sqlite_log *log = malloc(sizeof *log);
    require(log != NULL, "sqlite", "no memory");
    log->connection = writing(path, settings, "PRAGMA journal_mode = WAL",
                              settings->synced_once ? "PRAGMA synchronous = NORMAL" : "PRAGMA synchronous = FULL");
    log->begin = prepared(log->connection, "BEGIN");
    log->insert = prepared(log->connection, INSERT);
    log->commit = prepared(log->connection, "COMMIT");
    return log;
}

static void do_once(sqlite3_stmt *statement) {
    require(sqlite3_step(statement) == SQLITE_DONE, "sqlite", "a transaction failed");
    expect(sqlite3_reset(statement));
}

static void sqlite_log_append(void *begun, const struct documents *documents, uint32_t first, uint32_t end) {
    struct sqlite_log *log = begun;
    do_once(log->begin);
    insert_all(log->insert, documents, first, end);
    do_once(log->commit);
}

static void sqlite_log_sync(void *begun) {
    struct sqlite_log *log = begun;
    run(log->connection, "PRAGMA wal_checkpoint(TRUNCATE)");
}

/* The journal is gone at the end, so that the file alone has all documents. */
static void sqlite_log_end(void *begun) {
    struct sqlite_log *log = begun;
    expect(sqlite3_finalize(log->begin));
    expect(sqlite3_finalize(log->insert));
    expect(sqlite3_finalize(log->commit));
    run(log->connection, "PRAGMA journal_mode = DELETE");
    expect(sqlite3_close(log->connection));
    free(log);
}

static void *sqlite_open(const char *path, const struct settings *settings) {
    struct sqlite_store *store = malloc(sizeof *store);
    require(store != NULL, "sqlite", "no memory");
    *store = (struct sqlite_store){strdup(path), settings->cache_bytes, !settings->scattered};
    return store;
}

static void *sqlite_begin(void *opened) {
    struct sqlite_store *store = opened;
    struct sqlite_reader *reader = malloc(sizeof *reader);
    require(reader != NULL, "sqlite", "no memory");
    expect(sqlite3_open_v2(store->path, &reader->connection, SQLITE_OPEN_READONLY | SQLITE_OPEN_NOMUTEX, NULL));
    run_with(reader->connection, "PRAGMA mmap_size = ", store->mapped ? MOST_MAPPED : 0);
    run_with(reader->connection, "PRAGMA cache_size = -", (int64_t)(store->cache_bytes / 1024));
    run(reader->connection, "BEGIN");
    reader->select = prepared(reader->connection, "SELECT document FROM store WHERE number = ?");
    return reader;
}

static void sqlite_end(void *begun) {
    struct sqlite_reader *reader = begun;
    expect(sqlite3_finalize(reader->select));
    expect(sqlite3_close(reader->connection));
    free(reader);
}

static inline struct bytes found(sqlite3_stmt *statement) {
    const uint8_t *start = sqlite3_column_blob(statement, 0);
    return (struct bytes){start, (size_t)sqlite3_column_bytes(statement, 0)};
}

static struct bytes sqlite_get(void *begun, uint32_t number) {
    struct sqlite_reader *reader = begun;
    sqlite3_reset(reader->select);
    expect(sqlite3_bind_int64(reader->select, 1, number));
    require(sqlite3_step(reader->select) == SQLITE_ROW, "sqlite", "no such document");
    return found(reader->select);
}

static void sqlite_iterate(void *begun, struct check *check) {
    struct sqlite_reader *reader = begun;
    sqlite3_stmt *all = prepared(reader->connection, "SELECT document FROM store ORDER BY number");
    int code = sqlite3_step(all);
    for (; code == SQLITE_ROW; code = sqlite3_step(all)) {
        check_add(check, found(all));
    }
    require(code == SQLITE_DONE, "sqlite", sqlite3_errstr(code));
    expect(sqlite3_finalize(all));
}

static void sqlite_close(void *opened) {
    struct sqlite_store *store = opened;
    free(store->path);
    free(store);
}

const struct side sqlite_side = {
    .name = "sqlite",
    .prepare = sqlite_prepare,
    .write = sqlite_write,
    .append = sqlite_append,
    .log_begin = sqlite_log_begin,
    .log_append = sqlite_log_append,
    .log_sync = sqlite_log_sync,
    .log_end = sqlite_log_end,
    .open = sqlite_open,
    .begin = sqlite_begin,
    .end = sqlite_end,
    .get = sqlite_get,
    .iterate = sqlite_iterate,
    .close = sqlite_close,
};
