/* LMDB. A single transaction writes, always after the last key; every thread reads by its own. */
#include <lmdb.h>
#include <stdlib.h>

#include "side.h"

static const size_t MAP_LENGTH = (size_t)1 << 33;

struct lmdb_store {
    MDB_env *environment;
};

struct lmdb_log {
    MDB_env *environment;
    MDB_dbi table;
};

struct lmdb_reader {
    MDB_txn *transaction;
    MDB_dbi table;
    MDB_cursor *cursor;  /* NULL where gets use none */
};

static void expect(int code) {
    require(code == MDB_SUCCESS, "lmdb", mdb_strerror(code));
}

static MDB_env *environment_of(const char *path, unsigned flags) {
    MDB_env *environment;
    expect(mdb_env_create(&environment));
    expect(mdb_env_set_mapsize(environment, MAP_LENGTH));
    expect(mdb_env_open(environment, path, MDB_NOSUBDIR | MDB_NOLOCK | flags, 0644));
    return environment;
}

/* Puts the documents from one number up to another, after all that are there. */
static void put_in(MDB_txn *transaction, MDB_dbi table, const struct documents *documents, uint32_t first,
                   uint32_t end) {
    MDB_cursor *cursor;
    expect(mdb_cursor_open(transaction, table, &cursor));
    for (uint32_t number = first; number < end; number++) {
        struct bytes document = document_at(documents, number);
        MDB_val key = {sizeof number, &number}, value = {document.length, (void *)(uintptr_t)document.start};
        expect(mdb_cursor_put(cursor, &key, &value, MDB_APPEND));
    }
    mdb_cursor_close(cursor);
}

/* The same in a transaction of its own. */
static void put_all(const char *path, const struct documents *documents, uint32_t first, uint32_t end) {
    MDB_env *environment = environment_of(path, MDB_NOSYNC | MDB_NOMEMINIT | MDB_WRITEMAP);
    MDB_txn *transaction;
    MDB_dbi table;
    expect(mdb_txn_begin(environment, NULL, 0, &transaction));
    expect(mdb_dbi_open(transaction, NULL, MDB_INTEGERKEY, &table));
    put_in(transaction, table, documents, first, end);
    expect(mdb_txn_commit(transaction));
    mdb_env_close(environment);
}

static void lmdb_write(const char *path, const struct documents *documents, const struct settings *settings) {
    put_all(path, documents, 0, settings->count);
}

static void lmdb_append(const char *path, const struct documents *documents, const struct settings *settings,
                        uint32_t more) {
    put_all(path, documents, settings->count, settings->count + more);
}

/* A commit is back once it is kept, if its sync is not put off. */
static void *lmdb_log_begin(const char *path, const struct settings *settings) {
    struct lmdb_log *log = malloc(sizeof *log);
    require(log != NULL, "lmdb", "no memory");
    log->environment = environment_of(path, MDB_NOMEMINIT | (settings->synced_once ? MDB_NOSYNC : 0));
    MDB_txn *transaction;
    expect(mdb_txn_begin(log->environment, NULL, 0, &transaction));
    expect(mdb_dbi_open(transaction, NULL, MDB_INTEGERKEY, &log->table));
    expect(mdb_txn_commit(transaction));
    return log;
}

static void lmdb_log_append(void *begun, const struct documents *documents, uint32_t first, uint32_t end) {
    struct lmdb_log *log = begun;
    MDB_txn *transaction;
    expect(mdb_txn_begin(log->environment, NULL, 0, &transaction));
    put_in(transaction, log->table, documents, first, end);
    expect(mdb_txn_commit(transaction));
}

static void lmdb_log_sync(void *begun) {
    struct lmdb_log *log = begun;
    expect(mdb_env_sync(log->environment, 1));
}

static void lmdb_log_end(void *begun) {
    struct lmdb_log *log = begun;
    mdb_env_close(log->environment);
    free(log);
}

static void *lmdb_open(const char *path, const struct settings *settings) {
    struct lmdb_store *store = malloc(sizeof *store);
    require(store != NULL, "lmdb", "no memory");
    /* Without a lock file a transaction belongs to its owner, not to a thread. */
    store->environment = environment_of(path, MDB_RDONLY | MDB_NOTLS | (settings->scattered ? MDB_NORDAHEAD : 0));
    return store;
}

static void *lmdb_begin(void *opened) {
    struct lmdb_store *store = opened;
    struct lmdb_reader *reader = malloc(sizeof *reader);
    require(reader != NULL, "lmdb", "no memory");
    expect(mdb_txn_begin(store->environment, NULL, MDB_RDONLY, &reader->transaction));
    expect(mdb_dbi_open(reader->transaction, NULL, MDB_INTEGERKEY, &reader->table));
    reader->cursor = NULL;
    return reader;
}

static void *lmdb_cursor_begin(void *opened) {
    struct lmdb_reader *reader = lmdb_begin(opened);
    expect(mdb_cursor_open(reader->transaction, reader->table, &reader->cursor));
    return reader;
}

static void lmdb_end(void *begun) {
    struct lmdb_reader *reader = begun;
    if (reader->cursor != NULL) {
        mdb_cursor_close(reader->cursor);
    }
    mdb_txn_abort(reader->transaction);
    free(reader);
}

static struct bytes lmdb_get(void *begun, uint32_t number) {
    struct lmdb_reader *reader = begun;
    MDB_val key = {sizeof number, &number}, value;
    expect(mdb_get(reader->transaction, reader->table, &key, &value));
    return (struct bytes){value.mv_data, value.mv_size};
}

/* A cursor stays on its page, so a key that is near is found without a search from the root. */
static struct bytes lmdb_cursor_get(void *begun, uint32_t number) {
    struct lmdb_reader *reader = begun;
    MDB_val key = {sizeof number, &number}, value;
    expect(mdb_cursor_get(reader->cursor, &key, &value, MDB_SET));
    return (struct bytes){value.mv_data, value.mv_size};
}

static void lmdb_iterate(void *begun, struct check *check) {
    struct lmdb_reader *reader = begun;
    MDB_cursor *cursor;
    MDB_val key, value;
    expect(mdb_cursor_open(reader->transaction, reader->table, &cursor));
    int code = mdb_cursor_get(cursor, &key, &value, MDB_FIRST);
    for (; code == MDB_SUCCESS; code = mdb_cursor_get(cursor, &key, &value, MDB_NEXT)) {
        check_add(check, (struct bytes){value.mv_data, value.mv_size});
    }
    require(code == MDB_NOTFOUND, "lmdb", mdb_strerror(code));
    mdb_cursor_close(cursor);
}

static void lmdb_close(void *opened) {
    struct lmdb_store *store = opened;
    mdb_env_close(store->environment);
    free(store);
}

const struct side lmdb_side = {
    .name = "lmdb",
    .write = lmdb_write,
    .append = lmdb_append,
    .log_begin = lmdb_log_begin,
    .log_append = lmdb_log_append,
    .log_sync = lmdb_log_sync,
    .log_end = lmdb_log_end,
    .open = lmdb_open,
    .begin = lmdb_begin,
    .end = lmdb_end,
    .get = lmdb_get,
    .iterate = lmdb_iterate,
    .close = lmdb_close,
};

/* The store of `lmdb`, read by a cursor. */
const struct side lmdb_cursor_side = {
    .name = "lmdb_cursor",
    .open = lmdb_open,
    .begin = lmdb_cursor_begin,
    .end = lmdb_end,
    .get = lmdb_cursor_get,
    .iterate = lmdb_iterate,
    .close = lmdb_close,
};
