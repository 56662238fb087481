/* Eight threads that read one file, without opening it and by one table, both in memory that nobody may write.
 *
 * usage: threads HEX
 */
#ifndef _GNU_SOURCE
#define _GNU_SOURCE
#endif
#include <pthread.h>
#include <sys/mman.h>

#include "stores.h"

enum { THREADS = 8, ROUNDS = 200 };

/* What all of them read. */
struct shared_store {
    const uint8_t *file;
    size_t len;
    const zevk_block *table;
    size_t count;
};

/* A copy that can't be written. */
static void *sealed(const void *bytes, size_t len) {
    void *copy = mmap(NULL, len, PROT_READ | PROT_WRITE, MAP_PRIVATE | MAP_ANONYMOUS, -1, 0);
    WANT(copy != MAP_FAILED);
    memcpy(copy, bytes, len);
    WANT(mprotect(copy, len, PROT_READ) == 0);
    return copy;
}

static void *read_all(void *given) {
    const struct shared_store *store = (const struct shared_store *)given;
    zevk_place place, run[DOCUMENTS];
    size_t found = 0;
    uint32_t num_docs = 0;
    for (int round = 0; round < ROUNDS; round++) {
        for (uint32_t id = 0; id < DOCUMENTS; id++) {
            WANT(zevk_locate(store->file, store->len, store->table, store->count, id, &place) == ZEVK_DONE);
            WANT(is_document(store->file, store->len, place, id));
            WANT(zevk_get(store->file, store->len, id, &place) == ZEVK_DONE);
            WANT(is_document(store->file, store->len, place, id));
        }
        WANT(zevk_locate_run(store->file, store->len, store->table, store->count, 0, run, DOCUMENTS, &found)
            == ZEVK_DONE);
        WANT(found == DOCUMENTS && is_document(store->file, store->len, run[DOCUMENTS - 1], DOCUMENTS - 1));
        memset(run, 7, sizeof run);
        WANT(zevk_get_run(store->file, store->len, 0, run, DOCUMENTS, &found) == ZEVK_DONE);
        WANT(found == DOCUMENTS && is_document(store->file, store->len, run[DOCUMENTS - 1], DOCUMENTS - 1));
        WANT(zevk_num_docs(store->file, store->len, &num_docs) == ZEVK_DONE && num_docs == DOCUMENTS);
    }
    size_t count = 0;
    zevk_block *own = table_of(store->file, store->len, &count);
    WANT(count == store->count);
    free(own);
    return NULL;
}

int main(int argc, char **argv) {
    pthread_t threads[THREADS];
    size_t len = 0, count = 0;
    uint8_t *file = loaded(argc, argv, &len);
    zevk_block *table = table_of(file, len, &count);
    const uint8_t *sealed_file = (const uint8_t *)sealed(file, len);
    const zevk_block *sealed_table = (const zevk_block *)sealed(table, count * sizeof *table);
    struct shared_store store = {sealed_file, len, sealed_table, count};
    for (int i = 0; i < THREADS; i++) {
        WANT(pthread_create(&threads[i], NULL, read_all, &store) == 0);
    }
    for (int i = 0; i < THREADS; i++) {
        WANT(pthread_join(threads[i], NULL) == 0);
    }
    free(table);
    free(file);
    return 0;
}
