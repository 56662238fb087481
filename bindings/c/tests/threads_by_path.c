/* Eight threads that share two open files, one with a table and one without: each gets all documents, moves cursors of
 * its own, asks for facts, opens and closes the file for itself, and stacks the shared files into a store of its own.
 *
 * usage: threads_by_path FOLDER [made]
 *
 * With the second word the outline of the file without a table is made before the threads begin.
 */
#ifndef _GNU_SOURCE
#define _GNU_SOURCE
#endif
#include <pthread.h>

#include "stores.h"
#include "zevkhadun_file.h"

enum { THREADS = 8, ROUNDS = 20, COUNT = 300 };

/* What all of them share, and which one this is. */
struct shared {
    const char *folder;
    const char *path;
    const zevk_file *files[2];
    int number;
};

static void write_documents(zevk_file_writer *writer) {
    char text[64];
    for (uint32_t id = 0; id < COUNT; id++) {
        WANT(zevk_file_put(writer, text, document(id, text), NULL) == 0);
    }
}

static int is_text(zevk_document found, uint32_t number) {
    char text[64];
    size_t len = document(number, text);
    return found.len == len && memcmp(found.bytes, text, len) == 0;
}

/* Each document is there, by its number and by a cursor that begins at `first`. */
static void has_documents(const zevk_file *file, uint32_t first) {
    zevk_document found;
    zevk_cursor cursor;
    zevk_facts facts;
    for (uint32_t id = 0; id < COUNT; id++) {
        uint32_t number = (id * 7 + first) % COUNT;
        WANT(zevk_file_get(file, number, &found) == 0 && is_text(found, number));
    }
    WANT(zevk_file_get(file, COUNT, &found) == ZEVK_NO_DOCUMENT);
    zevk_cursor_begin(&cursor, file, first);
    for (uint32_t id = first; id < COUNT; id++) {
        WANT(zevk_cursor_next(&cursor, &found) == 0 && cursor.doc_id == id && is_text(found, id));
    }
    WANT(zevk_cursor_next(&cursor, &found) == ZEVK_NO_DOCUMENT);
    zevk_file_facts(file, &facts);
    WANT(facts.num_docs == COUNT && zevk_file_num_docs(file) == COUNT);
}

/* Opens the file once more, by itself. */
static void is_opened_again(const struct shared *shared, unsigned flags) {
    zevk_file *own = NULL;
    WANT(zevk_file_open(shared->path, flags, &own) == 0);
    has_documents(own, 5);
    zevk_file_close(own);
}

/* Both files one after the other, in a store of this thread. */
static void is_stacked(const struct shared *shared) {
    char path[4096];
    zevk_file_writer *writer = NULL;
    zevk_file *own = NULL;
    zevk_document found;
    WANT(snprintf(path, sizeof path, "%s/%d.store", shared->folder, shared->number) < (int)sizeof path);
    WANT(zevk_file_create(path, 0, 300, 8, &writer) == 0);
    WANT(zevk_file_stack(writer, shared->files[0]) == 0 && zevk_file_stack(writer, shared->files[1]) == 0);
    WANT(zevk_file_publish(writer) == 0 && zevk_file_open(path, 0, &own) == 0);
    for (uint32_t id = 0; id < 2 * COUNT; id++) {
        WANT(zevk_file_get(own, id, &found) == 0 && is_text(found, id % COUNT));
    }
    zevk_file_close(own);
}

static void *work(void *given) {
    const struct shared *shared = (const struct shared *)given;
    for (uint32_t round = 0; round < ROUNDS; round++) {
        has_documents(shared->files[0], round + (uint32_t)shared->number);
        has_documents(shared->files[1], round + (uint32_t)shared->number);
    }
    is_opened_again(shared, 0);
    is_opened_again(shared, ZEVK_FILE_CHECKED);
    is_stacked(shared);
    return NULL;
}

int main(int argc, char **argv) {
    pthread_t threads[THREADS];
    struct shared shared[THREADS];
    char path[4096];
    zevk_file_writer *writer = NULL;
    zevk_file *checked = NULL, *unchecked = NULL;
    WANT((argc == 2 || argc == 3) && snprintf(path, sizeof path, "%s/store", argv[1]) < (int)sizeof path);
    WANT(zevk_file_create(path, 0, 300, 8, &writer) == 0);
    write_documents(writer);
    WANT(zevk_file_publish(writer) == 0);
    WANT(zevk_file_open(path, ZEVK_FILE_CHECKED, &checked) == 0 && zevk_file_open(path, 0, &unchecked) == 0);
    if (argc == 3) {
        has_documents(unchecked, 0);
    }
    for (int i = 0; i < THREADS; i++) {
        shared[i].folder = argv[1];
        shared[i].path = path;
        shared[i].files[0] = checked;
        shared[i].files[1] = unchecked;
        shared[i].number = i;
        WANT(pthread_create(&threads[i], NULL, work, &shared[i]) == 0);
    }
    for (int i = 0; i < THREADS; i++) {
        WANT(pthread_join(threads[i], NULL) == 0);
    }
    zevk_file_close(checked);
    zevk_file_close(unchecked);
    return 0;
}
