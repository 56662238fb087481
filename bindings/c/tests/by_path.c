/* Stores by path: they are written, read, stacked and appended to, and each error of a file is returned.
 *
 * usage: by_path FOLDER
 */
#include <errno.h>

#include "stores.h"
#include "zevkhadun_file.h"

/* The path of a file in the folder of the tests. */
static const char *folder;

static const char *in_folder(const char *name) {
    static char paths[4][4096];
    static unsigned turn = 0;
    turn = (turn + 1) % 4;
    WANT(snprintf(paths[turn], sizeof paths[turn], "%s/%s", folder, name) < (int)sizeof paths[turn]);
    return paths[turn];
}

/* Puts the documents from one number to another, not included. */
static void put_documents(zevk_file_writer *writer, uint32_t first, uint32_t end) {
    char text[64];
    uint32_t id = 77;
    for (uint32_t number = first; number < end; number++) {
        size_t len = document(number, text);
        WANT(zevk_file_put(writer, len == 0 ? NULL : text, len, number % 2 == 0 ? NULL : &id) == 0);
        WANT(number % 2 == 0 || id == zevk_file_writer_num_docs(writer) - 1);
    }
}

/* Writes the store of documents from one number to another. */
static void write_store(const char *path, uint32_t first, uint32_t end, size_t block_size, unsigned period) {
    zevk_file_writer *writer = NULL;
    WANT(zevk_file_create(path, ZEVK_FILE_REPLACE, block_size, period, &writer) == 0);
    put_documents(writer, first, end);
    WANT(zevk_file_writer_num_docs(writer) == end - first);
    WANT(zevk_file_publish(writer) == 0);
}

static int is_text(zevk_document found, uint32_t number) {
    char text[64];
    size_t len = document(number, text);
    return found.len == len && memcmp(found.bytes, text, len) == 0;
}

/* A cursor gives each document: in order, in the other order, twice, and far apart. It stays after an error. */
static void gets_by_a_cursor(const zevk_file *file, uint32_t first, uint32_t count) {
    zevk_cursor cursor;
    zevk_document found = {NULL, 77};
    zevk_cursor_begin(&cursor, file, count / 2);
    for (uint32_t at = 0; at < count; at++) {
        const uint32_t ids[] = {at, at, count - 1 - at, at * 37 % count, at};
        for (size_t time = 0; time < sizeof ids / sizeof *ids; time++) {
            WANT(zevk_cursor_get(&cursor, ids[time], &found) == 0 && cursor.doc_id == ids[time]);
            WANT(is_text(found, first + ids[time]));
        }
    }
    for (uint32_t id = 0; id < count; id++) {
        WANT(zevk_cursor_get(&cursor, id, &found) == 0 && cursor.doc_id == id && is_text(found, first + id));
    }
    found.len = 77;
    WANT(zevk_cursor_get(&cursor, count, &found) == ZEVK_NO_DOCUMENT && cursor.doc_id == count && found.len == 77);
    WANT(zevk_cursor_get(&cursor, UINT32_MAX, &found) == ZEVK_NO_DOCUMENT && found.len == 77);
    WANT(zevk_cursor_next(&cursor, &found) == ZEVK_NO_DOCUMENT);
    if (count > 1) {
        WANT(zevk_cursor_get(&cursor, 0, &found) == 0 && zevk_cursor_next(&cursor, &found) == 0);
        WANT(is_text(found, first + 1));
    }
}

/* A store has these documents, by number and in order. */
static void has_documents(const char *path, unsigned flags, uint32_t first, uint32_t end) {
    zevk_file *file = NULL;
    zevk_document found = {NULL, 77};
    zevk_cursor cursor;
    WANT(zevk_file_open(path, flags, &file) == 0 && zevk_file_num_docs(file) == end - first);
    gets_by_a_cursor(file, first, end - first);
    WANT(zevk_file_get(file, end - first, &found) == ZEVK_NO_DOCUMENT && found.len == 77);
    WANT(zevk_file_get(file, UINT32_MAX, &found) == ZEVK_NO_DOCUMENT && found.len == 77);
    for (uint32_t id = 0; id < end - first; id++) {
        WANT(zevk_file_get(file, id, &found) == 0 && is_text(found, first + id));
    }
    uint32_t begin = (end - first) / 3;
    zevk_cursor_begin(&cursor, file, begin);
    for (uint32_t id = begin; id < end - first; id++) {
        WANT(zevk_cursor_next(&cursor, &found) == 0 && cursor.doc_id == id && is_text(found, first + id));
    }
    found.len = 77;
    WANT(zevk_cursor_next(&cursor, &found) == ZEVK_NO_DOCUMENT && cursor.doc_id == end - first && found.len == 77);
    WANT(zevk_cursor_next(&cursor, &found) == ZEVK_NO_DOCUMENT && cursor.doc_id == end - first);
    zevk_file_close(file);
}

/* Facts of a store that was written. */
static void has_facts(const char *path, uint32_t documents, unsigned period) {
    zevk_file *file = NULL;
    zevk_facts facts;
    zevk_fault fault;
    WANT(zevk_file_open(path, ZEVK_FILE_CHECKED, &file) == 0);
    zevk_file_facts(file, &facts);
    WANT(facts.num_docs == documents && facts.version == 3 && facts.period == period);
    WANT((facts.blocks == 0) == (documents == 0) && facts.blocks <= documents);
    WANT(facts.data_len < facts.len && (facts.data_len == 0) == (documents == 0));
    WANT(zevk_check(facts.bytes, facts.len, &fault) == ZEVK_DONE);
    zevk_file_close(file);
}

static void are_written_and_read(void) {
    static const size_t sizes[] = {0, 100, 16384};
    static const unsigned periods[] = {2, 8, 64};
    static const uint32_t counts[] = {0, 1, 64, 1000};
    const char *path = in_folder("store");
    for (size_t at = 0; at < 36; at++) {
        uint32_t count = counts[at % 4];
        unsigned period = periods[at / 4 % 3];
        write_store(path, 3, 3 + count, sizes[at / 12], period);
        has_documents(path, 0, 3, 3 + count);
        has_documents(path, ZEVK_FILE_CHECKED, 3, 3 + count);
        has_documents(path, ZEVK_FILE_SCATTERED, 3, 3 + count);
        has_documents(path, ZEVK_FILE_CHECKED | ZEVK_FILE_SCATTERED, 3, 3 + count);
        has_facts(path, count, period);
    }
}

/* Documents about as long as what is gathered before it is written. */
static void are_long(void) {
    static const size_t lengths[] = {65535, 1, 65536, 0, 65537, 70000, 1 << 20, 5, 60000, 5535, 6000};
    enum { COUNT = sizeof lengths / sizeof *lengths };
    zevk_file_writer *writer = NULL;
    zevk_file *file = NULL;
    zevk_document found;
    const char *path = in_folder("long");
    uint8_t *bytes = (uint8_t *)malloc(1 << 20);
    WANT(bytes != NULL && zevk_file_create(path, 0, 200000, 8, &writer) == 0);
    for (size_t at = 0; at < COUNT; at++) {
        memset(bytes, (int)(at + 1), lengths[at]);
        WANT(zevk_file_put(writer, bytes, lengths[at], NULL) == 0);
    }
    WANT(zevk_file_publish(writer) == 0 && zevk_file_open(path, 0, &file) == 0);
    for (uint32_t at = 0; at < COUNT; at++) {
        memset(bytes, (int)(at + 1), lengths[at]);
        WANT(zevk_file_get(file, at, &found) == 0 && found.len == lengths[at]);
        WANT(memcmp(found.bytes, bytes, found.len) == 0);
    }
    zevk_file_close(file);
    free(bytes);
}

/* Two files have the same bytes. */
static void are_equal(const char *one, const char *other) {
    zevk_file *a = NULL, *b = NULL;
    zevk_facts left, right;
    WANT(zevk_file_open(one, 0, &a) == 0 && zevk_file_open(other, 0, &b) == 0);
    zevk_file_facts(a, &left);
    zevk_file_facts(b, &right);
    WANT(left.len == right.len && memcmp(left.bytes, right.bytes, left.len) == 0);
    zevk_file_close(a);
    zevk_file_close(b);
}

/* Documents that are put, stacked and put again; blocks end by themselves, and where the caller wants. */
static void are_stacked(void) {
    zevk_file_writer *writer = NULL, *other = NULL;
    zevk_file *checked = NULL, *unchecked = NULL;
    write_store(in_folder("middle"), 10, 200, 300, 4);
    WANT(zevk_file_open(in_folder("middle"), ZEVK_FILE_CHECKED, &checked) == 0);
    WANT(zevk_file_open(in_folder("middle"), 0, &unchecked) == 0);
    WANT(zevk_file_create(in_folder("stacked"), 0, 300, 8, &writer) == 0);
    WANT(zevk_file_create(in_folder("other"), 0, 300, 8, &other) == 0);
    put_documents(writer, 0, 10);
    put_documents(other, 0, 10);
    WANT(zevk_file_stack(writer, checked) == 0 && zevk_file_writer_num_docs(writer) == 200);
    WANT(zevk_file_end_block(other) == 0 && zevk_file_end_block(other) == 0);
    WANT(zevk_file_stack(other, unchecked) == 0 && zevk_file_writer_num_docs(other) == 200);
    put_documents(writer, 200, 300);
    put_documents(other, 200, 300);
    zevk_file_close(checked);
    zevk_file_close(unchecked);
    WANT(zevk_file_publish(writer) == 0 && zevk_file_publish(other) == 0);
    has_documents(in_folder("stacked"), 0, 0, 300);
    are_equal(in_folder("stacked"), in_folder("other"));
}

/* What is appended is what is put after a stack of the old store. */
static void are_appended(void) {
    zevk_file_writer *writer = NULL;
    zevk_file *file = NULL;
    static const uint32_t ends[] = {0, 1, 500};
    for (size_t at = 0; at < 3; at++) {
        write_store(in_folder("old"), 0, ends[at], 300, 5);
        WANT(zevk_file_open(in_folder("old"), 0, &file) == 0);
        WANT(zevk_file_create(in_folder("wanted"), ZEVK_FILE_REPLACE, 200, at == 2 ? 3 : 5, &writer) == 0);
        WANT(zevk_file_stack(writer, file) == 0);
        zevk_file_close(file);
        put_documents(writer, ends[at], ends[at] + 20);
        WANT(zevk_file_publish(writer) == 0);
        WANT(zevk_file_append(in_folder("old"), 200, at == 2 ? 3 : 0, &writer) == 0);
        WANT(zevk_file_writer_num_docs(writer) == ends[at]);
        put_documents(writer, ends[at], ends[at] + 20);
        WANT(zevk_file_publish(writer) == 0);
        has_documents(in_folder("old"), 0, 0, ends[at] + 20);
        are_equal(in_folder("old"), in_folder("wanted"));
    }
}

int main(int argc, char **argv) {
    WANT(argc == 2);
    folder = argv[1];
    are_written_and_read();
    are_long();
    are_stacked();
    are_appended();
    WANT(strcmp(zevk_version(), ZEVK_VERSION) == 0);
    return 0;
}
