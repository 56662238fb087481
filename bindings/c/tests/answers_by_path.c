/* Prints what a store's file is answered, as answers.c does, by path. Of each file the cursor gives the same as the
 * gets, and what is read without the check of the whole index is the same where that check finds nothing.
 *
 * usage: answers_by_path FILE..
 */
#include <inttypes.h>

#include "stores.h"
#include "zevkhadun_file.h"

/* How many of the first documents are printed. */
enum { FIRST = 200 };

/* The file without the check of the whole index and a cursor give what a get gives. */
static int get(const zevk_file *file, const zevk_file *unchecked, uint32_t doc_id, zevk_document *document) {
    zevk_document others[4] = {{NULL, 0}, {NULL, 0}, {NULL, 0}, {NULL, 0}};
    zevk_cursor cursor;
    int error = zevk_file_get(file, doc_id, document);
    WANT(zevk_file_get(unchecked, doc_id, &others[0]) == error);
    zevk_cursor_begin(&cursor, file, doc_id);
    WANT(zevk_cursor_next(&cursor, &others[1]) == error && cursor.doc_id == doc_id);
    zevk_cursor_begin(&cursor, unchecked, doc_id);
    WANT(zevk_cursor_next(&cursor, &others[2]) == error);
    WANT(zevk_cursor_get(&cursor, doc_id, &others[3]) == error);
    for (size_t at = 0; at < 4 && error == 0; at++) {
        WANT(others[at].len == document->len && memcmp(others[at].bytes, document->bytes, document->len) == 0);
    }
    return error;
}

static void print_document(const zevk_file *file, const zevk_file *unchecked, uint32_t doc_id) {
    zevk_document document;
    int error = get(file, unchecked, doc_id, &document);
    if (error != 0) {
        printf("error %d\n", error);
        return;
    }
    printf("%s", document.len == 0 ? "-" : "");
    for (size_t at = 0; at < document.len; at++) {
        printf("%02x", document.bytes[at]);
    }
    printf("\n");
}

static void print_file(const char *path) {
    zevk_file *file = NULL, *unchecked = NULL;
    int error = zevk_file_open(path, ZEVK_FILE_CHECKED, &file);
    if (error != 0) {
        printf("error %d\n", error);
        return;
    }
    uint32_t num_docs = zevk_file_num_docs(file);
    WANT(zevk_file_open(path, 0, &unchecked) == 0 && zevk_file_num_docs(unchecked) == num_docs);
    printf("docs %" PRIu32 "\n", num_docs);
    for (uint32_t doc_id = 0; doc_id < num_docs && doc_id < FIRST; doc_id++) {
        print_document(file, unchecked, doc_id);
    }
    print_document(file, unchecked, num_docs - 1);
    print_document(file, unchecked, num_docs);
    zevk_file_close(file);
    zevk_file_close(unchecked);
}

int main(int argc, char **argv) {
    for (int at = 1; at < argc; at++) {
        print_file(argv[at]);
    }
    return 0;
}
