/* An array of length 0 may be NULL: in every call, and each array of it.
 *
 * usage: nulls HEX
 */
#include "stores.h"

/* The bytes of the file of a store without documents, and how many layers the index of the 13 blocks has at its period
 * of 3.
 */
enum { EMPTY_LEN = 29, LAYERS = 3 };

static void texts(void) {
    uint8_t text[ZEVK_TEXT_LEN];
    size_t len = zevk_refusal_text(ZEVK_NO_DOCUMENT, text, sizeof text);
    WANT(len > 0 && zevk_refusal_text(ZEVK_NO_DOCUMENT, NULL, 0) == len);
}

static void getting(const uint8_t *file, size_t len) {
    zevk_place place = {1, 2};
    size_t found = 78;
    uint32_t num_docs = 79;
    WANT(zevk_get(NULL, 0, 0, &place) == ZEVK_SHORT_FILE && place.start == 1 && place.len == 2);
    WANT(zevk_num_docs(NULL, 0, &num_docs) == ZEVK_SHORT_FILE && num_docs == 79);
    zevk_fault fault = {1, 2, 3};
    WANT(zevk_check(NULL, 0, &fault) == ZEVK_SHORT_FILE);
    WANT(fault.byte == 1 && fault.layer == 2 && fault.doc_id == 3);
    WANT(zevk_get_run(NULL, 0, 0, NULL, 0, &found) == ZEVK_SHORT_FILE && found == 0);
    found = 78;
    WANT(zevk_get_run(NULL, 0, 0, &place, 1, &found) == ZEVK_SHORT_FILE && found == 0 && place.start == 1);
    found = 78;
    WANT(zevk_get_run(file, len, 1, NULL, 0, &found) == ZEVK_DONE && found == 0);
}

static void outlining(const uint8_t *file, size_t len) {
    zevk_block row = {1, 2, 3};
    zevk_place place = {1, 2};
    zevk_head head = {0, 77, 78, 0, 0, 0, 0};
    WANT(zevk_outline(NULL, 0, NULL, 0, &head) == ZEVK_SHORT_FILE && head.rows == 77 && head.height == 78);
    WANT(zevk_outline(NULL, 0, &row, 1, &head) == ZEVK_SHORT_FILE && row.end_doc == 1);
    WANT(zevk_get_by(NULL, 0, NULL, 0, &head, 0, &place) == ZEVK_BAD_INDEX);
    WANT(zevk_get_by(NULL, 0, &row, 1, &head, 0, &place) == ZEVK_BAD_INDEX && place.start == 1 && place.len == 2);
    WANT(zevk_outline(file, len, NULL, 0, &head) == ZEVK_DONE && head.rows == 0 && head.height == LAYERS);
    WANT(zevk_get_by(file, len, NULL, 0, &head, 1, &place) == ZEVK_DONE && is_document(file, len, place, 1));
}

static void ranges(size_t len) {
    zevk_block_place block = {1, 2, 3, 0};
    zevk_place place = {1, 2};
    size_t wanted = 77;
    WANT(zevk_block_of(NULL, 0, 0, 0, &block, &wanted) == ZEVK_SHORT_FILE && wanted == 77);
    WANT(zevk_block_of(NULL, 0, len, 0, &block, &wanted) == ZEVK_TAIL_TOO_SHORT && wanted == 28);
    WANT(block.first_doc == 1 && block.end_doc == 2 && block.start == 3 && block.len == 0);
    WANT(zevk_get_in(NULL, 0, &block, 2, &place) == ZEVK_OTHER_BLOCK);
    WANT(zevk_get_in(NULL, 0, &block, 1, &place) == ZEVK_DAMAGED_DOCUMENT && place.start == 1 && place.len == 2);
}

static void reading(const uint8_t *file, size_t len) {
    zevk_place place = {1, 2}, run[3];
    size_t count = 77, found = 78;
    uint32_t num_docs = 79;
    WANT(zevk_open(NULL, 0, NULL, 0, &count, &num_docs) == ZEVK_SHORT_FILE && count == 77 && num_docs == 79);
    WANT(zevk_open(file, len, NULL, 0, &count, &num_docs) == ZEVK_NO_ROOM);
    WANT(count == BLOCKS && num_docs == DOCUMENTS);
    zevk_block *table = table_of(file, len, &count);
    WANT(zevk_open(NULL, 0, table, count, &count, &num_docs) == ZEVK_SHORT_FILE);
    WANT(zevk_locate(NULL, 0, NULL, 0, 0, &place) == ZEVK_NO_DOCUMENT);
    WANT(zevk_locate(file, len, NULL, 0, 0, &place) == ZEVK_NO_DOCUMENT);
    WANT(zevk_locate(NULL, 0, table, count, 0, &place) == ZEVK_OTHER_TABLE && place.start == 1 && place.len == 2);
    WANT(zevk_locate_run(NULL, 0, NULL, 0, 0, NULL, 0, &found) == ZEVK_DONE && found == 0);
    WANT(zevk_locate_run(file, len, table, count, 1, NULL, 0, &found) == ZEVK_DONE && found == 0);
    WANT(zevk_locate_run(file, len, NULL, 0, 0, run, 3, &found) == ZEVK_NO_DOCUMENT && found == 0);
    WANT(zevk_locate_run(NULL, 0, table, count, 0, run, 3, &found) == ZEVK_OTHER_TABLE && found == 0);
    free(table);
}

/* A store without documents, which needs no array: written, read and stacked. */
static void empty_store(void) {
    zevk_writer writer;
    zevk_place place;
    uint8_t end[EMPTY_LEN];
    size_t count = 77, len = 78;
    uint32_t num_docs = 79;
    zevk_writer_begin(&writer, 16384);
    WANT(zevk_writer_end_block(&writer, NULL, 0, NULL, 0, &count) == ZEVK_DONE && count == 0);
    WANT(zevk_writer_close(&writer, NULL, 0, 8, NULL, 0, &len) == ZEVK_NO_ROOM && len == EMPTY_LEN);
    WANT(zevk_writer_close(&writer, NULL, 0, 8, end, sizeof end, &len) == ZEVK_DONE && len == EMPTY_LEN);
    count = 77;
    WANT(zevk_open(end, sizeof end, NULL, 0, &count, &num_docs) == ZEVK_DONE && count == 0 && num_docs == 0);
    WANT(zevk_locate(end, sizeof end, NULL, 0, 0, &place) == ZEVK_NO_DOCUMENT);
    num_docs = 79;
    WANT(zevk_num_docs(end, sizeof end, &num_docs) == ZEVK_DONE && num_docs == 0);
    WANT(zevk_get(end, sizeof end, 0, &place) == ZEVK_NO_DOCUMENT);
    count = 77;
    WANT(zevk_writer_stack(&writer, NULL, 0, end, sizeof end, &count, &len) == ZEVK_DONE && count == 0 && len == 0);
}

/* Arrays that are too short are reported, and nothing is changed. */
static void writing(const uint8_t *file, size_t file_len) {
    zevk_writer writer, before;
    uint32_t starts[2];
    zevk_block table[1];
    size_t count = 77, len = 78;
    zevk_writer_begin(&writer, 0);
    before = writer;
    WANT(zevk_writer_put(&writer, NULL, 0, NULL, 0, 5, &count) == ZEVK_NO_ROOM);
    WANT(zevk_writer_put(&writer, NULL, 0, table, 1, 5, &count) == ZEVK_NO_ROOM);
    WANT(zevk_writer_put(&writer, starts, 2, NULL, 0, 5, &count) == ZEVK_NO_ROOM && count == 77);
    WANT(zevk_writer_stack(&writer, NULL, 0, NULL, 0, &count, &len) == ZEVK_SHORT_FILE && count == 77);
    WANT(zevk_writer_stack(&writer, NULL, 0, file, file_len, &count, &len) == ZEVK_NO_ROOM && count == BLOCKS);
    WANT(memcmp(&before, &writer, sizeof before) == 0 && len == 78);
    zevk_writer_begin(&writer, 100);
    WANT(zevk_writer_put(&writer, starts, 2, table, 1, 5, &count) == ZEVK_DONE && count == 0);
    WANT(zevk_writer_end_block(&writer, NULL, 0, NULL, 0, &count) == ZEVK_NO_ROOM);
    WANT(zevk_writer_end_block(&writer, starts, 2, NULL, 0, &count) == ZEVK_NO_ROOM);
    WANT(zevk_writer_end_block(&writer, NULL, 0, table, 1, &count) == ZEVK_NO_ROOM && count == 0);
    WANT(zevk_writer_end_block(&writer, starts, 2, table, 1, &count) == ZEVK_DONE && count == 2);
    WANT(zevk_writer_close(&writer, NULL, 0, 8, NULL, 0, &len) == ZEVK_OTHER_WRITER && len == 78);
    WANT(zevk_writer_close(&writer, table, 1, 8, NULL, 0, &len) == ZEVK_NO_ROOM && len > EMPTY_LEN);
}

int main(int argc, char **argv) {
    size_t len = 0;
    uint8_t *file = loaded(argc, argv, &len);
    texts();
    getting(file, len);
    outlining(file, len);
    ranges(len);
    reading(file, len);
    empty_store();
    writing(file, len);
    free(file);
    return 0;
}
