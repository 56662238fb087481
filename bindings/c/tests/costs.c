/* Gets documents of a store in one of two ways, so that the instructions of each can be counted.
 *
 * usage: costs path|table COUNT FILE
 */
#include "stores.h"
#include "zevkhadun_file.h"

static size_t by_path(const zevk_file *file, uint32_t count) {
    size_t sum = 0;
    uint32_t num_docs = zevk_file_num_docs(file);
    for (uint32_t at = 0; at < count; at++) {
        zevk_document document;
        WANT(zevk_file_get(file, at * 7919 % num_docs, &document) == 0);
        sum += document.len;
    }
    return sum;
}

static size_t by_table(const zevk_facts *facts, const zevk_block *table, size_t rows, uint32_t count) {
    size_t sum = 0;
    for (uint32_t at = 0; at < count; at++) {
        zevk_place place;
        WANT(zevk_locate(facts->bytes, facts->len, table, rows, at * 7919 % facts->num_docs, &place) == ZEVK_DONE);
        sum += place.len;
    }
    return sum;
}

int main(int argc, char **argv) {
    zevk_file *file = NULL;
    zevk_facts facts;
    size_t rows = 0;
    WANT(argc == 4 && zevk_file_open(argv[3], ZEVK_FILE_CHECKED, &file) == 0);
    zevk_file_facts(file, &facts);
    zevk_block *table = table_of(facts.bytes, facts.len, &rows);
    uint32_t count = (uint32_t)strtoul(argv[2], NULL, 10);
    printf("%zu\n", strcmp(argv[1], "path") == 0 ? by_path(file, count) : by_table(&facts, table, rows, count));
    zevk_file_close(file);
    free(table);
    return 0;
}
