/* A hundred thousand gets of a store that is opened once, and each without opening.
 *
 * usage: gets HEX
 */
#include "stores.h"

int main(int argc, char **argv) {
    zevk_place place;
    size_t len = 0, count = 0;
    uint32_t id = 1;
    uint8_t *file = loaded(argc, argv, &len);
    zevk_block *table = table_of(file, len, &count);
    for (int i = 0; i < 100000; i++) {
        id = (id * 1664525u + 1013904223u) % DOCUMENTS;
        WANT(zevk_locate(file, len, table, count, id, &place) == ZEVK_DONE);
        WANT(is_document(file, len, place, id));
        WANT(zevk_get(file, len, id, &place) == ZEVK_DONE && is_document(file, len, place, id));
    }
    free(table);
    free(file);
    return 0;
}
