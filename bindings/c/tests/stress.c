/* A store that is read, refusals, and files and tables that are cut and changed.
 *
 * usage: stress HEX
 */
#include "stores.h"

/* Tables that have room, and ones that have too little. */
static void open_all(const uint8_t *file, size_t file_len) {
    zevk_block whole[BLOCKS];
    size_t count = 0;
    uint32_t num_docs = 0;
    WANT(zevk_open(file, file_len, whole, BLOCKS, &count, &num_docs) == ZEVK_DONE);
    WANT(count == BLOCKS && num_docs == DOCUMENTS && whole[BLOCKS - 1].end_doc == DOCUMENTS);
    for (size_t room = 0; room < BLOCKS + 3; room++) {
        zevk_block *table = (zevk_block *)malloc((room > 0 ? room : 1) * sizeof *table);
        WANT(table != NULL);
        for (size_t i = 0; i < room; i++) {
            table[i].end_doc = 5;
            table[i].guide = 7;
            table[i].end_byte = 6;
        }
        count = num_docs = 0;
        uint32_t answer = zevk_open(file, file_len, table, room, &count, &num_docs);
        WANT(answer == (room < BLOCKS ? ZEVK_NO_ROOM : ZEVK_DONE) && count == BLOCKS && num_docs == DOCUMENTS);
        for (size_t i = 0; i < room; i++) {
            WANT(table[i].end_doc == (i < BLOCKS ? whole[i].end_doc : 5));
            WANT(table[i].end_byte == (i < BLOCKS ? whole[i].end_byte : 6));
            WANT(i < BLOCKS || table[i].guide == 7);
        }
        free(table);
    }
}

/* Each document, one at a time and in runs. */
static void read_all(const uint8_t *file, size_t file_len) {
    zevk_place place = {1, 2}, run[7];
    size_t found = 0, count = 0;
    zevk_block *table = table_of(file, file_len, &count);
    for (uint32_t id = 0; id < DOCUMENTS; id++) {
        WANT(zevk_locate(file, file_len, table, count, id, &place) == ZEVK_DONE);
        WANT(is_document(file, file_len, place, id));
    }
    place.start = 1;
    WANT(zevk_locate(file, file_len, table, count, DOCUMENTS, &place) == ZEVK_NO_DOCUMENT && place.start == 1);
    WANT(zevk_locate(file, file_len, table, count, UINT32_MAX, &place) == ZEVK_NO_DOCUMENT);
    for (uint32_t first = 0; first < DOCUMENTS + 3; first++) {
        uint32_t answer = zevk_locate_run(file, file_len, table, count, first, run, 7, &found);
        uint32_t left = first < DOCUMENTS ? DOCUMENTS - first : 0;
        WANT(found == (left < 7 ? left : 7) && answer == (left < 7 ? ZEVK_NO_DOCUMENT : ZEVK_DONE));
        for (size_t i = 0; i < found; i++) {
            WANT(is_document(file, file_len, run[i], first + (uint32_t)i));
        }
    }
    WANT(zevk_locate_run(file, file_len, table, count, UINT32_MAX, run, 7, &found) == ZEVK_NO_DOCUMENT && found == 0);
    WANT(zevk_locate_run(file, file_len, table, count, 0, run, 0, &found) == ZEVK_DONE && found == 0);
    free(table);
}

/* Whatever the guides of a table are, each document is found. */
static void any_guides(const uint8_t *file, size_t file_len) {
    size_t count = 0;
    zevk_place place;
    zevk_block *table = table_of(file, file_len, &count);
    srand(2);
    for (int round = 0; round < 100; round++) {
        for (size_t i = 0; i < count; i++) {
            uint32_t any = round % 2 == 0 ? UINT32_MAX - (uint32_t)(rand() % 3) : (uint32_t)rand() % 80;
            table[i].guide = round == 0 ? 0 : any;
        }
        for (uint32_t id = 0; id < DOCUMENTS; id++) {
            WANT(zevk_locate(file, file_len, table, count, id, &place) == ZEVK_DONE);
            WANT(is_document(file, file_len, place, id));
        }
        WANT(zevk_locate(file, file_len, table, count, DOCUMENTS, &place) == ZEVK_NO_DOCUMENT);
    }
    free(table);
}

/* Places by any table, in any bytes, lie within them. */
static void locate_any(const uint8_t *bytes, size_t len, const zevk_block *table, size_t count) {
    zevk_place place, run[80];
    size_t found = 0;
    for (uint32_t id = 0; id < 80; id++) {
        uint32_t got = zevk_locate(bytes, len, table, count, id, &place);
        WANT(got == ZEVK_DONE || got == ZEVK_DAMAGED_DOCUMENT || got == ZEVK_NO_DOCUMENT || got == ZEVK_OTHER_TABLE);
        WANT(got != ZEVK_DONE || (place.start <= len && place.len <= len - place.start));
    }
    zevk_locate_run(bytes, len, table, count, 0, run, 80, &found);
    for (size_t i = 0; i < found; i++) {
        WANT(run[i].start <= len && run[i].len <= len - run[i].start);
    }
}

/* Opens some bytes; where they are a store, places lie within them, and its table is not another's. */
static uint32_t survive(const uint8_t *bytes, size_t len) {
    zevk_block table[80];
    zevk_place place;
    size_t count = 77;
    uint32_t num_docs = 78;
    uint32_t answer = zevk_open(bytes, len, table, 80, &count, &num_docs);
    if (answer != ZEVK_DONE) {
        WANT(answer <= ZEVK_BAD_PERIOD && count == 77 && num_docs == 78);
        return answer;
    }
    locate_any(bytes, len, table, count);
    for (uint32_t id = 0; id < 80; id++) {
        uint32_t got = zevk_locate(bytes, len, table, count, id, &place);
        WANT(got != ZEVK_OTHER_TABLE && (got == ZEVK_NO_DOCUMENT) == (id >= num_docs));
    }
    return answer;
}

/* Each beginning of the file, and each of its bits changed. */
static void cut_and_changed(const uint8_t *file, size_t len) {
    unsigned long opened = 0;
    for (size_t cut = 0; cut < len; cut++) {
        uint8_t *bytes = (uint8_t *)tight(file, cut);
        uint32_t answer = survive(bytes, cut);
        WANT(answer != ZEVK_DONE && (answer == ZEVK_SHORT_FILE) == (cut < 28));
        free(bytes);
    }
    uint8_t *bytes = (uint8_t *)tight(file, len);
    for (size_t bit = 0; bit < 8 * len; bit++) {
        bytes[bit / 8] ^= (uint8_t)(1u << (bit % 8));
        opened += survive(bytes, len) == ZEVK_DONE;
        bytes[bit / 8] ^= (uint8_t)(1u << (bit % 8));
    }
    WANT(survive(bytes, len) == ZEVK_DONE && opened > 0 && opened < 8 * len);
    printf("%zu beginnings, %zu bits (%lu opened)\n", len, 8 * len, opened);
    free(bytes);
}

/* Other bytes and other lengths than those that were opened, and tables of any rows. */
static void other_bytes(const uint8_t *file, size_t len) {
    size_t count = 0;
    zevk_block *table = table_of(file, len, &count);
    uint8_t *bytes = (uint8_t *)tight(file, len);
    srand(1);
    for (size_t cut = 0; cut < len; cut++) {
        uint8_t *front = (uint8_t *)tight(file, cut);
        locate_any(front, cut, table, count);
        free(front);
    }
    for (int round = 0; round < 1000; round++) {
        zevk_block *rows = (zevk_block *)tight(table, count * sizeof *table);
        for (size_t i = 0; i < len; i++) {
            bytes[i] = (uint8_t)(round % 3 == 0 ? rand() : file[i] ^ (rand() % 50 == 0));
        }
        locate_any(bytes, len, table, count);
        for (size_t i = 0; i < count; i++) {
            if (rand() % 4 == 0) {
                rows[i].end_doc = rand() % 4 == 0 ? UINT32_MAX - (uint32_t)(rand() % 3) : (uint32_t)(rand() % 80);
            }
            if (rand() % 4 == 0) {
                rows[i].guide = (uint32_t)rand();
            }
            if (rand() % 4 == 0) {
                rows[i].end_byte = rand() % 4 == 0 ? SIZE_MAX - (size_t)(rand() % 3) : (size_t)rand() % (len + 9);
            }
        }
        locate_any(file, len, rows, count);
        locate_any(bytes, len, rows, (size_t)rand() % (count + 1));
        free(rows);
    }
    free(bytes);
    free(table);
}

/* How refusals are reported. */
static void texts(void) {
    uint8_t text[ZEVK_TEXT_LEN], other[ZEVK_TEXT_LEN];
    size_t len = zevk_refusal_text(ZEVK_NO_DOCUMENT, text, sizeof text);
    WANT(strcmp((const char *)text, "the store has no document of this number") == 0);
    WANT(len == strlen((const char *)text));
    for (uint32_t number = 0; number < 40; number++) {
        len = zevk_refusal_text(number, other, sizeof other);
        WANT(len == strlen((const char *)other) && len > 0 && len < sizeof other);
        memset(text, 7, sizeof text);
        WANT(zevk_refusal_text(number, text, len) == len && text[0] == 7);
        WANT(zevk_refusal_text(number, text, len + 1) == len && memcmp(text, other, len + 1) == 0);
    }
    zevk_refusal_text(1000, text, sizeof text);
    WANT(strcmp((const char *)text, "unknown refusal") == 0);
}

int main(int argc, char **argv) {
    size_t len = 0;
    uint8_t *file = loaded(argc, argv, &len);
    texts();
    open_all(file, len);
    read_all(file, len);
    any_guides(file, len);
    cut_and_changed(file, len);
    other_bytes(file, len);
    free(file);
    return 0;
}
