/* A store that is read by ranges of its file, as one is that lies elsewhere: each document, by the end of the file and
 * the bytes of one block, is where zevk_get finds it, with tails of each length. Of bytes that are no store's, each
 * block lies before the footer, and each place in its block.
 *
 * usage: ranges HEX
 */
#include "stores.h"

/* A file that can only be read by ranges, and how often it was. */
typedef struct far_file {
    const uint8_t *bytes;
    size_t len;
    size_t reads;
} far_file;

/* Reads `len` bytes of the file from `start` on. The caller frees them. */
static uint8_t *read_range(far_file *file, size_t start, size_t len) {
    WANT(start <= file->len && len <= file->len - start);
    file->reads++;
    return (uint8_t *)tight(file->bytes + start, len);
}

/* Finds the block of a document, beginning with this many of the last bytes of the file. */
static uint32_t find_block(far_file *file, size_t tail_len, uint32_t id, zevk_block_place *block) {
    for (;;) {
        size_t wanted = 0;
        uint8_t *tail = read_range(file, file->len - tail_len, tail_len);
        uint32_t error = zevk_block_of(tail, tail_len, file->len, id, block, &wanted);
        free(tail);
        if (error != ZEVK_TAIL_TOO_SHORT) {
            return error;
        }
        WANT(tail_len < wanted && wanted <= file->len);
        tail_len = wanted;
    }
}

/* Finds the place of a document, and whether it is that of zevk_get. */
static void is_found(far_file *file, size_t tail_len, uint32_t id) {
    zevk_block_place block = {0, 0, 0, 0};
    zevk_place place = {1, 2}, same = {1, 2};
    uint32_t error = zevk_get(file->bytes, file->len, id, &same);
    file->reads = 0;
    WANT(find_block(file, tail_len, id, &block) == (error == ZEVK_NO_DOCUMENT ? error : (uint32_t)ZEVK_DONE));
    WANT(file->reads <= (tail_len < 28 ? 3 : 2));
    if (error == ZEVK_NO_DOCUMENT) {
        return;
    }
    WANT(block.first_doc <= id && id < block.end_doc);
    uint8_t *bytes = read_range(file, block.start, block.len);
    WANT(zevk_get_in(bytes, block.len, &block, id, &place) == error);
    WANT(place.start == same.start && place.len == same.len);
    WANT(memcmp(bytes + (place.start - block.start), file->bytes + same.start, same.len) == 0);
    WANT(zevk_get_in(bytes, block.len, &block, block.end_doc, &place) == ZEVK_OTHER_BLOCK);
    WANT(zevk_get_in(bytes, block.len - 1, &block, id, &place) == ZEVK_OTHER_BLOCK);
    WANT(place.start == same.start && place.len == same.len);
    free(bytes);
}

/* The least tail that is enough is what is wanted of a shorter one. */
static void tails(far_file *file) {
    zevk_block_place block = {0, 0, 0, 0};
    size_t wanted = 77, enough = 0;
    WANT(zevk_block_of(file->bytes, file->len, file->len - 1, 0, &block, &wanted) == ZEVK_SHORT_FILE && wanted == 77);
    for (size_t len = file->len + 1; len-- > 0;) {
        const uint8_t *tail = file->bytes + (file->len - len);
        uint32_t error = zevk_block_of(tail, len, file->len, 0, &block, &wanted);
        if (error == ZEVK_DONE) {
            WANT(wanted == 77);
            enough = len;
        } else {
            WANT(error == ZEVK_TAIL_TOO_SHORT && len < enough && wanted == (len < 28 ? 28 : enough));
            wanted = 77;
        }
    }
    WANT(28 < enough && enough < file->len);
}

/* Files with some bytes changed at their end. */
static void changed(const uint8_t *file, size_t len) {
    srand(3);
    for (int round = 0; round < 20000; round++) {
        uint8_t *bytes = (uint8_t *)tight(file, len);
        for (int changes = rand() % 4; changes >= 0; changes--) {
            bytes[len - 1 - (size_t)rand() % 200] = (uint8_t)rand();
        }
        uint32_t id = (uint32_t)rand() % (DOCUMENTS + 2);
        size_t tail_len = (size_t)rand() % (len + 1);
        size_t wanted = 0;
        zevk_block_place block = {0, 0, 0, 0};
        zevk_place place = {0, 0};
        uint8_t *tail = (uint8_t *)tight(bytes + (len - tail_len), tail_len);
        uint32_t error = zevk_block_of(tail, tail_len, len, id, &block, &wanted);
        free(tail);
        if (error == ZEVK_TAIL_TOO_SHORT) {
            WANT(tail_len < wanted && wanted <= len);
        }
        if (error == ZEVK_DONE) {
            WANT(block.start <= len - 28 && block.len <= len - 28 - block.start);
            uint8_t *part = (uint8_t *)tight(bytes + block.start, block.len);
            error = zevk_get_in(part, block.len, &block, id, &place);
            WANT(error == ZEVK_DONE || error == ZEVK_DAMAGED_DOCUMENT);
            if (error == ZEVK_DONE) {
                WANT(block.start <= place.start && place.start - block.start <= block.len);
                WANT(place.len <= block.len - (place.start - block.start));
            }
            free(part);
        }
        free(bytes);
    }
}

int main(int argc, char **argv) {
    far_file file = {NULL, 0, 0};
    uint8_t *bytes = loaded(argc, argv, &file.len);
    file.bytes = bytes;
    for (size_t tail_len = 0; tail_len <= file.len; tail_len++) {
        for (uint32_t id = 0; id <= DOCUMENTS; id++) {
            is_found(&file, tail_len, id);
        }
    }
    tails(&file);
    changed(bytes, file.len);
    free(bytes);
    return 0;
}
