/* The calls by an outline of the index, beside zevk_get: with no rows, with those of each layer, and with more than
 * there are; with rows, heads and bytes that are another file's or no one's.
 *
 * usage: outlines HEX [BLOCKS]
 *
 * The store that is compared has 6579 blocks, or as many as the second word says. Of more blocks 6579 documents are
 * asked for.
 */
#include "compared.h"

enum { FEW = 6579, PERIOD = 8, MOST_LAYERS = 11 };

/* A store of one document in each block: how many blocks it has, and the entries of its layers, each an eighth, rounded
 * up, of those below it. */
static uint32_t many;
static size_t entries[MOST_LAYERS];
static size_t layers;

static void lay_out(uint32_t blocks) {
    many = blocks;
    layers = 0;
    for (size_t left = blocks, run = 1; run <= blocks; run *= PERIOD) {
        entries[layers++] = left;
        left = (left + PERIOD - 1) / PERIOD;
    }
}

/* A file that is written. */
typedef struct written {
    uint8_t *file;
    size_t len;
} written;

static void append(written *to, const void *bytes, size_t len) {
    if (len > 0) {
        memcpy(to->file + to->len, bytes, len);
        to->len += len;
    }
}

/* The caller frees the file. */
static written many_blocks(void) {
    zevk_writer writer;
    written made = {(uint8_t *)malloc((size_t)many * 64), 0};
    zevk_block *table = (zevk_block *)malloc(many * sizeof *table);
    uint32_t starts[2];
    char text[64];
    size_t count = 0, end_len = 0;
    WANT(made.file != NULL && table != NULL);
    zevk_writer_begin(&writer, 0);
    for (uint32_t id = 0; id < many; id++) {
        size_t len = document(id, text);
        WANT(zevk_writer_put(&writer, starts, 2, table, many, len, &count) == ZEVK_DONE && count == 2);
        append(&made, text, len);
        append(&made, starts, sizeof starts);
    }
    size_t room = (size_t)many * 64 - made.len;
    WANT(zevk_writer_close(&writer, table, many, PERIOD, made.file + made.len, room, &end_len) == ZEVK_DONE);
    made.len += end_len;
    free(table);
    return made;
}

/* A document by the rows is the one without, and so is a refusal. */
static void is_given(const uint8_t *file, size_t len, const zevk_block *rows, const zevk_head *head, uint32_t id) {
    zevk_place place = {1, 2}, other = {1, 2};
    uint32_t error = zevk_get(file, len, id, &other);
    WANT(zevk_get_by(file, len, rows, head->rows, head, id, &place) == error);
    WANT(place.start == other.start && place.len == other.len);
    WANT(error != ZEVK_DONE || is_document(file, len, place, id));
}

/* An outline of this many rows at most has those of the lowest layer that has no more, and leaves the rows after them.
 * Then every document is got by it, also where no guide is right.
 */
static void outlined(const uint8_t *file, size_t len, size_t room) {
    zevk_block untouched;
    zevk_block *rows = (zevk_block *)malloc(room > 0 ? room * sizeof *rows : 1);
    zevk_head head;
    size_t lowest = 0;
    WANT(rows != NULL);
    memset(rows, 7, room * sizeof *rows);
    memset(&untouched, 7, sizeof untouched);
    while (lowest < layers && entries[lowest] > room) {
        lowest++;
    }
    WANT(zevk_outline(file, len, rows, room, &head) == ZEVK_DONE);
    WANT(head.height == lowest && head.rows == (lowest < layers ? entries[lowest] : 0));
    for (size_t at = head.rows; at < room; at++) {
        WANT(memcmp(&rows[at], &untouched, sizeof untouched) == 0);
    }
    for (uint32_t id = 0; id <= many; id += many / FEW) {
        is_given(file, len, rows, &head, id);
    }
    is_given(file, len, rows, &head, UINT32_MAX);
    for (size_t at = 0; at < head.rows; at++) {
        rows[at].guide = (uint32_t)rand();
    }
    for (uint32_t id = 0; id <= many; id += 7 * (many / FEW)) {
        is_given(file, len, rows, &head, id);
    }
    free(rows);
}

/* By any rows and any head a place lies within the bytes, and a refusal keeps it. */
static void is_bounded(const uint8_t *file, size_t len, const zevk_block *rows, size_t count, const zevk_head *head) {
    uint32_t id = (uint32_t)rand() % (many + 10);
    zevk_place place = {77, 78};
    uint32_t error = zevk_get_by(file, len, rows, count, head, id, &place);
    if (error == ZEVK_DONE) {
        WANT(place.start <= len && place.len <= len - place.start);
    } else {
        WANT(place.start == 77 && place.len == 78);
        WANT(error == ZEVK_BAD_INDEX || error == ZEVK_NO_DOCUMENT || error == ZEVK_DAMAGED_DOCUMENT);
    }
}

/* A few bytes are others, and some are all ones. */
static void spoil(void *memory, size_t len) {
    uint8_t *bytes = (uint8_t *)memory;
    for (int changes = rand() % 5; changes > 0; changes--) {
        bytes[(size_t)rand() % len] = rand() % 4 == 0 ? 0xff : (uint8_t)rand();
    }
    if (rand() % 20 == 0) {
        memset(bytes + (size_t)rand() % len / sizeof(size_t) * sizeof(size_t), 0xff, sizeof(size_t));
    }
}

static void by_other_rows(const uint8_t *file, size_t len) {
    zevk_block rows[30];
    zevk_head head;
    srand(3);
    for (int round = 0; round < 20000; round++) {
        WANT(zevk_outline(file, len, rows, 30, &head) == ZEVK_DONE && 0 < head.rows && head.rows <= 30);
        size_t count = head.rows;
        if (round % 3 != 0) {
            spoil(rows, sizeof rows);
        }
        if (round % 3 != 1) {
            spoil(&head, sizeof head);
        }
        is_bounded(file, len, rows, round % 2 == 0 ? count : (size_t)rand() % 30, &head);
    }
}

/* Of bytes that are no store's, the error of the footer comes, and nothing is written. */
static void of_no_store(const uint8_t *file, size_t len) {
    zevk_block row = {1, 2, 3};
    zevk_place place = {1, 2};
    zevk_head head, untouched;
    memset(&head, 7, sizeof head);
    memset(&untouched, 7, sizeof untouched);
    WANT(zevk_outline(file, 27, &row, 1, &head) == ZEVK_SHORT_FILE && memcmp(&head, &untouched, sizeof head) == 0);
    WANT(zevk_outline(file, len - 1, &row, 1, &head) != ZEVK_DONE && memcmp(&head, &untouched, sizeof head) == 0);
    WANT(row.end_doc == 1 && row.guide == 2 && row.end_byte == 3);
    WANT(zevk_get_by(file, 27, &row, 1, &head, 0, &place) == ZEVK_BAD_INDEX && place.start == 1 && place.len == 2);
}

/* Outlines with room for each layer, for one row less and for one more, and the table of all blocks. */
static void in_each_room(const uint8_t *file, size_t len) {
    for (size_t room = 0; room < 4; room++) {
        outlined(file, len, room);
    }
    for (size_t layer = 0; layer < layers; layer++) {
        outlined(file, len, entries[layer] - 1);
        outlined(file, len, entries[layer]);
        outlined(file, len, entries[layer] + 1);
    }
    opened store = opened_file(file, len);
    WANT(store.error == ZEVK_DONE && store.count == many && store.num_docs == many);
    are_the_same(&store);
    free(store.table);
}

int main(int argc, char **argv) {
    size_t len = 0;
    WANT(argc == 2 || argc == 3);
    uint8_t *file = loaded(2, argv, &len);
    of_no_store(file, len);
    free(file);
    lay_out(argc == 3 ? (uint32_t)strtoul(argv[2], NULL, 10) : (uint32_t)FEW);
    written made = many_blocks();
    in_each_room(made.file, made.len);
    by_other_rows(made.file, made.len);
    free(made.file);
    return 0;
}
