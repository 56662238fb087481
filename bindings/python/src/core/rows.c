/* The rows of an open store, by which its documents are found. */
#include "core.h"

#include <stdlib.h>
#include <string.h>

/* How many rows an outline has at most. They take 16 KiB. */
#define OUTLINE 1024

/* Makes room for this many rows, and gives back what is more. Returns whether there was the memory. */
static int reserve(reader *self, size_t room) {
    /* Memory of no bytes may have no address. */
    zevk_block *rows = realloc(self->rows, (room ? room : 1) * sizeof *rows);
    if (rows) {
        self->rows = rows;
    }
    return rows != NULL;
}

/* Gives back the room after the rows. Returns the number of an error, or 0. */
static uint32_t shrink(reader *self) {
    return reserve(self, self->rows_len) ? 0 : ZEVK_NO_MEMORY;
}

/* How many rows the table of a file has at most, by its footer: a block takes at least two bytes of the index. */
static size_t most_blocks(const reader *self) {
    if (self->len < FOOTER_LEN) {
        return 0;
    }
    size_t end = self->len - FOOTER_LEN;
    uint64_t start;
    memcpy(&start, self->file + end + 4, sizeof start);
    return start < end ? (end - (size_t)start) / 2 : 0;
}

/* Fills as many rows as the room is for, and counts the blocks. Returns the number of an error, or 0. */
static uint32_t fill(reader *self, size_t room) {
    if (!reserve(self, room)) {
        return ZEVK_NO_MEMORY;
    }
    return zevk_open(self->file, self->len, self->rows, room, &self->rows_len, &self->count);
}

uint32_t fill_table(reader *self) {
    /* With this room the index is decoded once. Without the memory for it a call without rows counts the blocks. */
    uint32_t answer = fill(self, most_blocks(self));
    if (answer == ZEVK_NO_MEMORY || answer == ZEVK_NO_ROOM) {
        answer = fill(self, 0);
        answer = answer == ZEVK_NO_ROOM ? fill(self, self->rows_len) : answer;
    }
    return answer ? answer : shrink(self);
}

uint32_t fill_outline(reader *self) {
    if (!reserve(self, OUTLINE)) {
        return ZEVK_NO_MEMORY;
    }
    uint32_t answer = zevk_outline(self->file, self->len, self->rows, OUTLINE, &self->head);
    if (answer == 0) {
        self->rows_len = self->head.rows;
        answer = zevk_num_docs(self->file, self->len, &self->count);
    }
    return answer ? answer : shrink(self);
}

/* The error of a document that the store counts: an index that lacks it is a bad one. */
static uint32_t of_counted(uint32_t answer) {
    return answer == ZEVK_NO_DOCUMENT || answer == ZEVK_OTHER_TABLE ? ZEVK_BAD_INDEX : answer;
}

uint32_t find_place(const reader *self, uint32_t number, zevk_place *place) {
    if (self->head.height) {
        return of_counted(
            zevk_get_by(self->file, self->len, self->rows, self->rows_len, &self->head, number, place));
    }
    return of_counted(zevk_locate(self->file, self->len, self->rows, self->rows_len, number, place));
}

uint32_t find_places(const reader *self, uint32_t first, zevk_place *places, size_t places_len, size_t *count) {
    if (self->head.height) {
        return of_counted(zevk_get_run(self->file, self->len, first, places, places_len, count));
    }
    return of_counted(
        zevk_locate_run(self->file, self->len, self->rows, self->rows_len, first, places, places_len, count));
}
