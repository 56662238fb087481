/* Prints documents of the store in standard input, by an outline of its index in a kilobyte.
 *
 * usage: outline NUMBER.. <FILE
 */
#include <stdio.h>
#include <stdlib.h>

#include "zevkhadun.h"

/* An outline: rows of one layer of the index, and numbers of the file. */
typedef struct outline {
    zevk_block rows[64];
    zevk_head head;
} outline;

static uint32_t print_document(const uint8_t *file, size_t len, const outline *by, uint32_t id) {
    zevk_place place;
    uint32_t error = zevk_get_by(file, len, by->rows, by->head.rows, &by->head, id, &place);
    if (error == ZEVK_DONE) fwrite(file + place.start, 1, place.len, stdout);
    return error;
}

int main(int argc, char **argv) {
    static uint8_t file[1 << 20];
    outline made;
    size_t len = fread(file, 1, sizeof file, stdin);
    if (len == sizeof file || ferror(stdin)) {
        return 2;
    }
    uint32_t error = zevk_outline(file, len, made.rows, 64, &made.head);
    for (int at = 1; at < argc && error == ZEVK_DONE; at++) {
        error = print_document(file, len, &made, (uint32_t)strtoul(argv[at], NULL, 10));
    }
    return fflush(stdout) == 0 && !ferror(stdout) ? (int)error : 1;
}
