/* Prints a document of the store in standard input, by the example at the head of zevkhadun.h.
 *
 * usage: first NUMBER <FILE
 */
#include <stdio.h>
#include <stdlib.h>

#include "zevkhadun.h"

uint32_t print_document(const uint8_t *file, size_t len, uint32_t id);

uint32_t print_document(const uint8_t *file, size_t len, uint32_t id) {
    zevk_place place;
    uint32_t error = zevk_get(file, len, id, &place);
    if (error == ZEVK_DONE) fwrite(file + place.start, 1, place.len, stdout);
    return error;
}

int main(int argc, char **argv) {
    static uint8_t file[1 << 20];
    size_t len = fread(file, 1, sizeof file, stdin);
    if (argc != 2 || len == sizeof file || ferror(stdin)) {
        return 2;
    }
    uint32_t error = print_document(file, len, (uint32_t)strtoul(argv[1], NULL, 10));
    return fflush(stdout) == 0 && !ferror(stdout) ? (int)error : 1;
}
