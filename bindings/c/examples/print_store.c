/* Prints the documents of a store, a line for each, by the example at the head of zevkhadun_file.h.
 *
 * usage: print_store FILE
 */
#include <stdio.h>

#include "zevkhadun_file.h"

int print_store(const char *path);

int print_store(const char *path) {
    zevk_file *file;
    zevk_document document;
    int error = zevk_file_open(path, 0, &file);
    if (error != 0) return error;
    for (uint32_t id = 0; error == 0 && id < zevk_file_num_docs(file); id++) {
        error = zevk_file_get(file, id, &document);
        if (error == 0) {
            fwrite(document.bytes, 1, document.len, stdout);
            putchar('\n');
        }
    }
    zevk_file_close(file);
    return error;
}

int main(int argc, char **argv) {
    int error = argc == 2 ? print_store(argv[1]) : ZEVK_NO_DOCUMENT;
    if (error != 0) {
        fprintf(stderr, "%s: %s\n", argc == 2 ? argv[1] : "usage: print_store FILE", zevk_strerror(error));
    }
    return error != 0 || fflush(stdout) != 0 || ferror(stdout);
}
