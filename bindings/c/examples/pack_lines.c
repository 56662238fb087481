/* Packs the lines of standard input into a store, as documents without their line ends.
 *
 * usage: pack_lines [--append | --replace] FILE
 *
 * With --append the lines come after the documents of the store FILE. A file FILE is replaced only by --append and
 * --replace, and stays as it was until the new store is whole.
 */
#define _POSIX_C_SOURCE 200809L
#include <errno.h>
#include <stdio.h>
#include <stdlib.h>
#include <string.h>

#include "zevkhadun_file.h"

/* Puts each line of standard input. */
static int put_lines(zevk_file_writer *writer) {
    char *line = NULL;
    size_t room = 0;
    int error = 0;
    for (ssize_t len; error == 0 && (len = getline(&line, &room, stdin)) > 0;) {
        error = zevk_file_put(writer, line, (size_t)len - (line[len - 1] == '\n'), NULL);
    }
    free(line);
    return error == 0 && !feof(stdin) ? -errno : error;
}

/* Writes the store, or leaves the file of the name as it was. */
static int pack_lines(const char *path, int is_more, unsigned flags) {
    zevk_file_writer *writer;
    int error = is_more ? zevk_file_append(path, 16384, 0, &writer) : zevk_file_create(path, flags, 16384, 8, &writer);
    if (error != 0) return error;
    error = put_lines(writer);
    if (error == 0) return zevk_file_publish(writer);
    zevk_file_discard(writer);
    return error;
}

int main(int argc, char **argv) {
    int is_more = argc == 3 && strcmp(argv[1], "--append") == 0;
    int replaces = argc == 3 && strcmp(argv[1], "--replace") == 0;
    if (argc != 2 + is_more + replaces) {
        fprintf(stderr, "usage: %s [--append | --replace] FILE\n", argv[0]);
        return 2;
    }
    int error = pack_lines(argv[argc - 1], is_more, replaces ? ZEVK_FILE_REPLACE : 0);
    if (error != 0) {
        fprintf(stderr, "%s: %s\n", argv[argc - 1], zevk_strerror(error));
    }
    return error != 0;
}
