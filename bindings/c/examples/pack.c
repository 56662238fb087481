/* Packs the lines of standard input into a store, as documents without their line ends.
 *
 * usage: pack [--replace] FILE
 *
 * The store is written to FILE.part, which gets the name FILE after the system has kept all its bytes. If anything
 * fails before that, FILE stays as it was and FILE.part is removed. A file FILE is replaced only by --replace. Only one
 * pack at a time writes to a name: if there is a FILE.part already, it stays as it is.
 */
#define _GNU_SOURCE
#include <errno.h>
#include <fcntl.h>
#include <libgen.h>
#include <stdio.h>
#include <stdlib.h>
#include <string.h>
#include <sys/stat.h>
#include <unistd.h>

#include "zevkhadun.h"

/* The block size and the period are tantivy's. A document counts for at least 8 bytes of its block, so `starts` never
 * has to grow. */
enum { BLOCK_SIZE = 16384, PERIOD = 8, STARTS = BLOCK_SIZE / 8 + 2 };

/* A store that is written to a file, and the arrays of its writer. */
typedef struct packing {
    FILE *file;
    zevk_writer writer;
    uint32_t starts[STARTS];
    zevk_block *table;
    size_t table_len;
} packing;

/* Returns whether a call of the library was done, and prints why it wasn't. */
static int done(uint32_t refusal) {
    uint8_t text[ZEVK_TEXT_LEN];
    if (refusal != ZEVK_DONE) {
        zevk_refusal_text(refusal, text, sizeof text);
        fprintf(stderr, "%s\n", (const char *)text);
    }
    return refusal == ZEVK_DONE;
}

/* Prints why a call of the system failed, and returns 0. */
static int failed(const char *what) {
    perror(what);
    return 0;
}

/* Writes bytes after those that were written. */
static int append(packing *p, const void *bytes, size_t len) {
    return fwrite(bytes, 1, len, p->file) == len || failed("cannot write");
}

/* Makes room in the table for more blocks. */
static int grow(packing *p) {
    size_t table_len = 2 * p->table_len + 64;
    zevk_block *table = (zevk_block *)realloc(p->table, table_len * sizeof *table);
    if (table == NULL) {
        return done(ZEVK_NO_MEMORY);
    }
    p->table = table;
    p->table_len = table_len;
    return 1;
}

/* Puts a document: writes its bytes, and after them the table of its block if that is full. */
static int put(packing *p, const char *document, size_t len) {
    size_t count = 0;
    if (p->writer.blocks == p->table_len && !grow(p)) {
        return 0;
    }
    return done(zevk_writer_put(&p->writer, p->starts, STARTS, p->table, p->table_len, len, &count))
        && append(p, document, len)
        && append(p, p->starts, count * sizeof *p->starts);
}

/* Writes the table of the last block. */
static int end_block(packing *p) {
    size_t count = 0;
    return done(zevk_writer_end_block(&p->writer, p->starts, STARTS, p->table, p->table_len, &count))
        && append(p, p->starts, count * sizeof *p->starts);
}

/* Writes the index and the footer: asks how long they are, and then for their bytes. */
static int end_file(packing *p) {
    size_t len = 0;
    uint32_t refusal = zevk_writer_close(&p->writer, p->table, p->table_len, PERIOD, NULL, 0, &len);
    if (refusal != ZEVK_NO_ROOM) {
        return done(refusal);
    }
    uint8_t *end = (uint8_t *)malloc(len);
    if (end == NULL) {
        return done(ZEVK_NO_MEMORY);
    }
    int ended = done(zevk_writer_close(&p->writer, p->table, p->table_len, PERIOD, end, len, &len))
        && append(p, end, len);
    free(end);
    return ended;
}

/* Puts each line of standard input. */
static int put_lines(packing *p) {
    char *line = NULL;
    size_t room = 0;
    int going = 1;
    for (ssize_t len; going && (len = getline(&line, &room, stdin)) > 0;) {
        going = put(p, line, (size_t)len - (line[len - 1] == '\n'));
    }
    free(line);
    return going && (feof(stdin) || failed("cannot read standard input"));
}

/* Writes the store, asks the system to keep it, and closes the file. */
static int write_store(FILE *file) {
    packing p = {.file = file};
    zevk_writer_begin(&p.writer, BLOCK_SIZE);
    int written = put_lines(&p) && end_block(&p) && end_file(&p)
        && ((fflush(file) == 0 && fsync(fileno(file)) == 0) || failed("cannot write"));
    free(p.table);
    return (fclose(file) == 0 || failed("cannot write")) && written;
}

/* Asks the system to keep the names in a folder. */
static int keep_names(const char *path) {
    int folder = open(path, O_RDONLY | O_DIRECTORY | O_CLOEXEC);
    if (folder < 0) {
        return failed(path);
    }
    int kept = fsync(folder) == 0 || failed(path);
    return (close(folder) == 0 || failed(path)) && kept;
}

/* Whether a file has this name, which is printed. */
static int is_taken(const char *path) {
    struct stat found;
    if (lstat(path, &found) != 0) {
        return 0;
    }
    errno = EEXIST;
    return !failed(path);
}

/* Gives the file `part` the name `path`, which without `replaces` no file may have. */
static int name_it(const char *part, const char *path, int replaces) {
    unsigned flags = replaces ? 0 : RENAME_NOREPLACE;
    return renameat2(AT_FDCWD, part, AT_FDCWD, path, flags) == 0 || failed(path);
}

/* Writes the store to the file `part`, gives it the name `path`, and cuts `part` to the name of the folder. */
static int pack(char *part, const char *path, int replaces) {
    if (!replaces && is_taken(path)) {
        return 0;
    }
    FILE *file = fopen(part, "wbx");
    if (file == NULL) {
        return failed(part);
    }
    if (!write_store(file) || !name_it(part, path, replaces)) {
        return remove(part) == 0 ? 0 : failed(part);
    }
    return keep_names(dirname(part));
}

int main(int argc, char **argv) {
    int replaces = argc == 3 && strcmp(argv[1], "--replace") == 0;
    if (argc != 2 + replaces) {
        fprintf(stderr, "usage: %s [--replace] FILE\n", argv[0]);
        return 2;
    }
    const char *path = argv[argc - 1];
    size_t len = strlen(path);
    char *part = (char *)malloc(len + sizeof ".part");
    if (part == NULL) {
        return !done(ZEVK_NO_MEMORY);
    }
    memcpy(part, path, len);
    memcpy(part + len, ".part", sizeof ".part");
    int packed = pack(part, path, replaces);
    free(part);
    return !packed;
}
