/* Prints the documents of a store, each with its number before it and a line end after it.
 *
 * usage: example FILE
 *
 * It stops at the first document that is damaged or can't be printed.
 */
#include <inttypes.h>
#include <stdio.h>
#include <stdlib.h>

#include "zevkhadun.h"

/* An open store: the bytes of its file, and the table of its blocks. */
typedef struct store {
    uint8_t *file;
    size_t file_len;
    zevk_block *table;
    size_t count;
    uint32_t num_docs;
} store;

/* Returns whether a call of the library was done, and prints why it wasn't. */
static int done(uint32_t refusal) {
    uint8_t text[ZEVK_TEXT_LEN];
    if (refusal != ZEVK_DONE) {
        zevk_refusal_text(refusal, text, sizeof text);
        fprintf(stderr, "%s\n", (const char *)text);
    }
    return refusal == ZEVK_DONE;
}

/* Reads a whole file into memory. */
static int read_all(store *s, FILE *file) {
    long size = fseek(file, 0, SEEK_END) == 0 ? ftell(file) : -1;
    if (size < 0 || fseek(file, 0, SEEK_SET) != 0) {
        return 0;
    }
    s->file_len = (size_t)size;
    s->file = (uint8_t *)malloc(s->file_len + 1);
    return s->file != NULL && fread(s->file, 1, s->file_len, file) == s->file_len;
}

/* Reads the file of a name into memory. */
static int load(store *s, const char *path) {
    FILE *file = fopen(path, "rb");
    int loaded = file != NULL && read_all(s, file);
    if (!loaded) {
        perror(path);
    }
    if (file != NULL) {
        fclose(file);
    }
    return loaded;
}

/* Opens the store: asks how many rows its table has, and fills it. A store of no documents has no rows. */
static int open_store(store *s) {
    uint32_t refusal = zevk_open(s->file, s->file_len, NULL, 0, &s->count, &s->num_docs);
    if (refusal != ZEVK_NO_ROOM) {
        return done(refusal);
    }
    s->table = (zevk_block *)malloc(s->count * sizeof *s->table);
    if (s->table == NULL) {
        return done(ZEVK_NO_MEMORY);
    }
    return done(zevk_open(s->file, s->file_len, s->table, s->count, &s->count, &s->num_docs));
}

/* Prints a document, whose bytes are in the file. */
static int print_document(const store *s, uint32_t id) {
    zevk_place place;
    return done(zevk_locate(s->file, s->file_len, s->table, s->count, id, &place))
        && printf("%" PRIu32 ": ", id) > 0
        && fwrite(s->file + place.start, 1, place.len, stdout) == place.len
        && putchar('\n') != EOF;
}

/* Prints all documents. */
static int print_documents(const store *s) {
    uint32_t id = 0;
    while (id < s->num_docs && print_document(s, id)) {
        id++;
    }
    if (fflush(stdout) != 0 || ferror(stdout)) {
        perror("cannot write");
        return 0;
    }
    return id == s->num_docs;
}

int main(int argc, char **argv) {
    store s = {0};
    if (argc != 2) {
        fprintf(stderr, "usage: %s FILE\n", argv[0]);
        return 2;
    }
    int printed = load(&s, argv[1]) && open_store(&s) && print_documents(&s);
    free(s.table);
    free(s.file);
    return !printed;
}
