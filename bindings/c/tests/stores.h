/* The store of the tests: its file as hexadecimal text, and documents that follow from their numbers. */
#ifndef STORES_H
#define STORES_H

#include <stdio.h>
#include <stdlib.h>
#include <string.h>

#include "zevkhadun.h"

/* Ends the program where a condition does not hold. */
#define WANT(x)                                                      \
    do {                                                             \
        if (!(x)) {                                                  \
            fprintf(stderr, "%s:%d: %s\n", __FILE__, __LINE__, #x); \
            exit(1);                                                 \
        }                                                            \
    } while (0)

/* How many documents and blocks the store has. */
enum { DOCUMENTS = 64, BLOCKS = 13 };

/* The document of each number: five in turn, of which the first is empty. */
static inline size_t document(uint32_t id, char *text) {
    int len = snprintf(text, 64, "%u is a document's number", (unsigned)id);
    return id % 5 == 0 ? 0 : (size_t)len - id % 3;
}

/* As many bytes as are asked for, and no more, so that a read past them is seen. */
static inline void *tight(const void *bytes, size_t len) {
    void *copy = malloc(len > 0 ? len : 1);
    WANT(copy != NULL);
    if (len > 0) {
        memcpy(copy, bytes, len);
    }
    return copy;
}

/* The file's bytes, from its hexadecimal text, which the program's one argument names. */
static inline uint8_t *loaded(int argc, char **argv, size_t *len) {
    uint8_t bytes[4096];
    unsigned byte = 0;
    WANT(argc == 2);
    FILE *text = fopen(argv[1], "r");
    WANT(text != NULL);
    for (*len = 0; fscanf(text, "%2x", &byte) == 1; ++*len) {
        WANT(*len < sizeof bytes);
        bytes[*len] = (uint8_t)byte;
    }
    fclose(text);
    return (uint8_t *)tight(bytes, *len);
}

/* The table of a store's file: asked for its size first, and as large as that. */
static inline zevk_block *table_of(const uint8_t *file, size_t file_len, size_t *count) {
    uint32_t num_docs = 0;
    WANT(zevk_open(file, file_len, NULL, 0, count, &num_docs) == ZEVK_NO_ROOM);
    zevk_block *table = (zevk_block *)malloc(*count * sizeof *table);
    WANT(table != NULL);
    WANT(zevk_open(file, file_len, table, *count, count, &num_docs) == ZEVK_DONE);
    return table;
}

/* Whether the place of a document has its bytes. */
static inline int is_document(const uint8_t *file, size_t file_len, zevk_place place, uint32_t id) {
    char text[64];
    size_t len = document(id, text);
    return place.len == len && place.start <= file_len && len <= file_len - place.start
        && memcmp(file + place.start, text, len) == 0;
}

#endif
