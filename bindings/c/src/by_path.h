/* What the sources of zevkhadun_file.h share. None of it is for programs. */
#ifndef ZEVK_BY_PATH_H
#define ZEVK_BY_PATH_H

#include <stdatomic.h>

#include "zevkhadun_file.h"

struct zevk_file {
    const uint8_t *bytes;  /* NULL if the file is empty */
    size_t len;
    zevk_block *rows;      /* of a table of all blocks, or of the outline once it is made; then never NULL */
    zevk_head head;        /* the numbers of these rows */
    size_t blocks;         /* with ZEVK_FILE_CHECKED, else 0 */
    uint32_t num_docs;
    size_t page;           /* the bytes of a page of memory with ZEVK_FILE_SCATTERED, else 0 */
    int is_by_table;       /* a get looks at the table, and does nothing before */
    atomic_uint gets;      /* how many gets there were before the outline was made, or ZEVK_HAS_ROWS */
};

/* zevk_locate and zevk_get_by without the look for arrays of length 0 (null_arrays.c): an open file has bytes, and rows
 * have one more than their number. */
uint32_t zevk_proved_locate(const uint8_t *file, size_t file_len, const zevk_block *table, size_t table_len,
                            uint32_t doc_id, zevk_place *place);
uint32_t zevk_proved_get_by(const uint8_t *file, size_t file_len, const zevk_block *rows, size_t rows_len,
                            const zevk_head *head, uint32_t doc_id, zevk_place *place);

/* Returns an error, and sets errno again to one of the system: calls that clean up may have changed it. */
int zevk_returned(int error);

/* Returns a descriptor of the same open file that is none of those of the standard input and outputs, or -1; the given
 * one is closed. A program that was started without these may give one of them to the file, and then write messages
 * into it. -1 is allowed. */
int zevk_above_standard(int descriptor);

/* Opens the file of a name in a folder for reading, and returns its descriptor or -1. A pipe is opened without waiting
 * for its other end. */
int zevk_descriptor(int folder, const char *path);

/* Opens the store in an open file, whose descriptor the store doesn't keep. */
int zevk_open_descriptor(int descriptor, unsigned flags, zevk_file **file);

/* The second file, to which a store is written until it gets its name. */
typedef struct zevk_part {
    int folder;    /* the open folder, in which the names are, or -1 */
    int file;      /* the second file, open and locked, or -1 */
    char *name;    /* the name that it will get */
    char *part;    /* the name that it has */
    int replaces;  /* whether it may take the name from another file */
    int is_owned;  /* whether the file of that name is the one to remove */
} zevk_part;

/* Begins the second file of a path: locked, empty, and with the access of the file that it will replace. If it replaces
 * none, a file of that name is an error. After an error zevk_part_release frees what there is. */
int zevk_part_begin(zevk_part *part, const char *path, int replaces);

/* Writes bytes after those that were written. */
int zevk_part_write(const zevk_part *part, const uint8_t *bytes, size_t len);

/* Makes the first bytes of an open file, which is mapped too, those of the second file. They are shared if the file
 * system can share them, or else copied by the system, or else written from the map. */
int zevk_part_share(const zevk_part *part, int descriptor, const uint8_t *bytes, size_t len);

/* Asks the system to keep the second file, renames it, and asks the system to keep the name. If it replaces no file,
 * one that has the name by now is an error. */
int zevk_part_publish(zevk_part *part);

/* Removes the second file, unless it has got its name or is another writer's, and frees what belongs to it. */
void zevk_part_release(zevk_part *part);

#endif
