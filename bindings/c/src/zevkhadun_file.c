/* Stores by path, the reading half: files are mapped, and the proved calls of zevkhadun.h read the bytes. */
#define _POSIX_C_SOURCE 200809L
#include <errno.h>
#include <fcntl.h>
#include <limits.h>
#include <stdlib.h>
#include <string.h>
#include <sys/mman.h>
#include <sys/stat.h>
#include <unistd.h>

#include "by_path.h"

/* ---- version and errors */

const char *zevk_version(void) {
    return ZEVK_VERSION;
}

const char *zevk_strerror(int error) {
    if (error < 0) {
        return strerror(-error);
    }
    switch (error) {
    case ZEVK_DONE: return "done";
    case ZEVK_SHORT_FILE: return "the file is shorter than a footer";
    case ZEVK_BAD_VERSION: return "the footer has an unknown version";
    case ZEVK_BAD_BLOCK_KIND: return "the blocks are compressed";
    case ZEVK_BAD_OFFSET: return "the index would begin after the footer's first byte";
    case ZEVK_BAD_INDEX: return "the index is not one of blocks that cover the data";
    case ZEVK_NO_DOCUMENT: return "the store has no document of this number";
    case ZEVK_DAMAGED_DOCUMENT: return "the block's table doesn't say where the document is";
    case ZEVK_NO_MEMORY: return "out of memory";
    case ZEVK_OLD_VERSION: return "a store of version 1 can't be stacked";
    case ZEVK_BLOCK_TOO_LARGE: return "a block would have 2^32 bytes or more";
    case ZEVK_TOO_MANY_DOCS: return "there would be 2^32 documents or more";
    case ZEVK_BAD_PERIOD: return "the period is below 2 or above 64";
    case ZEVK_NO_ROOM: return "an array of the caller is too short";
    case ZEVK_OTHER_TABLE: return "the table is not the one of the file";
    case ZEVK_OPEN_BLOCK: return "the open block has documents; end it first";
    case ZEVK_OTHER_WRITER: return "the writer or its table is not as these calls left it";
    case ZEVK_TAIL_TOO_SHORT: return "the end of the file lacks the footer or a part of the index";
    case ZEVK_OTHER_BLOCK: return "the block doesn't have the document, or has another length";
    case ZEVK_BUSY: return "another writer writes this file";
    case ZEVK_NOT_PLAIN_FILE: return "the name is not that of a plain file";
    case ZEVK_FAILED: return "an earlier call of this writer failed";
    default: return "unknown error";
    }
}

int zevk_returned(int error) {
    if (error < 0) {
        errno = -error;
    }
    return error;
}

/* ---- reading */

/* An outline has 16 KiB at most. To make it takes the time of some 30 gets without it, so it is made at the 32nd. */
enum { FOOTER_LEN = 28, OUTLINE_ROWS = 1024, OUTLINE_AT = 32 };

/* What a file counts once its rows are there. */
#define ZEVK_HAS_ROWS UINT_MAX

/* Maps a plain file. An empty one is not mapped. */
static int map_file(zevk_file *file, int descriptor) {
    struct stat found;
    if (fstat(descriptor, &found) != 0) {
        return -errno;
    }
    if (!S_ISREG(found.st_mode)) {
        return ZEVK_NOT_PLAIN_FILE;
    }
    if (found.st_size == 0) {
        return 0;
    }
    void *bytes = mmap(NULL, (size_t)found.st_size, PROT_READ, MAP_SHARED, descriptor, 0);
    if (bytes == MAP_FAILED) {
        return -errno;
    }
    file->bytes = bytes;
    file->len = (size_t)found.st_size;
    return 0;
}

/* A number of the footer, whose bytes are in the order of memory. */
static uint64_t number_at(const uint8_t *bytes, size_t len) {
    uint64_t number = 0;
    memcpy(&number, bytes, len);
    return number;
}

/* Where the index of the file begins, by its footer. */
static size_t index_start(const zevk_file *file) {
    return file->len < FOOTER_LEN ? 0 : (size_t)number_at(file->bytes + file->len - 24, 8);
}

/* Gives the rows as much memory as they need, and that of one more: so they are never NULL. */
static int fit_rows(zevk_file *file) {
    zevk_block *rows = realloc(file->rows, (file->head.rows + 1) * sizeof *rows);
    if (rows == NULL) {
        return ZEVK_NO_MEMORY;
    }
    file->rows = rows;
    return 0;
}

/* Opens the store with a check of its whole index, and a table of this many rows. It has a row more, so it is NULL only
 * where there is no memory; then it has no rows. */
static uint32_t open_table(zevk_file *file, size_t rows) {
    free(file->rows);
    file->rows = malloc((rows + 1) * sizeof *file->rows);
    size_t room = file->rows == NULL ? 0 : rows;
    return zevk_open(file->bytes, file->len, file->rows, room, &file->blocks, &file->num_docs);
}

/* Opens the store and makes its table. A block takes at least two bytes of the index, so a table of half the length of
 * the index has room, and the index is decoded once. Without the memory for that the blocks are counted first. */
static int fill_table(zevk_file *file) {
    size_t end = file->len < FOOTER_LEN ? 0 : file->len - FOOTER_LEN;
    size_t start = index_start(file);
    uint32_t error = open_table(file, start < end ? (end - start) / 2 : 0);
    if (error == ZEVK_NO_ROOM) {
        error = open_table(file, file->blocks);
    }
    if (error != ZEVK_DONE) {
        return error == ZEVK_NO_ROOM ? ZEVK_NO_MEMORY : (int)error;
    }
    file->head.rows = file->blocks;
    file->is_by_table = 1;
    atomic_init(&file->gets, ZEVK_HAS_ROWS);
    return fit_rows(file);
}

/* Makes the outline of an open file. Without the memory for it, or where the index is damaged, gets go on without. */
static void make_outline(zevk_file *file) {
    file->rows = malloc(OUTLINE_ROWS * sizeof *file->rows);
    if (file->rows != NULL
        && zevk_outline(file->bytes, file->len, file->rows, OUTLINE_ROWS, &file->head) == ZEVK_DONE
        && fit_rows(file) == 0) {
        atomic_store_explicit(&file->gets, ZEVK_HAS_ROWS, memory_order_release);
    }
}

/* Whether the file has rows. One of the gets makes the outline, while those of other threads go on without. */
static int has_rows(const zevk_file *file) {
    zevk_file *own = (zevk_file *)file;
    unsigned gets = atomic_load_explicit(&own->gets, memory_order_acquire);
    if (gets < OUTLINE_AT && atomic_compare_exchange_strong(&own->gets, &gets, gets + 1) && gets + 1 == OUTLINE_AT) {
        make_outline(own);
        gets = atomic_load_explicit(&own->gets, memory_order_acquire);
    }
    return gets == ZEVK_HAS_ROWS;
}

/* Tells the system that reads of the file will be far apart. The check before it has read the index in order. */
static int scatter(zevk_file *file) {
    long page = sysconf(_SC_PAGESIZE);
    if (page <= 0) {
        return -errno;
    }
    file->page = (size_t)page;
    return -posix_madvise((void *)file->bytes, file->len, POSIX_MADV_RANDOM);
}

int zevk_open_descriptor(int descriptor, unsigned flags, zevk_file **opened) {
    zevk_file *file = calloc(1, sizeof *file);
    if (file == NULL) {
        return ZEVK_NO_MEMORY;
    }
    int error = map_file(file, descriptor);
    if (error == 0) {
        error = (flags & ZEVK_FILE_CHECKED) != 0 ? fill_table(file)
                                                 : (int)zevk_num_docs(file->bytes, file->len, &file->num_docs);
    }
    if (error == 0 && (flags & ZEVK_FILE_SCATTERED) != 0) {
        error = scatter(file);
    }
    if (error != 0) {
        zevk_file_close(file);
        return error;
    }
    file->is_by_table = file->is_by_table && file->page == 0;
    *opened = file;
    return 0;
}

int zevk_above_standard(int descriptor) {
    if (descriptor < 0 || descriptor > STDERR_FILENO) {
        return descriptor;
    }
    int moved = fcntl(descriptor, F_DUPFD_CLOEXEC, STDERR_FILENO + 1);
    int error = errno;
    close(descriptor);
    errno = error;
    return moved;
}

int zevk_descriptor(int folder, const char *path) {
    return zevk_above_standard(openat(folder, path, O_RDONLY | O_CLOEXEC | O_NONBLOCK | O_NOCTTY));
}

int zevk_file_open(const char *path, unsigned flags, zevk_file **file) {
    if ((flags & ~(ZEVK_FILE_CHECKED | ZEVK_FILE_SCATTERED)) != 0) {
        return zevk_returned(-EINVAL);
    }
    int descriptor = zevk_descriptor(AT_FDCWD, path);
    if (descriptor < 0) {
        return -errno;
    }
    int error = zevk_open_descriptor(descriptor, flags, file);
    close(descriptor);
    return zevk_returned(error);
}

void zevk_file_close(zevk_file *file) {
    if (file == NULL) {
        return;
    }
    if (file->bytes != NULL) {
        munmap((void *)file->bytes, file->len);
    }
    free(file->rows);
    free(file);
}

uint32_t zevk_file_num_docs(const zevk_file *file) {
    return file->num_docs;
}

/* Asks the system for the page of a byte of the file, and doesn't wait for it. An advice that is refused costs time. */
static void ask_for(const zevk_file *file, size_t at) {
    size_t start = at & ~(file->page - 1);
    (void)posix_madvise((void *)(file->bytes + start), file->page, POSIX_MADV_WILLNEED);
}

/* Asks for the pages of a get at once: that of the document's entry in the table of its block, and the one in which
 * the document begins if those of the block have one length. */
static void ask_for_both(const zevk_file *file, uint32_t doc_id) {
    zevk_block_place block;
    size_t wanted;
    if (zevk_block_of(file->bytes, file->len, file->len, doc_id, &block, &wanted) != ZEVK_DONE) {
        return;
    }
    size_t documents = block.end_doc - block.first_doc, before = doc_id - block.first_doc;
    size_t table_len = 4 * (documents + 1);
    int is_inside = block.start <= file->len && block.len <= file->len - block.start;
    if (!is_inside || block.len < table_len || before >= documents) {
        return;
    }
    size_t table = block.start + block.len - table_len;
    ask_for(file, table + 4 * before);
    ask_for(file, block.start + (size_t)((double)(block.len - table_len) * (double)before / (double)documents));
}

/* Where a document lies, of a file whose gets do more than to look at a table. It is no part of zevk_file_get, which it
 * would slow. */
__attribute__((noinline)) static uint32_t place_of(const zevk_file *file, uint32_t doc_id, zevk_place *place) {
    if (file->page != 0) {
        ask_for_both(file, doc_id);
    }
    if (!has_rows(file)) {
        return zevk_get(file->bytes, file->len, doc_id, place);
    }
    return file->head.height == 0
        ? zevk_proved_locate(file->bytes, file->len, file->rows, file->head.rows, doc_id, place)
        : zevk_proved_get_by(file->bytes, file->len, file->rows, file->head.rows, &file->head, doc_id, place);
}

int zevk_file_get(const zevk_file *file, uint32_t doc_id, zevk_document *document) {
    zevk_place place;
    uint32_t error = file->is_by_table
        ? zevk_proved_locate(file->bytes, file->len, file->rows, file->head.rows, doc_id, &place)
        : place_of(file, doc_id, &place);
    if (error == ZEVK_DONE) {
        *document = (zevk_document){file->bytes + place.start, place.len};
    }
    return (int)error;
}

void zevk_cursor_begin(zevk_cursor *cursor, const zevk_file *file, uint32_t first) {
    *cursor = (zevk_cursor){.file = file, .doc_id = first, .next = first};
}

/* Finds the next places. After an error there is no place before it. */
static int find_places(zevk_cursor *cursor) {
    const zevk_file *file = cursor->file;
    size_t count = 0;
    uint32_t error = has_rows(file) && file->head.height == 0
        ? zevk_locate_run(file->bytes, file->len, file->rows, file->head.rows, cursor->next, cursor->places,
                          ZEVK_CURSOR_RUN, &count)
        : zevk_get_run(file->bytes, file->len, cursor->next, cursor->places, ZEVK_CURSOR_RUN, &count);
    cursor->at = 0;
    cursor->count = (uint32_t)count;
    return count > 0 ? 0 : (int)error;
}

int zevk_cursor_next(zevk_cursor *cursor, zevk_document *document) {
    int error = cursor->at < cursor->count ? 0 : find_places(cursor);
    cursor->doc_id = cursor->next;
    if (error == 0) {
        zevk_place place = cursor->places[cursor->at++];
        *document = (zevk_document){cursor->file->bytes + place.start, place.len};
    }
    cursor->next += error == 0 || error == ZEVK_DAMAGED_DOCUMENT;
    return error;
}

int zevk_cursor_get(zevk_cursor *cursor, uint32_t doc_id, zevk_document *document) {
    uint32_t first = cursor->next - cursor->at;
    if (doc_id - first < cursor->count) {
        cursor->at = doc_id - first;
        cursor->next = doc_id;
    }
    if (doc_id == cursor->next) {
        return zevk_cursor_next(cursor, document);
    }
    int error = zevk_file_get(cursor->file, doc_id, document);
    cursor->doc_id = doc_id;
    cursor->next = error == 0 ? doc_id + 1 : doc_id;
    cursor->at = cursor->count = 0;
    return error;
}

void zevk_file_facts(const zevk_file *file, zevk_facts *facts) {
    const uint8_t *footer = file->bytes + file->len - FOOTER_LEN;
    uint32_t version = (uint32_t)number_at(footer, 4);
    *facts = (zevk_facts){
        .bytes = file->bytes,
        .len = file->len,
        .data_len = index_start(file),
        .blocks = file->blocks,
        .num_docs = file->num_docs,
        .version = version,
        .period = version < 3 ? 8 : footer[13],
    };
}
