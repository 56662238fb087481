/* Stores by path, the writing half: the proved calls of zevkhadun.h say which bytes come next, and they go to a second
 * file (second_file.c). */
#include <errno.h>
#include <stdlib.h>
#include <string.h>
#include <unistd.h>

#include "by_path.h"

enum { BUFFER_SIZE = 1 << 16 };

struct zevk_file_writer {
    zevk_part part;
    int has_failed;
    uint8_t period;
    uint32_t num_docs;
    zevk_writer numbers;
    uint32_t *starts;
    size_t starts_len;
    zevk_block *table;
    size_t table_len;
    size_t buffered;
    uint8_t buffer[BUFFER_SIZE];
};

/* Writes the bytes that are gathered. */
static int flush(zevk_file_writer *writer) {
    int error = zevk_part_write(&writer->part, writer->buffer, writer->buffered);
    writer->buffered = 0;
    return error;
}

/* Writes bytes after the others: short ones are gathered, and long ones are not copied. After an error of the system
 * the writer has failed, since it is not known what the second file holds. */
static int output(zevk_file_writer *writer, const void *bytes, size_t len) {
    int error = 0;
    if (len > BUFFER_SIZE - writer->buffered) {
        error = flush(writer);
    }
    if (error == 0 && len >= BUFFER_SIZE) {
        error = zevk_part_write(&writer->part, bytes, len);
    } else if (error == 0 && len > 0) {
        memcpy(writer->buffer + writer->buffered, bytes, len);
        writer->buffered += len;
    }
    writer->has_failed = error != 0;
    return error;
}

/* An array with room for at least `wanted` elements of a size, or NULL. The old one is gone then, or is as it was. */
static void *longer(void *array, size_t *len, size_t wanted, size_t size) {
    size_t room = *len < wanted / 2 ? wanted : 2 * *len + 64;
    void *moved = wanted > SIZE_MAX / 4 / size ? NULL : realloc(array, room * size);
    *len = moved == NULL ? *len : room;
    return moved;
}

/* Makes room for more starts and more rows after those that count. */
static int make_room(zevk_file_writer *writer, size_t starts, size_t rows) {
    starts += writer->numbers.docs;
    rows += writer->numbers.blocks;
    if (starts > writer->starts_len) {
        void *moved = longer(writer->starts, &writer->starts_len, starts, sizeof *writer->starts);
        if (moved == NULL) {
            return ZEVK_NO_MEMORY;
        }
        writer->starts = moved;
    }
    if (rows > writer->table_len) {
        void *moved = longer(writer->table, &writer->table_len, rows, sizeof *writer->table);
        if (moved == NULL) {
            return ZEVK_NO_MEMORY;
        }
        writer->table = moved;
    }
    return 0;
}

/* Removes the second file if it has not got its name, and frees the writer. */
static void release(zevk_file_writer *writer) {
    zevk_part_release(&writer->part);
    free(writer->starts);
    free(writer->table);
    free(writer);
}

/* Begins a writer. */
static int begin(const char *path, int replaces, size_t block_size, unsigned period, zevk_file_writer **begun) {
    zevk_file_writer *writer = calloc(1, sizeof *writer);
    if (writer == NULL) {
        return ZEVK_NO_MEMORY;
    }
    writer->period = (uint8_t)period;
    zevk_writer_begin(&writer->numbers, block_size);
    int error = zevk_part_begin(&writer->part, path, replaces);
    if (error != 0) {
        release(writer);
        return error;
    }
    *begun = writer;
    return 0;
}

int zevk_file_create(const char *path, unsigned flags, size_t block_size, unsigned period, zevk_file_writer **writer) {
    if ((flags & ~ZEVK_FILE_REPLACE) != 0) {
        return zevk_returned(-EINVAL);
    }
    if (period < 2 || period > 64) {
        return ZEVK_BAD_PERIOD;
    }
    return zevk_returned(begin(path, (flags & ZEVK_FILE_REPLACE) != 0, block_size, period, writer));
}

/* Adds the rows of a store to the table, and sets `len` to how many bytes of its file are to be written. */
static int stack_rows(zevk_file_writer *writer, const zevk_file *file, size_t *len) {
    size_t count = file->blocks;
    uint32_t error = ZEVK_NO_ROOM;
    while (error == ZEVK_NO_ROOM) {
        int no_room = make_room(writer, 0, count);
        if (no_room != 0) {
            return no_room;
        }
        error = zevk_writer_stack(&writer->numbers, writer->table, writer->table_len, file->bytes, file->len, &count,
                                  len);
    }
    writer->num_docs += error == ZEVK_DONE ? file->num_docs : 0;
    return (int)error;
}

/* Begins with the documents of the file of the writer's name. */
static int begin_with_old(zevk_file_writer *writer) {
    zevk_file *old = NULL;
    zevk_facts facts;
    size_t len = 0;
    int descriptor = zevk_descriptor(writer->part.folder, writer->part.name);
    if (descriptor < 0) {
        return -errno;
    }
    int error = zevk_open_descriptor(descriptor, 0, &old);
    if (error == 0) {
        zevk_file_facts(old, &facts);
        writer->period = writer->period == 0 ? (uint8_t)facts.period : writer->period;
        error = stack_rows(writer, old, &len);
    }
    if (error == 0) {
        error = zevk_part_share(&writer->part, descriptor, facts.bytes, len);
    }
    zevk_file_close(old);
    close(descriptor);
    return error;
}

int zevk_file_append(const char *path, size_t block_size, unsigned period, zevk_file_writer **writer) {
    zevk_file_writer *begun = NULL;
    if (period == 1 || period > 64) {
        return ZEVK_BAD_PERIOD;
    }
    int error = begin(path, 1, block_size, period, &begun);
    if (error == 0) {
        error = begin_with_old(begun);
        if (error == 0) {
            *writer = begun;
        } else {
            release(begun);
        }
    }
    return zevk_returned(error);
}

int zevk_file_put(zevk_file_writer *writer, const void *bytes, size_t len, uint32_t *doc_id) {
    size_t count = 0;
    int error = writer->has_failed ? ZEVK_FAILED : make_room(writer, 2, 1);
    if (error == 0) {
        error = (int)zevk_writer_put(&writer->numbers, writer->starts, writer->starts_len, writer->table,
                                     writer->table_len, len, &count);
    }
    if (error == 0) {
        error = output(writer, bytes, len);
    }
    if (error == 0) {
        error = output(writer, writer->starts, count * sizeof *writer->starts);
    }
    if (error != 0) {
        return zevk_returned(error);
    }
    if (doc_id != NULL) {
        *doc_id = writer->num_docs;
    }
    writer->num_docs++;
    return 0;
}

int zevk_file_end_block(zevk_file_writer *writer) {
    size_t count = 0;
    int error = writer->has_failed ? ZEVK_FAILED : make_room(writer, 1, 1);
    if (error == 0) {
        error = (int)zevk_writer_end_block(&writer->numbers, writer->starts, writer->starts_len, writer->table,
                                           writer->table_len, &count);
    }
    if (error == 0) {
        error = output(writer, writer->starts, count * sizeof *writer->starts);
    }
    return zevk_returned(error);
}

int zevk_file_stack(zevk_file_writer *writer, const zevk_file *file) {
    size_t len = 0;
    int error = zevk_file_end_block(writer);
    if (error == 0) {
        error = stack_rows(writer, file, &len);
    }
    if (error == 0) {
        error = output(writer, file->bytes, len);
    }
    return zevk_returned(error);
}

uint32_t zevk_file_writer_num_docs(const zevk_file_writer *writer) {
    return writer->num_docs;
}

/* Writes the index and the footer. A first guess of their length is mostly enough. */
static int put_end(zevk_file_writer *writer) {
    size_t len = 8 * writer->numbers.blocks + 4096;
    uint32_t error = ZEVK_NO_ROOM;
    uint8_t *end = NULL;
    while (error == ZEVK_NO_ROOM) {
        size_t room = len;
        free(end);
        end = malloc(room);
        error = end == NULL ? ZEVK_NO_MEMORY
                            : zevk_writer_close(&writer->numbers, writer->table, writer->table_len, writer->period,
                                                end, room, &len);
    }
    int written = error == ZEVK_DONE ? output(writer, end, len) : (int)error;
    free(end);
    return written;
}

int zevk_file_publish(zevk_file_writer *writer) {
    int error = zevk_file_end_block(writer);
    if (error == 0) {
        error = put_end(writer);
    }
    if (error == 0) {
        error = flush(writer);
    }
    if (error == 0) {
        error = zevk_part_publish(&writer->part);
    }
    release(writer);
    return zevk_returned(error);
}

void zevk_file_discard(zevk_file_writer *writer) {
    int before = errno;
    if (writer != NULL) {
        release(writer);
    }
    errno = before;
}
