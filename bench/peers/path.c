/* Ours, by the calls of the library for C that take the path of a file: by an outline, and with all checks. */
#include <stdlib.h>
#include <zevkhadun_file.h>

#include "side.h"

enum { PERIOD = 8 };

static void expect(int error) {
    require(error == 0, "path", zevk_strerror(error));
}

static void put_all(zevk_file_writer *writer, const struct documents *documents, uint32_t first, uint32_t end) {
    for (uint32_t number = first; number < end; number++) {
        struct bytes document = document_at(documents, number);
        expect(zevk_file_put(writer, document.start, document.length, NULL));
    }
    expect(zevk_file_publish(writer));
}

static void path_write(const char *path, const struct documents *documents, const struct settings *settings) {
    zevk_file_writer *writer;
    expect(zevk_file_create(path, ZEVK_FILE_REPLACE, settings->block_size, PERIOD, &writer));
    put_all(writer, documents, 0, settings->count);
}

static void path_append(const char *path, const struct documents *documents, const struct settings *settings,
                        uint32_t more) {
    zevk_file_writer *writer;
    expect(zevk_file_append(path, settings->block_size, 0, &writer));
    put_all(writer, documents, settings->count, settings->count + more);
}

static void *opened(const char *path, unsigned flags) {
    zevk_file *file;
    expect(zevk_file_open(path, flags, &file));
    return file;
}

static unsigned scattering(const struct settings *settings) {
    return settings->scattered ? ZEVK_FILE_SCATTERED : 0;
}

static void *path_open(const char *path, const struct settings *settings) {
    return opened(path, scattering(settings));
}

static void *checked_open(const char *path, const struct settings *settings) {
    return opened(path, ZEVK_FILE_CHECKED | scattering(settings));
}

/* A thread reads by a cursor of its own, whatever order it asks in. */
static void *begin(void *store) {
    zevk_cursor *cursor = malloc(sizeof *cursor);
    require(cursor != NULL, "path", "no memory");
    zevk_cursor_begin(cursor, store, 0);
    return cursor;
}

static void end(void *reader) {
    free(reader);
}

static struct bytes get(void *reader, uint32_t number) {
    zevk_document document;
    expect(zevk_cursor_get(reader, number, &document));
    return (struct bytes){document.bytes, document.len};
}

static void iterate(void *reader, struct check *check) {
    zevk_cursor *cursor = reader;
    zevk_document document;
    int error;
    zevk_cursor_begin(cursor, cursor->file, 0);
    while ((error = zevk_cursor_next(cursor, &document)) == 0) {
        check_add(check, (struct bytes){document.bytes, document.len});
    }
    expect(error == ZEVK_NO_DOCUMENT ? 0 : error);
}

static void close_store(void *store) {
    zevk_file_close(store);
}

const struct side path_side = {
    .name = "path",
    .write = path_write,
    .append = path_append,
    .open = path_open,
    .begin = begin,
    .end = end,
    .get = get,
    .iterate = iterate,
    .close = close_store,
};

const struct side checked_side = {
    .name = "checked",
    .write = path_write,
    .append = path_append,
    .open = checked_open,
    .begin = begin,
    .end = end,
    .get = get,
    .iterate = iterate,
    .close = close_store,
};
