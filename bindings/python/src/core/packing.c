/* Documents and stores that are added to a store, and its end. The bytes go to an output, an object of Python. */
#include "packing.h"

#include <stdlib.h>
#include <string.h>

/* ---- the output */

/* Gives up after an exception, which stays: the content of the second file is unknown now. Returns 0. */
int fail(packer *self) {
    PyObject *type, *value, *trace;
    PyErr_Fetch(&type, &value, &trace);
    self->stage = FAILED;
    PyObject *done = PyObject_CallMethod(self->output, "remove", NULL);
    if (!done) {
        PyErr_Clear();
    }
    Py_XDECREF(done);
    PyErr_Restore(type, value, trace);
    return 0;
}

/* Gives bytes to the output, which keeps no view of them. */
static int hand_over(packer *self, const void *bytes, size_t len) {
    PyObject *view = PyMemoryView_FromMemory((char *)bytes, (Py_ssize_t)len, PyBUF_READ);
    PyObject *done = view ? PyObject_CallMethod(self->output, "write", "O", view) : NULL;
    PyObject *released = done ? PyObject_CallMethod(view, "release", NULL) : NULL;
    int is_done = released != NULL;
    Py_XDECREF(released);
    Py_XDECREF(done);
    Py_XDECREF(view);
    return is_done;
}

/* Gives the output what was gathered. */
static int flush(packer *self) {
    size_t len = self->buffered;
    self->buffered = 0;
    return len == 0 || hand_over(self, self->buffer, len);
}

/* Adds bytes to the file. */
static int append(packer *self, const void *bytes, size_t len) {
    if (len > BUFFER_LEN - self->buffered && !flush(self)) {
        return 0;
    }
    if (len >= BUFFER_LEN) {
        return hand_over(self, bytes, len);
    }
    if (len) {
        memcpy(self->buffer + self->buffered, bytes, len);
        self->buffered += len;
    }
    return 1;
}

/* ---- documents */

/* Makes an array longer until it has `needed` elements of a size. */
static int grow(void **array, size_t *len, size_t needed, size_t size) {
    if (needed <= *len) {
        return 1;
    }
    size_t longer = needed > 2 * *len ? needed : 2 * *len;
    void *moved = longer <= PY_SSIZE_T_MAX / size ? realloc(*array, longer * size) : NULL;
    if (moved) {
        *array = moved;
        *len = longer;
    }
    return moved != NULL;
}

/* Makes room for one more document and one more block, and `more` blocks. */
static int make_room(packer *self, size_t more) {
    return grow((void **)&self->starts, &self->starts_len, self->numbers.docs + 2, sizeof *self->starts)
        && grow((void **)&self->table, &self->table_len, self->numbers.blocks + 1 + more, sizeof *self->table);
}

/* Asks the library to add a document, with arrays that are long enough. Takes no lock. Returns an error's number. */
static uint32_t ask_put(packer *self, size_t len, size_t *count) {
    for (;;) {
        uint32_t answer = zevk_writer_put(&self->numbers, self->starts, self->starts_len, self->table, self->table_len,
                                          len, count);
        if (answer != ZEVK_NO_ROOM) {
            self->count += answer == 0;
            return answer;
        }
        if (!make_room(self, 0)) {
            return ZEVK_NO_MEMORY;
        }
    }
}

/* Adds a document. An error of the library leaves the writer as it was, one of the output ends it. */
int add(packer *self, const Py_buffer *content) {
    size_t count;
    uint32_t answer = ask_put(self, (size_t)content->len, &count);
    if (answer) {
        raise_refusal(answer, NULL, NULL);
        return 0;
    }
    int is_done = append(self, content->buf, (size_t)content->len) && append(self, self->starts, 4 * count);
    return is_done || fail(self);
}

/* Adds the first documents of a batch, as many as need no output and have no error. Returns how many. */
static size_t add_quickly(packer *self, const Py_buffer *contents, size_t count) {
    for (size_t i = 0; i < count; i++) {
        size_t len = (size_t)contents[i].len, room = BUFFER_LEN - self->buffered, numbers;
        size_t most = 4 * (self->numbers.docs + 2);
        if (most > room || len > room - most || ask_put(self, len, &numbers)) {
            return i;
        }
        memcpy(self->buffer + self->buffered, contents[i].buf, len);
        memcpy(self->buffer + self->buffered + len, self->starts, 4 * numbers);
        self->buffered += len + 4 * numbers;
    }
    return count;
}

/* Adds the documents of a batch. Other threads run in the meantime. */
int add_all(packer *self, const Py_buffer *contents, size_t count) {
    size_t at = 0;
    while (at < count) {
        Py_BEGIN_ALLOW_THREADS
        at += add_quickly(self, contents + at, count - at);
        Py_END_ALLOW_THREADS
        if (at < count && !add(self, &contents[at++])) {
            return 0;
        }
    }
    return 1;
}

/* ---- whole stores, and the end */

/* Ends the open block. The caller gives up if that fails. */
static int end_block(packer *self) {
    size_t count;
    if (!make_room(self, 0)) {
        PyErr_NoMemory();
        return 0;
    }
    uint32_t answer = zevk_writer_end_block(&self->numbers, self->starts, self->starts_len, self->table,
                                            self->table_len, &count);
    if (answer) {
        raise_refusal(answer, NULL, NULL);
        return 0;
    }
    return append(self, self->starts, 4 * count);
}

/* Adds the store that these bytes are. */
int add_store(packer *self, const Py_buffer *file, uint32_t count) {
    size_t rows, len;
    for (;;) {
        uint32_t answer = zevk_writer_stack(&self->numbers, self->table, self->table_len, file->buf,
                                            (size_t)file->len, &rows, &len);
        if (answer == 0) {
            self->count += count;
            return append(self, file->buf, len) || fail(self);
        }
        int is_ready = answer == ZEVK_OPEN_BLOCK || answer == ZEVK_NO_ROOM;
        if (!is_ready || (answer == ZEVK_NO_ROOM && !make_room(self, rows))) {
            raise_refusal(is_ready ? ZEVK_NO_MEMORY : answer, NULL, NULL);
            return 0;
        }
        if (answer == ZEVK_OPEN_BLOCK && !end_block(self)) {
            return fail(self);
        }
    }
}

/* Adds the index and the footer, and gives all bytes to the output. */
int add_end(packer *self, uint8_t period) {
    if (!end_block(self)) {
        return 0;
    }
    size_t len = 0;
    uint8_t *end = NULL;
    uint32_t answer = zevk_writer_close(&self->numbers, self->table, self->table_len, period, NULL, 0, &len);
    if (answer == ZEVK_NO_ROOM) {
        end = malloc(len);
        answer = !end ? ZEVK_NO_MEMORY
                      : zevk_writer_close(&self->numbers, self->table, self->table_len, period, end, len, &len);
    }
    if (answer) {
        raise_refusal(answer, NULL, NULL);
    }
    int is_done = answer == 0 && append(self, end, len) && flush(self);
    free(end);
    return is_done;
}
