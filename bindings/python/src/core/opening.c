/* Opening and closing a store: of a file, which is mapped, or of a buffer. */
#include "core.h"

#include <errno.h>
#include <stdlib.h>
#include <sys/mman.h>
#include <sys/stat.h>

int check_open(const reader *self) {
    if (!self->is_open) {
        raise_named("Closed", "the store is closed");
    }
    return self->is_open;
}

void release_reader(reader *self) {
    if (self->is_mapped) {
        munmap((void *)self->file, self->len);
        self->is_mapped = 0;
    }
    if (self->buffer.obj) {
        PyBuffer_Release(&self->buffer);
    }
    free(self->rows);
    self->rows = NULL;
    self->file = NULL;
    self->len = 0;
    self->rows_len = 0;
    self->count = 0;
}

int enter_reader(reader *self) {
    if (!check_open(self)) {
        return 0;
    }
    self->users++;
    return 1;
}

void leave_reader(reader *self) {
    if (--self->users == 0 && !self->is_open) {
        release_reader(self);
    }
}

/* Opens the store of the bytes that were set. */
static PyObject *open_bytes(reader *self, int is_checked) {
    uint32_t answer;
    Py_BEGIN_ALLOW_THREADS
    answer = is_checked ? fill_table(self) : fill_outline(self);
    Py_END_ALLOW_THREADS
    if (answer) {
        release_reader(self);
        return raise_refusal(answer, self->path, NULL);
    }
    self->size = self->len;
    self->blocks = self->rows_len;
    self->is_unchecked = !is_checked;
    self->documents = self->count;
    self->is_open = 1;
    Py_RETURN_NONE;
}

/* Whether nothing was opened yet. */
static int is_new(const reader *self) {
    if (self->path) {
        PyErr_SetString(PyExc_RuntimeError, "the store was opened before");
        return 0;
    }
    return 1;
}

/* Maps a file. An empty one needs no map. Returns whether that went well. */
static int map_file(reader *self, int descriptor) {
    struct stat found;
    if (fstat(descriptor, &found) < 0) {
        return 0;
    }
    if (S_ISDIR(found.st_mode)) {
        errno = EISDIR;
        return 0;
    }
    self->len = (size_t)found.st_size;
    if (self->len == 0) {
        return 1;
    }
    void *map = mmap(NULL, self->len, PROT_READ, MAP_SHARED, descriptor, 0);
    self->is_mapped = map != MAP_FAILED;
    self->file = self->is_mapped ? map : NULL;
    return self->is_mapped;
}

PyObject *open_file(PyObject *object, PyObject *arguments) {
    reader *self = (reader *)object;
    int descriptor, is_checked;
    PyObject *path;
    if (!is_new(self) || !PyArg_ParseTuple(arguments, "iOp", &descriptor, &path, &is_checked)) {
        return NULL;
    }
    Py_INCREF(path);
    self->path = path;
    if (!map_file(self, descriptor)) {
        return PyErr_SetFromErrnoWithFilenameObject(PyExc_OSError, path);
    }
    return open_bytes(self, is_checked);
}

PyObject *open_buffer(PyObject *object, PyObject *arguments) {
    reader *self = (reader *)object;
    int is_checked;
    PyObject *content;
    if (!is_new(self) || !PyArg_ParseTuple(arguments, "Op", &content, &is_checked)
        || PyObject_GetBuffer(content, &self->buffer, PyBUF_SIMPLE) < 0) {
        return NULL;
    }
    Py_INCREF(Py_None);
    self->path = Py_None;
    self->file = self->buffer.buf;
    self->len = (size_t)self->buffer.len;
    return open_bytes(self, is_checked);
}

PyObject *close_reader(PyObject *object, PyObject *unused) {
    reader *self = (reader *)object;
    if (self->views) {
        return PyErr_Format(PyExc_BufferError, "the store has views that were not released: %zd", self->views);
    }
    if (self->is_open) {
        self->is_open = 0;
        if (self->users == 0) {
            release_reader(self);
        }
    }
    Py_RETURN_NONE;
}
