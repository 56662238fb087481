/* The type Packer: a store that is written. */
#include "packing.h"

#include <stdlib.h>

/* How many documents of an iterable are gathered before they are added. */
#define BATCH 4096

/* How long a document is at most that is copied while documents are gathered. */
#define COPY_LEN ((Py_ssize_t)1 << 16)

/* ---- documents */

/* Whether a call may begin. If so `leave` has to follow. */
static int enter(packer *self) {
    if (self->stage == OPEN && !self->is_used) {
        self->is_used = 1;
        return 1;
    }
    if (self->stage == OPEN) {
        PyErr_SetString(PyExc_RuntimeError, "the writer is used by another call");
    } else if (self->stage == FAILED) {
        raise_named("Failed", "the writer failed before, and its second file was removed");
    } else {
        raise_named("Closed", "the writer is closed");
    }
    return 0;
}

static void leave(packer *self) {
    self->is_used = 0;
}

/* The bytes of an object: its own, or a copy if they don't follow one another in memory. */
static int get_content(PyObject *object, Py_buffer *content) {
    if (PyObject_GetBuffer(object, content, PyBUF_SIMPLE) == 0) {
        return 1;
    }
    if (!PyErr_ExceptionMatches(PyExc_BufferError)) {
        return 0;
    }
    PyErr_Clear();
    PyObject *copy = PyBytes_FromObject(object);
    int is_done = copy && PyObject_GetBuffer(copy, content, PyBUF_SIMPLE) == 0;
    Py_XDECREF(copy);
    return is_done;
}

static PyObject *put(PyObject *object, PyObject *document) {
    packer *self = (packer *)object;
    Py_buffer content;
    if (!enter(self)) {
        return NULL;
    }
    int is_done = get_content(document, &content);
    if (is_done) {
        is_done = add(self, &content);
        PyBuffer_Release(&content);
    }
    leave(self);
    return is_done ? PyLong_FromUnsignedLongLong(self->count - 1) : NULL;
}

/* Replaces bytes by a copy of them. */
static int copy_content(Py_buffer *content) {
    PyObject *copy = PyBytes_FromStringAndSize(content->buf, content->len);
    PyBuffer_Release(content);
    int is_done = copy && PyObject_GetBuffer(copy, content, PyBUF_SIMPLE) == 0;
    Py_XDECREF(copy);
    return is_done;
}

/* Gathers documents of an iterator. It stops at its end, with an exception, and where a batch is full. The iterator may
 * change the memory of a document once the next one is asked for, unless that is `bytes`: so others are copied, or are
 * the last of their batch. */
static size_t gather(PyObject *iterator, Py_buffer *contents) {
    size_t count = 0, bytes = 0;
    PyObject *document;
    while (count < BATCH && bytes < BUFFER_LEN && (document = PyIter_Next(iterator)) != NULL) {
        int is_fixed = PyBytes_CheckExact(document);
        int is_taken = get_content(document, &contents[count]);
        Py_DECREF(document);
        if (!is_taken) {
            return count;
        }
        if (!is_fixed && contents[count].len > COPY_LEN) {
            return count + 1;
        }
        if (!is_fixed && !copy_content(&contents[count])) {
            return count;
        }
        bytes += (size_t)contents[count++].len;
    }
    return count;
}

/* Adds a batch of documents and lets them go. An exception that came before them is raised after them. */
static int add_batch(packer *self, Py_buffer *contents, size_t count) {
    PyObject *type, *value, *trace;
    PyErr_Fetch(&type, &value, &trace);
    int is_done = add_all(self, contents, count);
    for (size_t i = 0; i < count; i++) {
        PyBuffer_Release(&contents[i]);
    }
    if (is_done) {
        PyErr_Restore(type, value, trace);
        return type == NULL;
    }
    Py_XDECREF(type);
    Py_XDECREF(value);
    Py_XDECREF(trace);
    return 0;
}

/* Adds all documents of an iterator. */
static int add_documents(packer *self, PyObject *iterator) {
    Py_buffer *contents = malloc(BATCH * sizeof *contents);
    size_t count = 1;
    int is_done = contents != NULL;
    if (!contents) {
        PyErr_NoMemory();
    }
    while (is_done && count) {
        count = gather(iterator, contents);
        is_done = add_batch(self, contents, count);
    }
    free(contents);
    return is_done;
}

static PyObject *extend(PyObject *object, PyObject *documents) {
    packer *self = (packer *)object;
    PyObject *iterator = PyObject_GetIter(documents);
    if (!iterator || !enter(self)) {
        Py_XDECREF(iterator);
        return NULL;
    }
    int is_done = add_documents(self, iterator);
    leave(self);
    Py_DECREF(iterator);
    return is_done ? Py_NewRef(Py_None) : NULL;
}

/* ---- whole stores, and the end */

static PyObject *stack(PyObject *object, PyObject *store) {
    packer *self = (packer *)object;
    Py_buffer file;
    uint32_t count = 0;
    if (!enter(self)) {
        return NULL;
    }
    int is_done = PyObject_GetBuffer(store, &file, PyBUF_SIMPLE) == 0;
    if (is_done) {
        uint32_t answer = zevk_num_docs(file.buf, (size_t)file.len, &count);
        if (answer) {
            raise_refusal(answer, NULL, NULL);
        }
        is_done = answer == 0 && add_store(self, &file, count);
        PyBuffer_Release(&file);
    }
    leave(self);
    return is_done ? Py_NewRef(Py_None) : NULL;
}

static PyObject *finish(PyObject *object, PyObject *arguments) {
    packer *self = (packer *)object;
    int period;
    if (!PyArg_ParseTuple(arguments, "i", &period) || !enter(self)) {
        return NULL;
    }
    PyObject *done = NULL;
    if (add_end(self, (uint8_t)period)) {
        done = PyObject_CallMethod(self->output, "publish", NULL);
    }
    if (done) {
        self->stage = CLOSED;
    } else {
        fail(self);
    }
    leave(self);
    return done;
}

static PyObject *discard(PyObject *object, PyObject *unused) {
    packer *self = (packer *)object;
    if (self->is_used) {
        PyErr_SetString(PyExc_RuntimeError, "the writer is used by another call");
        return NULL;
    }
    self->stage = CLOSED;
    return self->output ? PyObject_CallMethod(self->output, "remove", NULL) : Py_NewRef(Py_None);
}

/* ---- the type */

static PyObject *begin(PyObject *object, PyObject *arguments) {
    packer *self = (packer *)object;
    PyObject *output;
    unsigned long long block_size;
    if (!PyArg_ParseTuple(arguments, "OK", &output, &block_size)) {
        return NULL;
    }
    if (self->stage != NEW) {
        PyErr_SetString(PyExc_RuntimeError, "the writer was begun before");
        return NULL;
    }
    self->buffer = malloc(BUFFER_LEN);
    if (!self->buffer) {
        return PyErr_NoMemory();
    }
    zevk_writer_begin(&self->numbers, (size_t)block_size);
    Py_INCREF(output);
    self->output = output;
    self->stage = OPEN;
    Py_RETURN_NONE;
}

static int traverse(PyObject *object, visitproc visit, void *arg) {
    Py_VISIT(Py_TYPE(object));
    Py_VISIT(((packer *)object)->output);
    return 0;
}

/* After that it is closed: it has no output any more. */
static int clear(PyObject *object) {
    packer *self = (packer *)object;
    self->stage = CLOSED;
    Py_CLEAR(self->output);
    return 0;
}

static void deallocate(PyObject *object) {
    packer *self = (packer *)object;
    PyObject_GC_UnTrack(object);
    clear(object);
    free(self->starts);
    free(self->table);
    free(self->buffer);
    free_object(object);
}

static Py_ssize_t length(PyObject *object) {
    return (Py_ssize_t)((packer *)object)->count;
}

static PyObject *get_stage(PyObject *object, void *closure) {
    static const char *const names[] = {"new", "open", "closed", "failed"};
    return PyUnicode_FromString(names[((packer *)object)->stage]);
}

static PyGetSetDef members[] = {
    {"_stage", get_stage, NULL, "The state of the writer: 'new', 'open', 'closed' or 'failed'.", NULL},
    {NULL, NULL, NULL, NULL, NULL},
};

static PyMethodDef methods[] = {
    {"_begin", begin, METH_VARARGS, "Begins a store, for an output and with a block size."},
    {"_finish", finish, METH_VARARGS, "Writes the end of the file, with this period, and publishes it."},
    {"discard", discard, METH_NOARGS,
     "discard()\n--\n\nRemoves the second file: the file of the name stays as it was. After `close` it does nothing."},
    {"put", put, METH_O,
     "put(document)\n--\n\nAdds a document, and returns its number.\n\n"
     "Raises BlockTooLarge, TooManyDocs and NoMemory, after which the writer is as it was; OSError, after which it\n"
     "has failed; Closed and Failed."},
    {"extend", extend, METH_O,
     "extend(documents)\n--\n\nAdds all documents of an iterable, in order. Other threads run in the meantime.\n\n"
     "If the iterable raises, or one of its documents can't be put, those before it are added. Raises what `put`\n"
     "raises, and RuntimeError if the iterable uses the writer."},
    {"stack", stack, METH_O,
     "stack(store)\n--\n\nAdds all documents of a store, open or as bytes: its blocks are copied as they are.\n\n"
     "Raises OldVersion, TooManyDocs and NoMemory, after which the writer has the documents that it had; OSError,\n"
     "after which it has failed; Closed, of the store too, and Failed."},
    {NULL, NULL, 0, NULL},
};

static PyType_Slot slots[] = {
    {Py_tp_doc, "A store that is written."},
    {Py_tp_dealloc, deallocate},
    {Py_tp_traverse, traverse},
    {Py_tp_clear, clear},
    {Py_tp_methods, methods},
    {Py_tp_getset, members},
    {Py_sq_length, length},
    {0, NULL},
};

PyType_Spec packer_spec = {
    .name = "zevkhadun._core.Packer",
    .basicsize = sizeof(packer),
    .flags = Py_TPFLAGS_DEFAULT | Py_TPFLAGS_BASETYPE | Py_TPFLAGS_HAVE_GC,
    .slots = slots,
};
