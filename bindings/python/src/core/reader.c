/* The type Reader: an open store, of a mapped file or of a buffer. */
#include "core.h"

/* ---- the collector of garbage */

static int traverse(PyObject *object, visitproc visit, void *arg) {
    reader *self = (reader *)object;
    Py_VISIT(Py_TYPE(object));
    Py_VISIT(self->path);
    Py_VISIT(self->buffer.obj);
    return 0;
}

/* Closes it, unless it has views, which the collector clears too. */
static int clear(PyObject *object) {
    reader *self = (reader *)object;
    if (self->views == 0 && self->users == 0) {
        self->is_open = 0;
        release_reader(self);
    }
    return 0;
}

static void deallocate(PyObject *object) {
    reader *self = (reader *)object;
    PyObject_GC_UnTrack(object);
    release_reader(self);
    Py_CLEAR(self->path);
    free_object(object);
}

/* ---- reading */

/* Raises NoDocument of the number that was asked for. Returns NULL. */
static void *raise_missing(const reader *self, Py_ssize_t number) {
    PyObject *facts = Py_BuildValue("{sn}", "document", number);
    return facts ? raise_refusal(ZEVK_NO_DOCUMENT, self->path, facts) : NULL;
}

/* Finds the places from a document on: four of them after a jump, and twice as many each time after that. Returns
 * whether there is any. */
static __attribute__((noinline)) int find_ahead(reader *self, uint32_t number) {
    size_t wanted = self->ahead_len < 4 ? 4 : 2 * (size_t)self->ahead_len;
    size_t found = 0;
    wanted = wanted < AHEAD ? wanted : AHEAD;
    find_places(self, number, self->ahead, wanted, &found);
    self->ahead_from = number;
    self->ahead_len = (uint32_t)found;
    return found > 0;
}

/* Sets `place` to where a document lies, or returns an error. A document that follows the one before is mostly found
 * already. */
static uint32_t locate(reader *self, uint32_t number, zevk_place *place) {
    uint32_t at = number - self->ahead_from;
    int follows = number == self->next;
    self->next = number + 1;
    if (at >= self->ahead_len) {
        if (!follows || !find_ahead(self, number)) {
            self->ahead_len = 0;
            return find_place(self, number, place);
        }
        at = 0;
    }
    *place = self->ahead[at];
    return 0;
}

/* The number that a key is, clipped where it is too large; -1 with an exception if it is none. */
static Py_ssize_t number_of(PyObject *key) {
    Py_ssize_t number = PyLong_CheckExact(key) ? PyLong_AsSsize_t(key) : -1;
    if (number == -1) {
        PyErr_Clear();
        number = PyNumber_AsSsize_t(key, NULL);
    }
    return number;
}

/* Sets `place` to where a document lies; a negative number counts from the end. */
static int find(reader *self, Py_ssize_t number, zevk_place *place) {
    if (!check_open(self)) {
        return 0;
    }
    Py_ssize_t at = number < 0 ? number + (Py_ssize_t)self->count : number;
    if (at < 0 || at >= (Py_ssize_t)self->count) {
        raise_missing(self, number);
        return 0;
    }
    uint32_t answer = locate(self, (uint32_t)at, place);
    if (answer) {
        PyObject *facts = Py_BuildValue("{sn}", "document", at);
        if (facts) {
            raise_refusal(answer, self->path, facts);
        }
    }
    return answer == 0;
}

PyObject *document_of(const reader *self, const zevk_place *place) {
    return PyBytes_FromStringAndSize((const char *)self->file + place->start, (Py_ssize_t)place->len);
}

static PyObject *subscript(PyObject *object, PyObject *key) {
    reader *self = (reader *)object;
    zevk_place place;
    if (PySlice_Check(key)) {
        Py_ssize_t start, stop, step;
        if (PySlice_Unpack(key, &start, &stop, &step) < 0) {
            return NULL;
        }
        if (!enter_reader(self)) {
            return NULL;
        }
        Py_ssize_t count = PySlice_AdjustIndices((Py_ssize_t)self->count, &start, &stop, step);
        PyObject *list = documents_of(self, start, count, step);
        leave_reader(self);
        return list;
    }
    Py_ssize_t number = number_of(key);
    if (number == -1 && PyErr_Occurred()) {
        return NULL;
    }
    return find(self, number, &place) ? document_of(self, &place) : NULL;
}

static Py_ssize_t length(PyObject *object) {
    return (Py_ssize_t)((reader *)object)->documents;
}

static PyObject *view(PyObject *object, PyObject *key) {
    reader *self = (reader *)object;
    zevk_place place;
    Py_ssize_t number = number_of(key);
    if ((number == -1 && PyErr_Occurred()) || !find(self, number, &place)) {
        return NULL;
    }
    PyObject *start = PyLong_FromSize_t(place.start);
    PyObject *end = PyLong_FromSize_t(place.start + place.len);
    PyObject *slice = start && end ? PySlice_New(start, end, NULL) : NULL;
    PyObject *whole = slice ? PyMemoryView_FromObject(object) : NULL;
    PyObject *part = whole ? PyObject_GetItem(whole, slice) : NULL;
    Py_XDECREF(whole);
    Py_XDECREF(slice);
    Py_XDECREF(end);
    Py_XDECREF(start);
    return part;
}

/* What an error of zevk_check has beside its number. */
static PyObject *facts_of(uint32_t answer, const zevk_fault *fault) {
    if (answer == ZEVK_DAMAGED_DOCUMENT) {
        return Py_BuildValue("{sk}", "document", (unsigned long)fault->doc_id);
    }
    if (answer == ZEVK_BAD_INDEX) {
        return Py_BuildValue("{sn}", "byte", (Py_ssize_t)fault->byte);
    }
    return PyDict_New();
}

static PyObject *verify(PyObject *object, PyObject *unused) {
    reader *self = (reader *)object;
    zevk_fault fault = {0, 0, 0};
    uint32_t answer;
    if (!enter_reader(self)) {
        return NULL;
    }
    Py_BEGIN_ALLOW_THREADS
    answer = zevk_check(self->file, self->len, &fault);
    Py_END_ALLOW_THREADS
    leave_reader(self);
    if (answer) {
        PyObject *facts = facts_of(answer, &fault);
        return facts ? raise_refusal(answer, self->path, facts) : NULL;
    }
    Py_RETURN_NONE;
}

/* ---- the bytes of the file, as a buffer */

static int get_buffer(PyObject *object, Py_buffer *wanted, int flags) {
    reader *self = (reader *)object;
    wanted->obj = NULL;
    if (!check_open(self) ||
        PyBuffer_FillInfo(wanted, object, (void *)self->file, (Py_ssize_t)self->len, 1, flags) < 0) {
        return -1;
    }
    self->views++;
    return 0;
}

static void release_buffer(PyObject *object, Py_buffer *given) {
    ((reader *)object)->views--;
}

/* ---- facts */

static PyObject *footer(PyObject *object, PyObject *unused) {
    const reader *self = (const reader *)object;
    /* An open store has a footer. */
    return check_open(self) ? PyBytes_FromStringAndSize((const char *)self->file + self->len - FOOTER_LEN, FOOTER_LEN)
                            : NULL;
}

static PyObject *get_size(PyObject *object, void *closure) {
    return PyLong_FromSize_t(((reader *)object)->size);
}

static PyObject *get_is_open(PyObject *object, void *closure) {
    return PyBool_FromLong(((reader *)object)->is_open);
}

static PyObject *get_blocks(PyObject *object, void *closure) {
    const reader *self = (const reader *)object;
    if (self->is_unchecked) {
        Py_RETURN_NONE;
    }
    return PyLong_FromSize_t(self->blocks);
}

/* ---- the type */

static PyGetSetDef members[] = {
    {"is_open", get_is_open, NULL, "Whether it was opened and not closed.", NULL},
    {"num_blocks", get_blocks, NULL,
     "How many blocks of documents it has; None if it was opened with check=False.", NULL},
    {"size", get_size, NULL, "How many bytes the file has.", NULL},
    {NULL, NULL, NULL, NULL, NULL},
};

static PyMethodDef methods[] = {
    {"_open_file", open_file, METH_VARARGS,
     "_open_file(descriptor, path, check): maps a file, and opens it with the check of its index or without."},
    {"_open_buffer", open_buffer, METH_VARARGS,
     "_open_buffer(content, check): opens the store whose file these bytes are."},
    {"_footer", footer, METH_NOARGS, "The footer, the last 28 bytes of the file. Raises Closed."},
    {"_close", close_reader, METH_NOARGS, "Closes it. Raises BufferError if it has views."},
    {"get_many", get_many, METH_O,
     "get_many(numbers)\n--\n\nThe documents of many numbers, in the order of the numbers, as a list.\n\n"
     "Other threads run in the meantime. Raises NoDocument, DamagedDocument, NoMemory and Closed."},
    {"__getitems__", get_many, METH_O, "The documents of many numbers: the name by which PyTorch asks for them."},
    {"view", view, METH_O,
     "view(number)\n--\n\nA document as a read-only memoryview of the file, without a copy.\n\n"
     "The store can't be closed as long as there is a view. Raises NoDocument, DamagedDocument and Closed."},
    {"verify", verify, METH_NOARGS,
     "verify()\n--\n\nChecks the whole file: footer, index, and the table of each block.\n\n"
     "Other threads run in the meantime. Raises DamagedDocument, whose `document` is the number of the first damaged\n"
     "document; if the file was changed since it was opened, also what opening raises; NoMemory and Closed. Changed\n"
     "bytes inside a document are not found: the format has no checksums."},
    {NULL, NULL, 0, NULL},
};

static PyType_Slot slots[] = {
    {Py_tp_doc, "An open store, of a mapped file or of a buffer."},
    {Py_tp_dealloc, deallocate},
    {Py_tp_traverse, traverse},
    {Py_tp_clear, clear},
    {Py_tp_methods, methods},
    {Py_tp_getset, members},
    {Py_mp_length, length},
    {Py_mp_subscript, subscript},
    {Py_sq_length, length},
    {Py_bf_getbuffer, get_buffer},
    {Py_bf_releasebuffer, release_buffer},
    {0, NULL},
};

PyType_Spec reader_spec = {
    .name = "zevkhadun._core.Reader",
    .basicsize = sizeof(reader),
    .flags = Py_TPFLAGS_DEFAULT | Py_TPFLAGS_BASETYPE | Py_TPFLAGS_HAVE_GC,
    .slots = slots,
};
