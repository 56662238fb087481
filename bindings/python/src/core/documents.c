/* Many documents of a store: lists of them, and the type Documents, which iterates over them. */
#include "core.h"

#include <stdlib.h>
#include <string.h>

/* How many places an iteration asks for at once. */
#define RUN 128

/* How many documents are found and copied at once without the interpreter's lock. */
#define BATCH 4096

/* Raises the error of a document. Returns NULL. */
static void *raise_at(const reader *self, uint32_t answer, size_t number) {
    PyObject *facts = Py_BuildValue("{sn}", "document", (Py_ssize_t)number);
    return facts ? raise_refusal(answer, self->path, facts) : NULL;
}

/* ---- slices */

/* Adds the documents of these places to a list from `at` on. */
static int set_documents(const reader *self, PyObject *list, Py_ssize_t at, const zevk_place *places, size_t count) {
    for (size_t i = 0; i < count; i++) {
        PyObject *document = document_of(self, &places[i]);
        if (!document || PyList_SetItem(list, at + (Py_ssize_t)i, document) < 0) {
            return 0;
        }
    }
    return 1;
}

/* Finds some places of a slice: a run of them where they follow one another, and else one. Returns how many. */
static size_t find_some(const reader *self, Py_ssize_t number, Py_ssize_t left, Py_ssize_t step, zevk_place *places) {
    size_t count = 0;
    uint32_t answer;
    if (step == 1) {
        size_t wanted = left < RUN ? (size_t)left : RUN;
        answer = find_places(self, (uint32_t)number, places, wanted, &count);
    } else {
        answer = find_place(self, (uint32_t)number, places);
        count = answer == 0;
    }
    if (count == 0) {
        raise_at(self, answer, (size_t)number);
    }
    return count;
}

PyObject *documents_of(const reader *self, Py_ssize_t first, Py_ssize_t count, Py_ssize_t step) {
    zevk_place places[RUN];
    PyObject *list = PyList_New(count);
    Py_ssize_t done = 0;
    while (list && done < count) {
        size_t found = find_some(self, first + done * step, count - done, step, places);
        if (found == 0 || !set_documents(self, list, done, places, found)) {
            Py_CLEAR(list);
        }
        done += (Py_ssize_t)found;
    }
    return list;
}

/* ---- many numbers */

/* A part of the documents that are asked for. */
typedef struct batch {
    size_t count;
    uint32_t numbers[BATCH];
    zevk_place places[BATCH];
    PyObject *documents[BATCH];
    char *contents[BATCH]; /* where the bytes of these documents are */
} batch;

/* Takes the next numbers of a list; negative ones count from the end. Returns whether all are those of documents. */
static int take_numbers(const reader *self, batch *part, PyObject *numbers, Py_ssize_t at, Py_ssize_t end) {
    part->count = 0;
    for (; at < end && part->count < BATCH; at++) {
        PyObject *item = PyList_GetItem(numbers, at);
        Py_ssize_t given = item ? PyNumber_AsSsize_t(item, NULL) : -1;
        if (given == -1 && PyErr_Occurred()) {
            return 0;
        }
        Py_ssize_t number = given < 0 ? given + (Py_ssize_t)self->count : given;
        if (number < 0 || number >= (Py_ssize_t)self->count) {
            raise_at(self, ZEVK_NO_DOCUMENT, (size_t)given);
            return 0;
        }
        part->numbers[part->count++] = (uint32_t)number;
    }
    return 1;
}

/* Finds the places of a batch, up to the first document that has none. Returns its error, and sets `found`. */
static uint32_t find_all(const reader *self, batch *part, size_t *found) {
    uint32_t answer = 0;
    size_t at = 0;
    while (at < part->count && answer == 0) {
        answer = find_place(self, part->numbers[at], &part->places[at]);
        at += answer == 0;
    }
    *found = at;
    return answer;
}

/* Drops the documents of a batch from `at` on. */
static void drop_documents(batch *part, size_t at) {
    for (; at < part->count; at++) {
        Py_CLEAR(part->documents[at]);
    }
}

/* Makes the bytes of a batch, without their content. */
static int make_documents(batch *part) {
    for (size_t i = 0; i < part->count; i++) {
        part->documents[i] = PyBytes_FromStringAndSize(NULL, (Py_ssize_t)part->places[i].len);
        if (!part->documents[i]) {
            part->count = i;
            drop_documents(part, 0);
            return 0;
        }
        part->contents[i] = PyBytes_AsString(part->documents[i]);
    }
    return 1;
}

/* Reads the documents of a batch. No other object knows its bytes before they are whole. */
static int read_batch(reader *self, batch *part) {
    size_t found;
    uint32_t answer;
    Py_BEGIN_ALLOW_THREADS
    answer = find_all(self, part, &found);
    Py_END_ALLOW_THREADS
    if (answer) {
        raise_at(self, answer, part->numbers[found]);
        return 0;
    }
    if (!make_documents(part)) {
        return 0;
    }
    Py_BEGIN_ALLOW_THREADS
    for (size_t i = 0; i < part->count; i++) {
        const zevk_place *place = &part->places[i];
        memcpy(part->contents[i], self->file + place->start, place->len);
    }
    Py_END_ALLOW_THREADS
    return 1;
}

/* Adds the documents of a batch to a list. */
static int add_batch(batch *part, PyObject *list) {
    int is_done = 1;
    for (size_t i = 0; i < part->count && is_done; i++) {
        is_done = PyList_Append(list, part->documents[i]) == 0;
    }
    drop_documents(part, 0);
    return is_done;
}

/* Adds the documents of the numbers to a list, which other threads may see before it is whole. */
static int add_many(reader *self, PyObject *list, PyObject *numbers, batch *part) {
    Py_ssize_t end = PyList_Size(numbers);
    for (Py_ssize_t at = 0; at < end; at += (Py_ssize_t)part->count) {
        if (!take_numbers(self, part, numbers, at, end) || !read_batch(self, part) || !add_batch(part, list)) {
            return 0;
        }
    }
    return 1;
}

PyObject *get_many(PyObject *object, PyObject *given) {
    reader *self = (reader *)object;
    PyObject *numbers = PySequence_List(given);
    PyObject *list = numbers ? PyList_New(0) : NULL;
    if (list && enter_reader(self)) {
        batch *part = malloc(sizeof *part);
        if (!part) {
            PyErr_NoMemory();
        }
        if (!part || !add_many(self, list, numbers, part)) {
            Py_CLEAR(list);
        }
        free(part);
        leave_reader(self);
    } else {
        Py_CLEAR(list);
    }
    Py_XDECREF(numbers);
    return list;
}

/* ---- iteration */

/* What comes in place of a damaged document. */
enum damaged { RAISE, SKIP, NONE };

/* An iteration over documents. */
typedef struct documents {
    PyObject_HEAD
    reader *store;
    uint32_t next;          /* the number of the document that follows */
    uint32_t end;           /* one more than the number of the last one */
    enum damaged damaged;   /* what comes in place of a damaged one */
    size_t at;              /* how many of the places were used */
    size_t count;           /* how many places there are */
    zevk_place places[RUN]; /* where the next documents lie */
} documents;

/* Reads what comes in place of damaged documents. */
static int damaged_of(const char *word, enum damaged *wanted) {
    static const char *const words[] = {"raise", "skip", "none"};
    for (int i = 0; i < 3; i++) {
        if (strcmp(word, words[i]) == 0) {
            *wanted = (enum damaged)i;
            return 1;
        }
    }
    PyErr_Format(PyExc_ValueError, "damaged is 'raise', 'skip' or 'none', not '%s'", word);
    return 0;
}

static PyObject *new_documents(PyTypeObject *type, PyObject *arguments, PyObject *names) {
    core_state *state = PyType_GetModuleState(type);
    PyObject *store;
    const char *word;
    enum damaged damaged;
    if (!state || !PyArg_ParseTuple(arguments, "O!s", state->reader_type, &store, &word) || !damaged_of(word, &damaged)
        || !check_open((reader *)store)) {
        return NULL;
    }
    allocfunc allocate = (allocfunc)PyType_GetSlot(type, Py_tp_alloc);
    documents *self = (documents *)allocate(type, 0);
    if (self) {
        Py_INCREF(store);
        self->store = (reader *)store;
        self->end = self->store->count;
        self->damaged = damaged;
    }
    return (PyObject *)self;
}

static int traverse(PyObject *object, visitproc visit, void *arg) {
    Py_VISIT(Py_TYPE(object));
    Py_VISIT(((documents *)object)->store);
    return 0;
}

/* After that there are no documents left. */
static int clear(PyObject *object) {
    documents *self = (documents *)object;
    self->next = self->end;
    Py_CLEAR(self->store);
    return 0;
}

static void deallocate(PyObject *object) {
    PyObject_GC_UnTrack(object);
    clear(object);
    free_object(object);
}

/* Finds the next places. Returns the error of the next document, or 0. */
static uint32_t find_next(documents *self) {
    self->at = 0;
    uint32_t answer = find_places(self->store, self->next, self->places, RUN, &self->count);
    return self->count ? 0 : answer;
}

/* The next document, or None in place of a damaged one. */
static PyObject *next_document(PyObject *object) {
    documents *self = (documents *)object;
    while (self->next < self->end) {
        if (!check_open(self->store)) {
            return NULL;
        }
        uint32_t answer = self->at < self->count ? 0 : find_next(self);
        uint32_t number = self->next++;
        if (answer == 0) {
            return document_of(self->store, &self->places[self->at++]);
        }
        if (answer != ZEVK_DAMAGED_DOCUMENT || self->damaged == RAISE) {
            self->next = self->end;
            return raise_at(self->store, answer, number);
        }
        if (self->damaged == NONE) {
            Py_RETURN_NONE;
        }
    }
    return NULL;
}

static PyObject *length_hint(PyObject *object, PyObject *unused) {
    documents *self = (documents *)object;
    return PyLong_FromUnsignedLong(self->end - self->next);
}

static PyMethodDef methods[] = {
    {"__length_hint__", length_hint, METH_NOARGS, "The number of documents that follow, damaged ones too."},
    {NULL, NULL, 0, NULL},
};

static PyType_Slot slots[] = {
    {Py_tp_doc, "Documents(store, damaged)\n--\n\nAn iteration over the documents of a store."},
    {Py_tp_new, new_documents},
    {Py_tp_dealloc, deallocate},
    {Py_tp_traverse, traverse},
    {Py_tp_clear, clear},
    {Py_tp_iter, PyObject_SelfIter},
    {Py_tp_iternext, next_document},
    {Py_tp_methods, methods},
    {0, NULL},
};

PyType_Spec documents_spec = {
    .name = "zevkhadun._core.Documents",
    .basicsize = sizeof(documents),
    .flags = Py_TPFLAGS_DEFAULT | Py_TPFLAGS_HAVE_GC,
    .slots = slots,
};
