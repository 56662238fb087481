/* The extension module zevkhadun._core: what its sources share.
 *
 * It uses the limited interface of CPython 3.11, so that one module serves every later version. */
#ifndef ZEVKHADUN_CORE_H
#define ZEVKHADUN_CORE_H

#define PY_SSIZE_T_CLEAN
#define Py_LIMITED_API 0x030b0000
#include <Python.h>

#include "zevkhadun.h"

/* How many places a reader finds at once where it is asked for one document after the other. */
#define AHEAD 64

/* How many bytes a footer has. */
#define FOOTER_LEN 28

/* An open store: the bytes of its file, and rows of its index. */
typedef struct reader {
    PyObject_HEAD
    PyObject *path;      /* the path of its file, or None */
    Py_buffer buffer;    /* the caller's bytes; without an object if the file is mapped */
    const uint8_t *file; /* the bytes of the file */
    size_t len;          /* how many these are; 0 if it was closed */
    zevk_block *rows;    /* rows of one layer of the index */
    size_t rows_len;     /* how many rows there are; 0 if it was closed */
    zevk_head head;      /* the numbers of an outline; its height is 0 if there is a row for each block */
    uint32_t count;      /* how many documents there are; 0 if it was closed */
    size_t size;         /* how many bytes there were when it was opened */
    size_t blocks;       /* how many blocks there were, if the index was checked */
    uint32_t documents;  /* how many documents there were */
    Py_ssize_t views;    /* how many memoryviews of the file there are */
    Py_ssize_t users;    /* how many calls read, during which others may close it */
    int is_open;         /* whether it was opened and not closed */
    int is_mapped;       /* whether the file is mapped */
    int is_unchecked;    /* whether it was opened without the check of the index */
    uint32_t next;       /* one more than the number that was asked for last */
    uint32_t ahead_from; /* the number of the document whose place is the first one in `ahead` */
    uint32_t ahead_len;  /* how many places there are in `ahead` */
    zevk_place ahead[AHEAD];
} reader;

/* What the module keeps: its types. */
typedef struct core_state {
    PyObject *reader_type;
} core_state;

extern PyType_Spec reader_spec;
extern PyType_Spec documents_spec;
extern PyType_Spec packer_spec;

/* Raises the exception of an error's number, with a path or None, and a dict of facts or NULL, which it takes. Returns
 * NULL. */
void *raise_refusal(uint32_t number, PyObject *path, PyObject *facts);

/* Raises an exception of the package by its name, with this text. Returns NULL. */
void *raise_named(const char *name, const char *text);

/* Frees an object of a type of this module, all of which the collector of garbage knows. */
void free_object(PyObject *self);

/* Fills a row for each block, and checks the whole index. Returns the number of an error, or 0. */
uint32_t fill_table(reader *self);

/* Fills the rows of the lowest layer that has few of them, and checks what it reads. Returns the number of an error,
 * or 0. */
uint32_t fill_outline(reader *self);

/* Sets `place` to where a document lies, whose number is less than the count. Returns the number of an error, or 0. */
uint32_t find_place(const reader *self, uint32_t number, zevk_place *place);

/* Finds the places of documents from the first one on, whose number is less than the count, up to one that has an error
 * or to `places_len` of them. Sets `count` to how many it found, and returns the number of that error, or 0. */
uint32_t find_places(const reader *self, uint32_t first, zevk_place *places, size_t places_len, size_t *count);

/* Methods of Reader that open and close it. */
PyObject *open_file(PyObject *self, PyObject *arguments);
PyObject *open_buffer(PyObject *self, PyObject *arguments);
PyObject *close_reader(PyObject *self, PyObject *unused);

/* Lets the bytes and the rows go. */
void release_reader(reader *self);

/* Raises Closed and returns 0 unless the store is open. */
int check_open(const reader *self);

/* Raises Closed and returns 0 unless the store is open. If it is, its bytes and its rows stay until `leave_reader`,
 * also if it is closed meanwhile: by another thread, or by a finalizer, which runs where an object is made. */
int enter_reader(reader *self);
void leave_reader(reader *self);

/* A document, as bytes, from its place. */
PyObject *document_of(const reader *self, const zevk_place *place);

/* The documents of a range from the first one on, each `step` after the one before, as a list. The caller has entered
 * the store. */
PyObject *documents_of(const reader *self, Py_ssize_t first, Py_ssize_t count, Py_ssize_t step);

/* The documents of many numbers, as a list. Reads without the interpreter's lock. */
PyObject *get_many(PyObject *self, PyObject *numbers);

/* Functions of the module that read parts of a file. */
PyObject *block_of(PyObject *module, PyObject *arguments);
PyObject *get_in(PyObject *module, PyObject *arguments);

/* A function of the module that gives a file a name which no file has. Returns False where the file system can't. */
PyObject *rename_new(PyObject *module, PyObject *arguments);

#endif
