/* A store that is written: what the type Packer and its methods share. */
#ifndef ZEVKHADUN_PACKING_H
#define ZEVKHADUN_PACKING_H

#include "core.h"

/* How many bytes are gathered before they go to the output. */
#define BUFFER_LEN ((size_t)1 << 20)

/* How far a writer has come. */
enum stage { NEW, OPEN, CLOSED, FAILED };

typedef struct packer {
    PyObject_HEAD
    PyObject *output;      /* its methods `write` and `remove` are called */
    zevk_writer numbers;   /* the library's numbers */
    uint32_t *starts;      /* where the documents of the open block begin */
    size_t starts_len;     /* how many of these there is room for */
    zevk_block *table;     /* the blocks that were ended */
    size_t table_len;      /* how many of these there is room for */
    uint8_t *buffer;       /* bytes that go to the output */
    size_t buffered;       /* how many these are */
    uint64_t count;        /* how many documents there are */
    enum stage stage;      /* how far it has come */
    int is_used;           /* whether a call runs */
} packer;

/* Gives up after an exception, which stays: the content of the second file is unknown now. Returns 0. */
int fail(packer *self);

/* Adds a document. An error of the library leaves the writer as it was, one of the output ends it. */
int add(packer *self, const Py_buffer *content);

/* Adds the documents of a batch. Other threads run in the meantime. */
int add_all(packer *self, const Py_buffer *contents, size_t count);

/* Adds the store that these bytes are, which has `count` documents. */
int add_store(packer *self, const Py_buffer *file, uint32_t count);

/* Adds the end of the last block, the index and the footer, and gives all bytes to the output. */
int add_end(packer *self, uint8_t period);

#endif
