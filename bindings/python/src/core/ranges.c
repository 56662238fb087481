/* Calls that read a file by ranges: by its last bytes, and by the bytes of a block. */
#include "core.h"

PyObject *block_of(PyObject *module, PyObject *arguments) {
    Py_buffer tail;
    Py_ssize_t size;
    unsigned long number;
    if (!PyArg_ParseTuple(arguments, "y*nk", &tail, &size, &number)) {
        return NULL;
    }
    zevk_block_place block;
    size_t wanted;
    uint32_t answer =
        zevk_block_of(tail.buf, (size_t)tail.len, (size_t)size, (uint32_t)number, &block, &wanted);
    PyBuffer_Release(&tail);
    if (answer == ZEVK_TAIL_TOO_SHORT) {
        return PyLong_FromSize_t(wanted);
    }
    if (answer) {
        return raise_refusal(answer, Py_None, NULL);
    }
    return Py_BuildValue("(kknn)", (unsigned long)block.first_doc, (unsigned long)block.end_doc,
                         (Py_ssize_t)block.start, (Py_ssize_t)block.len);
}

PyObject *get_in(PyObject *module, PyObject *arguments) {
    Py_buffer bytes;
    unsigned long first, end, number;
    Py_ssize_t start, len;
    if (!PyArg_ParseTuple(arguments, "y*(kknn)k", &bytes, &first, &end, &start, &len, &number)) {
        return NULL;
    }
    const zevk_block_place block = {(uint32_t)first, (uint32_t)end, (size_t)start, (size_t)len};
    zevk_place place;
    PyObject *document = NULL;
    uint32_t answer = zevk_get_in(bytes.buf, (size_t)bytes.len, &block, (uint32_t)number, &place);
    if (answer) {
        raise_refusal(answer, Py_None, NULL);
    } else {
        const char *content = (const char *)bytes.buf + (place.start - block.start);
        document = PyBytes_FromStringAndSize(content, (Py_ssize_t)place.len);
    }
    PyBuffer_Release(&bytes);
    return document;
}
