/* Renaming a file to a name that no file has. */
#include "core.h"

#include <errno.h>
#include <fcntl.h>
#include <stdio.h>

/* Renames a file by its name and the new one, both as bytes. Returns 0 or an errno. */
static int rename_bytes(PyObject *old, PyObject *new) {
    int error;
    Py_BEGIN_ALLOW_THREADS
    error = renameat2(AT_FDCWD, PyBytes_AsString(old), AT_FDCWD, PyBytes_AsString(new), RENAME_NOREPLACE) ? errno : 0;
    Py_END_ALLOW_THREADS
    return error;
}

PyObject *rename_new(PyObject *module, PyObject *arguments) {
    PyObject *old = NULL, *new = NULL, *result = NULL;
    if (PyArg_ParseTuple(arguments, "O&O&", PyUnicode_FSConverter, &old, PyUnicode_FSConverter, &new)) {
        int error = rename_bytes(old, new);
        if (error == 0 || error == EINVAL || error == ENOSYS) {
            result = PyBool_FromLong(error == 0);
        } else {
            errno = error;
            PyErr_SetFromErrnoWithFilenameObject(PyExc_OSError, PyTuple_GetItem(arguments, 1));
        }
    }
    Py_XDECREF(old);
    Py_XDECREF(new);
    return result;
}
