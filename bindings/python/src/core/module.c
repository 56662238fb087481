/* The module, and the exceptions that it raises. */
#include "core.h"

void *raise_refusal(uint32_t number, PyObject *path, PyObject *facts) {
    PyObject *module = PyImport_ImportModule("zevkhadun.refusals");
    PyObject *make = module ? PyObject_GetAttrString(module, "error_of") : NULL;
    PyObject *arguments = make ? Py_BuildValue("(kO)", (unsigned long)number, path ? path : Py_None) : NULL;
    PyObject *error = arguments ? PyObject_Call(make, arguments, facts) : NULL;
    if (error) {
        PyErr_SetObject((PyObject *)Py_TYPE(error), error);
    }
    Py_XDECREF(error);
    Py_XDECREF(arguments);
    Py_XDECREF(make);
    Py_XDECREF(module);
    Py_XDECREF(facts);
    return NULL;
}

void *raise_named(const char *name, const char *text) {
    PyObject *module = PyImport_ImportModule("zevkhadun.refusals");
    PyObject *type = module ? PyObject_GetAttrString(module, name) : NULL;
    if (type) {
        PyErr_SetString(type, text);
    }
    Py_XDECREF(type);
    Py_XDECREF(module);
    return NULL;
}

void free_object(PyObject *self) {
    PyTypeObject *type = Py_TYPE(self);
    freefunc release = (freefunc)PyType_GetSlot(type, Py_tp_free);
    release(self);
    Py_DECREF(type);
}

/* Makes a type of the module and gives it its name there. Returns a new reference. */
static PyObject *add_type(PyObject *module, PyType_Spec *spec) {
    PyObject *type = PyType_FromModuleAndSpec(module, spec, NULL);
    if (type && PyModule_AddType(module, (PyTypeObject *)type) < 0) {
        Py_CLEAR(type);
    }
    return type;
}

static int execute(PyObject *module) {
    core_state *state = PyModule_GetState(module);
    PyObject *documents = add_type(module, &documents_spec);
    PyObject *packer = add_type(module, &packer_spec);
    state->reader_type = add_type(module, &reader_spec);
    int is_done = documents && packer && state->reader_type;
    Py_XDECREF(documents);
    Py_XDECREF(packer);
    return is_done ? 0 : -1;
}

static int traverse(PyObject *module, visitproc visit, void *arg) {
    core_state *state = PyModule_GetState(module);
    Py_VISIT(state->reader_type);
    return 0;
}

static int clear(PyObject *module) {
    core_state *state = PyModule_GetState(module);
    Py_CLEAR(state->reader_type);
    return 0;
}

static PyMethodDef functions[] = {
    {"block_of", block_of, METH_VARARGS,
     "block_of(tail, size, number): the block of a document as (first_doc, end_doc, start, length), by the last bytes\n"
     "of a file of `size` bytes; or an int, how many of the last bytes are needed."},
    {"get_in", get_in, METH_VARARGS,
     "get_in(bytes, block, number): a document of a block, by the bytes of the block."},
    {"rename_new", rename_new, METH_VARARGS,
     "rename_new(old, new): gives a file a name that no file has. Returns whether the file system can do so."},
    {NULL, NULL, 0, NULL},
};

static PyModuleDef_Slot slots[] = {
    {Py_mod_exec, execute},
    {0, NULL},
};

static PyModuleDef definition = {
    PyModuleDef_HEAD_INIT,
    .m_name = "zevkhadun._core",
    .m_doc = "The calls of the library, for the classes of the package.",
    .m_size = sizeof(core_state),
    .m_methods = functions,
    .m_slots = slots,
    .m_traverse = traverse,
    .m_clear = clear,
};

PyMODINIT_FUNC PyInit__core(void) {
    return PyModuleDef_Init(&definition);
}
