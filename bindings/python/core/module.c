// The module `doorvervain._core`: its types, and what it takes from the modules beside it.
//
// Invariant: `known` is complete once the module was made, and is never unloaded.
#include "core.h"

struct known known;

// Makes a type, and puts it into the module. Null with an exception.
static PyObject *add_type(PyObject *module, const char *name, PyType_Spec *spec, PyObject *base) {
    PyObject *bases = base ? PyTuple_Pack(1, base) : NULL;
    PyObject *type = !base || bases ? PyType_FromSpecWithBases(spec, bases) : NULL;
    Py_XDECREF(bases);
    if (type && PyObject_SetAttrString(module, name, type) == 0) return type;
    Py_XDECREF(type);
    return NULL;
}

// An attribute of another module. Null with an exception.
static PyObject *imported(const char *module, const char *name) {
    PyObject *found = PyImport_ImportModule(module);
    PyObject *it = found ? PyObject_GetAttrString(found, name) : NULL;
    Py_XDECREF(found);
    return it;
}

static int add_all(PyObject *module) {
    known.stat = imported("doorvervain._types", "Stat");
    known.entry = imported("doorvervain._types", "Entry");
    known.yes = imported("doorvervain._types", "YES");
    known.no = imported("doorvervain._types", "NO");
    known.bad_image = imported("doorvervain._types", "BadImage");
    known.bad_delta = imported("doorvervain._types", "BadDelta");
    known.time_ns = imported("time", "time_ns");
    known.path = imported("doorvervain._path", "Path");
    if (!known.stat || !known.entry || !known.yes || !known.no || !known.bad_image || !known.bad_delta) return -1;
    if (!known.time_ns || !known.path || watch_forks(module)) return -1;
    known.lock = (PyTypeObject *)add_type(module, "Lock", &lock_spec, NULL);
    known.tree = known.lock ? (PyTypeObject *)add_type(module, "Tree", &tree_spec, NULL) : NULL;
    if (!known.tree) return -1;
    PyObject *tree = (PyObject *)known.tree;
    known.volume = (PyTypeObject *)add_type(module, "Volume", &volume_spec, tree);
    known.frozen = known.volume ? (PyTypeObject *)add_type(module, "Frozen", &frozen_spec, tree) : NULL;
    if (!known.frozen || PyModule_AddStringConstant(module, "RELEASE", DOORVERVAIN_VERSION)) return -1;
    return PyModule_AddStringConstant(module, "BUILD", doorvervain_build());
}

static struct PyModuleDef module_definition = {
    PyModuleDef_HEAD_INIT, "doorvervain._core", "Volumes and frozen trees, over the library for C.", -1, NULL, NULL, NULL,
    NULL, NULL,
};

PyMODINIT_FUNC PyInit__core(void) {
    PyObject *module = PyModule_Create(&module_definition);
    if (!module || add_all(module) == 0) return module;
    Py_DECREF(module);
    return NULL;
}
