/* A function whose values are kept by its arguments: the part of `cached` that a hit needs. */
#include "native.h"

typedef struct {
    PyObject_HEAD
    Table *table;
    PyObject *function, *key, *named, *method; /* key is null if the arguments are the key */
} Function;

/* The key of a call: of `key` if there is one, else the arguments by place, or with those by name what `named` makes of both. */
static PyObject *key_of(Function *self, PyObject *args, PyObject *names) {
    if (self->key) return PyObject_Call(self->key, args, names);
    if (names && PyDict_Size(names)) return PyObject_CallFunctionObjArgs(self->named, args, names, NULL);
    Py_INCREF(args);
    return args;
}

static PyObject *function_call(Function *self, PyObject *args, PyObject *names) {
    if (!self->table) return PyErr_Format(PyExc_ValueError, "the function was collected");
    PyObject *key = key_of(self, args, names);
    if (!key) return NULL;
    Table *table = self->table;
    Py_INCREF((PyObject *)table);
    PyObject *value = get(table, key, &(Loader){self->function, args, names, NULL}, NULL);
    Py_DECREF((PyObject *)table);
    Py_DECREF(key);
    return value;
}

/* As a method the function gets its object as the first argument. */
static PyObject *function_bound(Function *self, PyObject *object, PyObject *type) {
    (void)type;
    if (object && object != Py_None) return PyObject_CallFunctionObjArgs(self->method, (PyObject *)self, object, NULL);
    Py_INCREF((PyObject *)self);
    return (PyObject *)self;
}

/* Function(table, function, key or None, named, the type of bound methods). */
static PyObject *function_new(PyTypeObject *type, PyObject *args, PyObject *names) {
    (void)names;
    PyObject *table, *function, *key, *named, *method;
    if (!PyArg_ParseTuple(args, "OOOOO", &table, &function, &key, &named, &method)) return NULL;
    if (!is_of(table, Py_tp_new, (void *)table_new) || !PyCallable_Check(function))
        return PyErr_Format(PyExc_TypeError, "it takes a cache and a function");
    Function *self = (Function *)PyType_GenericAlloc(type, 0);
    if (!self) return NULL;
    self->table = (Table *)table, self->function = function, self->named = named, self->method = method;
    self->key = key == Py_None ? NULL : key;
    Py_INCREF(table);
    Py_INCREF(function);
    Py_INCREF(named);
    Py_INCREF(method);
    Py_XINCREF(self->key);
    return (PyObject *)self;
}

static int function_traverse(Function *self, visitproc visit, void *arg) {
    Py_VISIT(Py_TYPE(self));
    Py_VISIT((PyObject *)self->table);
    Py_VISIT(self->function);
    Py_VISIT(self->key);
    Py_VISIT(self->named);
    Py_VISIT(self->method);
    return 0;
}

static int function_clear(Function *self) {
    Table *table = self->table;
    self->table = NULL;
    Py_XDECREF((PyObject *)table);
    Py_CLEAR(self->function);
    Py_CLEAR(self->key);
    Py_CLEAR(self->named);
    Py_CLEAR(self->method);
    return 0;
}

static void function_dealloc(Function *self) {
    PyTypeObject *type = Py_TYPE(self);
    PyObject_GC_UnTrack(self);
    function_clear(self);
    ((freefunc)PyType_GetSlot(type, Py_tp_free))(self);
    Py_DECREF(type);
}

static PyType_Slot function_slots[] = {
    {Py_tp_doc, "A function whose values a cache keeps by its arguments."},
    {Py_tp_new, (void *)function_new},
    {Py_tp_dealloc, (void *)function_dealloc},
    {Py_tp_traverse, (void *)function_traverse},
    {Py_tp_clear, (void *)function_clear},
    {Py_tp_call, (void *)function_call},
    {Py_tp_descr_get, (void *)function_bound},
    {0, NULL},
};

PyType_Spec function_spec = {"rookdresser._native.Function", sizeof(Function), 0, BASE_WITH_GC, function_slots};
