/* What a call asks of the caller: arguments, the clock, weigh, on_leave; and what it raises. All of it runs outside of a step. */
#include <time.h>
#include "native.h"

static const char *const CAUSES[] = {"", "explicit", "replaced", "expired", "size"};

/* Memory of zeros, or null. PyMem_Calloc is of the limited API from 3.13 on. */
void *zeroed(size_t size) {
    void *memory = PyMem_Malloc(size);
    return memory ? memset(memory, 0, size) : NULL;
}

/* Whether the object is of a type, or of one below it, that has this in a slot: so a type is known without a global that names it. */
int is_of(PyObject *object, int slot, const void *has) {
    PyTypeObject *type = Py_TYPE(object);
    while (type && PyType_GetSlot(type, slot) != has) type = (PyTypeObject *)PyType_GetSlot(type, Py_tp_base);
    return type != NULL;
}

/* The arguments by place or by name, into `given`, whose optional ones are null. `known` has their names, and behind them the call. */
int arguments(PyObject *const *args, Py_ssize_t count, PyObject *names, int least, int most, const char *const *known, PyObject **given) {
    int at = 0;
    if (count > most) goto wrong;
    for (; at < count; at++) given[at] = args[at];
    for (; at < most; at++) given[at] = NULL;
    if (!names && count >= least) return 0;
    for (Py_ssize_t i = 0, named = names ? PyTuple_Size(names) : 0; i < named; i++) {
        for (at = 0; at < most && PyUnicode_CompareWithASCIIString(PyTuple_GetItem(names, i), known[at]); at++) {}
        if (at == most || given[at]) goto wrong;
        given[at] = args[count + i];
    }
    for (at = 0; at < least && given[at]; at++) {}
    if (at == least) return 0;
wrong:
    PyErr_Format(PyExc_TypeError, "the call is %s", known[most]);
    return -1;
}

/* A whole number of `bits` bits of an object, whose reference is given up. */
int whole(PyObject *given, int bits, const char *what, uint64_t *number) {
    if (!given) return -1;
    PyObject *index = PyNumber_Index(given);
    if (index) {
        *number = PyLong_AsUnsignedLongLong(index);
        if ((*number == UINT64_MAX && PyErr_Occurred()) || (bits < 64 && *number >> bits))
            PyErr_Format(PyExc_ValueError, "%s is %S, and has to be from 0 to 2^%d - 1", what, index, bits);
        Py_DECREF(index);
    } else if (PyErr_ExceptionMatches(PyExc_TypeError))
        PyErr_Format(PyExc_TypeError, "%s is %R, and has to be a whole number", what, given);
    Py_DECREF(given);
    return PyErr_Occurred() ? -1 : 0;
}

/* The moment in milliseconds. */
int now_of(Table *self, uint64_t *now) {
    if (self->clock)
        return whole(PyObject_CallObject(self->clock, NULL), 64, "the moment that clock returned", now);
    struct timespec at;
    clock_gettime(CLOCK_MONOTONIC, &at);
    *now = (uint64_t)at.tv_sec * 1000 + (uint64_t)at.tv_nsec / 1000000;
    return 0;
}

long long nanoseconds(void) {
    struct timespec at;
    clock_gettime(CLOCK_MONOTONIC, &at);
    return at.tv_sec * 1000000000LL + at.tv_nsec;
}

int weight_of(Table *self, PyObject *key, PyObject *value, uint64_t *weight) {
    *weight = 1;
    if (!self->weigh) return 0;
    return whole(PyObject_CallFunctionObjArgs(self->weigh, key, value, NULL), 32, "the weight that weigh returned", weight);
}

/* Raises what `refusal` returns for the fault. The class is the exception's own, as a handler is found by it before Python 3.11. */
void raise_fault(PyObject *refusal, uint64_t fault) {
    PyObject *number = PyLong_FromUnsignedLongLong(fault);
    PyObject *error = number ? PyObject_CallFunctionObjArgs(refusal, number, NULL) : NULL;
    if (error) PyErr_SetObject((PyObject *)Py_TYPE(error), error);
    Py_XDECREF(error);
    Py_XDECREF(number);
}

/* Raises the fault, and counts it. A table that wasn't opened has no `refusal`, and raises ValueError. */
void refuse(Table *self, uint64_t fault) {
    self->refused[fault < 8 ? fault : (fault - 100) % 8 + 8]++;
    raise_fault(self->refusal ? self->refusal : PyExc_ValueError, fault);
}

/* Raises OutOfMemory, in place of a MemoryError that is raised, and returns -1. */
int no_memory(Table *self) {
    PyErr_Clear();
    refuse(self, RD_OUT_OF_MEMORY);
    return -1;
}

/* Hands the exception that is raised to `log`, unless it is one that ends the call, as SystemExit: then it stays raised, and 0. */
static int is_logged(Table *self, PyObject *key) {
    if (!PyErr_ExceptionMatches(PyExc_Exception)) return 0;
    PyObject *type, *error, *trace;
    PyErr_Fetch(&type, &error, &trace);
    PyErr_NormalizeException(&type, &error, &trace);
    if (trace) PyException_SetTraceback(error, trace);
    PyObject *logged = PyObject_CallFunctionObjArgs(self->log, key, error, NULL);
    Py_XDECREF(logged);
    Py_XDECREF(type);
    Py_XDECREF(error);
    Py_XDECREF(trace);
    if (!logged && PyErr_ExceptionMatches(PyExc_Exception)) PyErr_WriteUnraisable(self->log), logged = Py_None;
    return logged != NULL;
}

/* Calls on_leave for each use that left, and frees it. All are reported, whatever that raises; the first exception that isn't logged is
 * raised at the end. */
int tell(Table *self, Use *left) {
    PyObject *type = NULL, *raised = NULL, *trace = NULL;
    for (Use *use; (use = left); free_uses(use)) {
        left = use->next, use->next = NULL;
        PyObject *on_leave = self->on_leave, *told = NULL;
        if (!on_leave) continue;
        Py_INCREF(on_leave);
        PyObject *cause = PyUnicode_FromString(CAUSES[use->cause]);
        if (cause) told = PyObject_CallFunctionObjArgs(on_leave, use->key, use->value, cause, NULL);
        Py_XDECREF(cause);
        Py_DECREF(on_leave);
        Py_XDECREF(told);
        if (told || is_logged(self, use->key)) continue;
        if (type) PyErr_Clear();
        else PyErr_Fetch(&type, &raised, &trace);
    }
    if (type) PyErr_Restore(type, raised, trace);
    return type ? -1 : 0;
}

/* Keeps the exception that is raised for the end of the call, unless there is one. */
void keep_raised(Raised *raised) {
    if (raised->type) PyErr_Clear();
    else PyErr_Fetch(&raised->type, &raised->error, &raised->trace);
}

/* Lets other threads run between two slices, if one wants to: as a function of Python begins, the interpreter looks for that. To release its
 * lock here wouldn't do, as whoever waits is then woken too late and waits from the beginning. -1 if a signal handler raised. */
int make_way(Table *self) {
    PyObject *of = self->pause;
    if (!of) return 0;
    Py_INCREF(of);
    PyObject *paused = PyObject_CallObject(of, NULL);
    Py_DECREF(of);
    Py_XDECREF(paused);
    if (paused) return 0;
    if (!PyErr_ExceptionMatches(PyExc_MemoryError)) return -1;
    PyErr_Clear(); /* there was none for the call: then nobody else runs yet */
    return 0;
}

/* The same where nothing may be raised. It takes a tenth of a millisecond, in which whoever waits is woken. */
void rest(void) {
    const struct timespec time = {0, 50000};
    Py_BEGIN_ALLOW_THREADS
    nanosleep(&time, NULL);
    Py_END_ALLOW_THREADS
}

/* True or False, of a call that returned 1 or 0; null of one that raised. */
PyObject *truth_of(int is_true) { return is_true < 0 ? NULL : PyBool_FromLong(is_true); }

/* Closes a coroutine and raises TypeError: of all who would get it, one alone could await it. _cache.py knows which awaitables are such. */
int refuse_coroutine(Table *self, PyObject *value, const char *why) {
    if (!PyType_GetSlot(Py_TYPE(value), Py_am_await)) return 0;
    PyObject *kept = PyObject_CallMethod((PyObject *)self, "_refuse_coroutine", "Os", value, why);
    Py_XDECREF(kept);
    return kept ? 0 : -1;
}
