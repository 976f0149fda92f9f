/* Durations, which are numbers or timedeltas: the life that a ttl gives, and how long a wait lasts. All of it runs outside of a step. */
#include "native.h"

/* Whether the object is a timedelta: 1 or 0, or -1 with an exception. */
int is_timedelta(Table *self, PyObject *given) {
    return PyLong_Check(given) || PyFloat_Check(given) || !self->timedelta ? 0 : PyObject_IsInstance(given, self->timedelta);
}

/* A part of a timedelta: at most 10^9 days, a day's seconds, or a second's microseconds. A subclass may say something else. */
static long long part_of(PyObject *timedelta, const char *name) {
    PyObject *part = PyErr_Occurred() ? NULL : PyObject_GetAttrString(timedelta, name);
    long number = part ? PyLong_AsLong(part) : 0;
    Py_XDECREF(part);
    return number < -1000000000 ? -1000000000 : number > 1000000000 ? 1000000000 : number;
}

/* The milliseconds of a timedelta, rounded away from 0: so only 0 becomes 0, and what is below 0 stays so. PyErr_Occurred tells whether a
 * part raised. */
static long long milliseconds_of(PyObject *timedelta) {
    long long days = part_of(timedelta, "days"), seconds = part_of(timedelta, "seconds"), microseconds = part_of(timedelta, "microseconds");
    long long milliseconds = days * 86400000 + seconds * 1000 + microseconds / 1000;
    return milliseconds + (milliseconds >= 0 && microseconds % 1000 > 0);
}

/* The same for _settings.py, as a number of Python. */
static PyObject *milliseconds(PyObject *module, PyObject *timedelta) {
    (void)module;
    long long number = milliseconds_of(timedelta);
    return PyErr_Occurred() ? NULL : PyLong_FromLongLong(number);
}

PyMethodDef duration_functions[] = {
    {"milliseconds", METHOD(milliseconds), METH_O, "milliseconds($module, timedelta, /)\n--\n\nReturns whole milliseconds, rounded away from 0."},
    {NULL, NULL, 0, NULL},
};

/* How many milliseconds a life has, a whole number of them or a timedelta: from 0 to 2^32. 0, or -1 with an exception. */
static int length_of(Table *self, PyObject *life, const char *what, long long *number) {
    int beyond = 0, has_parts = is_timedelta(self, life);
    if (has_parts > 0) *number = milliseconds_of(life);
    else if (has_parts == 0) {
        PyObject *index = PyNumber_Index(life);
        *number = index ? PyLong_AsLongLongAndOverflow(index, &beyond) : 0;
        Py_XDECREF(index);
        if (!index && PyErr_ExceptionMatches(PyExc_TypeError))
            PyErr_Format(PyExc_TypeError, "%s is %R, and has to be a whole number of milliseconds or a timedelta", what, life);
    }
    if (PyErr_Occurred()) return PyErr_ExceptionMatches(PyExc_MemoryError) ? no_memory(self) : -1;
    if (beyond > 0 || *number > 1LL << 32) *number = 1LL << 32;
    if (beyond < 0 || *number < 0) *number = 0;
    return 0;
}

/* The life of an entry by a caller's ttl, which may be None: 0 is none, as it is of one that 32 bits don't hold. Less than a
 * millisecond counts as one. */
int life_of(Table *self, PyObject *ttl, PyObject *key, PyObject *value, uint32_t *life) {
    long long number = 0;
    *life = 0;
    if (ttl == Py_None) return 0;
    int is_called = PyCallable_Check(ttl);
    PyObject *given = is_called ? PyObject_CallFunctionObjArgs(ttl, key, value, NULL) : ttl;
    if (!given) return -1;
    int is_none = given == Py_None;
    int told = is_none ? 0 : length_of(self, given, is_called ? "the life that ttl returned" : "ttl", &number);
    if (is_called) Py_DECREF(given);
    if (told == 0 && !is_none && number < 1LL << 32) *life = number ? (uint32_t)number : 1;
    return told;
}

/* The seconds that a timeout stands for, a timedelta or a number; -1 with an exception. */
double seconds_of(Table *self, PyObject *timeout) {
    int has_parts = is_timedelta(self, timeout);
    if (has_parts <= 0) return has_parts < 0 ? -1 : PyFloat_AsDouble(timeout);
    PyObject *told = PyObject_CallMethod(timeout, "total_seconds", NULL);
    double seconds = told ? PyFloat_AsDouble(told) : -1;
    Py_XDECREF(told);
    return seconds;
}
