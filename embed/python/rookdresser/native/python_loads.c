/* For what makes its loads in Python, as tasks and calls for several keys do: how such a load begins, ends and is shared. */
#include "native.h"

/* A load of this cache's own kind. */
static Load *own(Table *self, PyObject *given) {
    if ((PyObject *)Py_TYPE(given) == self->load_type) return (Load *)given;
    PyErr_SetString(PyExc_TypeError, "it takes a load");
    return NULL;
}

static PyObject *table_seek(Table *self, PyObject *args) {
    PyObject *key, *given, *task, *loop, *found, *pair;
    if (!PyArg_ParseTuple(args, "OOOO", &key, &given, &task, &loop) || !own(self, given)) return NULL;
    Load *mine = (Load *)given;
    if (!mine->use || mine->is_open || mine->task) return PyErr_Format(PyExc_ValueError, "the load was used");
    if (task != Py_None) {
        mine->task = PyWeakref_NewRef(task, NULL);
        mine->loop = loop;
        if (!mine->task) return NULL;
    }
    mine->is_below_loop = task == Py_None && loop == Py_None;
    int kind = seek(self, key, mine, &found);
    if (kind < 0) return NULL;
    if (kind == BESIDE) return PyTuple_Pack(2, Py_None, Py_False);
    pair = kind == RD_HIT ? PyTuple_Pack(2, found, Py_None) : PyTuple_Pack(2, Py_None, found);
    Py_DECREF(found);
    return pair;
}

/* Who makes the load from now on: a task, or this thread. */
static int set_maker(Load *load, PyObject *task, void *loop) {
    PyObject *before = load->task, *now = task == Py_None ? NULL : PyWeakref_NewRef(task, NULL);
    if (task != Py_None && !now) return -1;
    load->task = now;
    load->loop = loop;
    load->thread = PyThread_get_thread_ident();
    load->is_below_loop = task == Py_None && loop == Py_None;
    Py_XDECREF(before);
    return 0;
}

static PyObject *table_adopt(Table *self, PyObject *args) {
    PyObject *load, *task, *loop;
    if (!PyArg_ParseTuple(args, "OOO", &load, &task, &loop) || !own(self, load)) return NULL;
    if (set_maker((Load *)load, task, loop) < 0) return NULL;
    Py_RETURN_NONE;
}

static PyObject *table_land(Table *self, PyObject *args) {
    PyObject *load, *value, *ttl = NULL;
    static const char why[] = "the loaded value is a coroutine, which could be awaited once";
    if (!PyArg_ParseTuple(args, "OO|O", &load, &value, &ttl) || !own(self, load)) return NULL;
    if (refuse_coroutine(self, value, why) < 0) return NULL;
    int landed = land(self, (Load *)load, value, ttl);
    if (landed) return landed < 0 ? NULL : dropped(self, (Load *)load);
    Py_INCREF(value);
    return value;
}

/* Takes its arguments so that the call needs no memory, as what it does needs none. */
static PyObject *table_fail(Table *self, PyObject *const *args, Py_ssize_t count) {
    if (count != 2) return PyErr_Format(PyExc_TypeError, "the call is _fail(load, error)");
    return own(self, args[0]) ? truth_of(fail(self, (Load *)args[0], args[1])) : NULL;
}

/* The same for a list of loads. What on_leave raises is raised at the end. */
static PyObject *table_fail_all(Table *self, PyObject *const *args, Py_ssize_t count) {
    PyObject *type = NULL, *raised = NULL, *trace = NULL;
    if (count != 2 || !PyList_Check(args[0])) return PyErr_Format(PyExc_TypeError, "the call is _fail_all(loads, error)");
    for (Py_ssize_t i = 0; i < PyList_Size(args[0]); i++) {
        PyObject *load = PyList_GetItem(args[0], i);
        Py_INCREF(load);
        int failed = own(self, load) ? fail(self, (Load *)load, args[1]) : -1;
        Py_DECREF(load);
        if (failed >= 0) continue;
        if (type) PyErr_Clear();
        else PyErr_Fetch(&type, &raised, &trace);
    }
    if (!type) Py_RETURN_NONE;
    PyErr_Restore(type, raised, trace);
    return NULL;
}

static PyObject *table_wait(Table *self, PyObject *args) {
    PyObject *load, *timeout;
    if (!PyArg_ParseTuple(args, "OO", &load, &timeout) || !own(self, load)) return NULL;
    if (!((Load *)load)->graph) return PyErr_Format(PyExc_ValueError, "the load was never open");
    if (wait_for(self, (Load *)load, timeout) < 0) return NULL;
    Py_RETURN_NONE;
}

static PyObject *table_shared(Table *self, PyObject *given) {
    Load *load = own(self, given);
    PyObject *value = load ? shared(load) : NULL;
    if (!value && !PyErr_Occurred()) PyErr_SetString(PyExc_ValueError, "the load is to be asked for again");
    return value;
}

PyMethodDef python_load_methods[] = {
    {"_seek", METHOD(table_seek), METH_VARARGS,
     "Looks the key up, and joins a load or opens the given one, of this task or else of this thread, with the loop that runs in it:\n"
     "(value, None), or (None, the load); or (None, False) if the caller is to load beside the cache."},
    {"_adopt", METHOD(table_adopt), METH_VARARGS, "Says that a task, or else this thread, makes the load from now on."},
    {"_land", METHOD(table_land), METH_VARARGS, "Ends an open load with a value, which has a ttl or None, and returns that. Of a load that was given up it raises why, or returns the old\n"
     "value of a refresh."},
    {"_fail", METHOD(table_fail), METH_FASTCALL,
     "Ends a load, if it is open, with an exception. Returns whether the caller gets the old value."},
    {"_fail_all", METHOD(table_fail_all), METH_FASTCALL, "Ends each load of a list that is open with an exception."},
    {"_shared", METHOD(table_shared), METH_O, "Returns the value of another's load that has ended, or raises what it raised."},
    {"_wait", METHOD(table_wait), METH_VARARGS, "Waits in this thread until the load ends."},
    {NULL, NULL, 0, NULL},
};
