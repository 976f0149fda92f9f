/* What one asks of the loads: which are open, since when, and how long loads took. */
#include "native.h"

/* In milliseconds: a load counts in the first bucket whose bound it doesn't exceed, or behind the last one. */
static const uint64_t BOUNDS[TIMES - 1] = {1, 5, 10, 50, 100, 500, 1000, 5000, 10000, 30000, 60000};

void count_time(Table *self, uint64_t nanoseconds) {
    int i = 0;
    while (i < TIMES - 1 && nanoseconds > BOUNDS[i] * 1000000) i++;
    self->times[i]++;
}

/* (bound in milliseconds or None, how many loads took at most so long), of each bucket. */
static PyObject *table_times(Table *self, PyObject *none) {
    (void)none;
    uint64_t times[TIMES], sum = 0;
    STEP
    for (int i = 0; i < TIMES; i++) times[i] = self->times[i];
    END_STEP
    PyObject *all = PyList_New(0);
    for (int i = 0; all && i < TIMES; i++) {
        sum += times[i];
        PyObject *one = i < TIMES - 1 ? Py_BuildValue("KK", BOUNDS[i], sum) : Py_BuildValue("OK", Py_None, sum);
        if (!one || PyList_Append(all, one) < 0) Py_CLEAR(all);
        Py_XDECREF(one);
    }
    return all;
}

/* A copy of an open load, with references. */
typedef struct {
    PyObject *key, *task;
    long long begun;
    unsigned long thread;
    Py_ssize_t waits;
    int is_refresh;
} Row;

/* Copies the open loads, the oldest first, as many as there is room for. Returns how many there are. */
static Py_ssize_t copy_loads(Table *self, Row *rows, Py_ssize_t room) {
    Py_ssize_t count = 0;
    STEP
    for (Load *load = self->oldest; load; load = load->newer, count++) {
        if (count >= room) continue;
        Row *row = &rows[count];
        *row = (Row){load->use->key, load->task, load->begun, load->thread, 0, load->is_refresh};
        for (Wait *wait = load->waits; wait; wait = wait->next) row->waits++;
        Py_INCREF(row->key);
        Py_XINCREF(row->task);
    }
    END_STEP
    return count;
}

/* (key, age in nanoseconds, how many wait, thread, weak reference to the task or None, is_refresh) */
static PyObject *table_open_loads(Table *self, PyObject *none) {
    (void)none;
    Py_ssize_t room = copy_loads(self, NULL, 0);
    Row *rows = zeroed(((size_t)room + 1) * sizeof *rows);
    if (!rows) return no_memory(self), NULL;
    Py_ssize_t count = copy_loads(self, rows, room);
    long long now = nanoseconds();
    PyObject *all = PyList_New(0);
    for (Py_ssize_t i = 0; i < count && i < room; i++) {
        Row *row = &rows[i];
        PyObject *task = row->task ? row->task : Py_None;
        PyObject *one = all ? Py_BuildValue("OLnkOi", row->key, now - row->begun, row->waits, row->thread, task, row->is_refresh) : NULL;
        if (all && (!one || PyList_Append(all, one) < 0)) Py_CLEAR(all);
        Py_XDECREF(one);
        Py_DECREF(row->key);
        Py_XDECREF(row->task);
    }
    PyMem_Free(rows);
    return all;
}

static PyObject *table_oldest_load(Table *self, PyObject *none) {
    (void)none;
    long long begun = 0;
    STEP
    if (self->oldest) begun = self->oldest->begun;
    END_STEP
    return PyFloat_FromDouble(begun ? (double)(nanoseconds() - begun) / 1e9 : 0);
}

PyMethodDef open_load_methods[] = {
    {"oldest_load", METHOD(table_oldest_load), METH_NOARGS,
     "oldest_load($self)\n--\n\n"
     "Returns for how many seconds the oldest open load has been open; 0.0 if none is. O(1).\n\n"
     ">>> cache.oldest_load()\n"
     "0.0"},
    {"_open_loads", METHOD(table_open_loads), METH_NOARGS, "The open loads, the oldest first."},
    {"_times", METHOD(table_times), METH_NOARGS, "How many loads took at most so long."},
    {NULL, NULL, 0, NULL},
};
