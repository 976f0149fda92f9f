/* What a table holds, and what it has counted. */
#include "native.h"

Py_ssize_t table_length(Table *self) {
    Py_ssize_t entries;
    int is_open;
    STEP
    entries = self->entries - self->swept_entries, is_open = self->caches->is_open;
    END_STEP
    if (!is_open) refuse(self, RD_CLOSED);
    return is_open ? entries : -1;
}

static PyObject *tuple_of(const uint64_t *numbers, Py_ssize_t count) {
    PyObject *all = PyTuple_New(count);
    for (Py_ssize_t i = 0; all && i < count; i++) {
        PyObject *number = PyLong_FromUnsignedLongLong(numbers[i]);
        if (!number || PyTuple_SetItem(all, i, number) < 0) Py_CLEAR(all);
    }
    return all;
}

/* Adds one shard's numbers; the latest moment is the latest of any. */
static void add_numbers(rd_numbers *sum, const rd_numbers *of) {
    uint64_t latest = sum->latest > of->latest ? sum->latest : of->latest, *to = &sum->lookups;
    for (int i = 0; i < NUMBERS; i++) to[i] += (&of->lookups)[i];
    sum->latest = latest;
}

static PyObject *table_numbers(Table *self, PyObject *none) {
    (void)none;
    rd_numbers sum = {0}, numbers;
    uint64_t fault = 0;
    STEP
    for (uint64_t i = 0; i < self->shards && !fault; i++) {
        fault = rd_get_numbers(&self->caches[i], &numbers);
        if (!fault) add_numbers(&sum, &numbers);
    }
    END_STEP
    if (fault) return refuse(self, fault), NULL;
    return tuple_of(&sum.lookups, NUMBERS);
}

static PyObject *table_window(Table *self, PyObject *none) {
    (void)none;
    uint64_t window;
    int is_open;
    STEP
    window = windows_of(self), is_open = self->caches->is_open;
    END_STEP
    if (!is_open) return refuse(self, RD_CLOSED), NULL;
    return PyLong_FromUnsignedLongLong(window);
}

static PyObject *table_counts(Table *self, PyObject *none) {
    (void)none;
    Counts counts;
    STEP
    counts = self->counts;
    END_STEP
    return tuple_of(&counts.hits, sizeof counts / sizeof(uint64_t));
}

static PyObject *table_refused(Table *self, PyObject *none) {
    (void)none;
    PyObject *all = PyDict_New();
    for (int i = 0; all && i < FAULTS; i++) {
        if (!self->refused[i]) continue;
        PyObject *fault = PyLong_FromLong(i < 8 ? i : 92 + i), *count = PyLong_FromUnsignedLongLong(self->refused[i]);
        if (!fault || !count || PyDict_SetItem(all, fault, count) < 0) Py_CLEAR(all);
        Py_XDECREF(fault);
        Py_XDECREF(count);
    }
    return all;
}

static PyObject *table_kept(Table *self, PyObject *none) {
    (void)none;
    Py_ssize_t entries, loads;
    STEP
    entries = self->entries, loads = self->loads;
    END_STEP
    return Py_BuildValue("nn", entries, entries + loads);
}

static int has_expired(Table *self, const Use *use, uint64_t now) {
    rd_answer answer;
    if (rd_peek(shard_of(self, use->number), use->number, now, &answer) || answer.kind != RD_HIT) return 1;
    return answer.token != (uintptr_t)use; /* it has left, and the key was stored again */
}

/* Copies of uses, with references to what each has. */
typedef struct {
    Use *uses;
    Py_ssize_t count, room;
    uint64_t from, end; /* of which buckets */
} Copies;

/* Copies the next uses; with a moment, the entries alone that haven't expired by then. Returns for how many there has to be room: if there is
 * less, nothing is copied. */
static Py_ssize_t copy_slice(Table *self, const uint64_t *now, Copies *to) {
    Py_ssize_t wanted = 0;
    to->count = 0;
    STEP
    for (to->end = to->from; to->end <= self->mask && to->end < to->from + SLICE_BUCKETS && wanted <= SLICE; to->end++)
        for (Use *use = self->buckets[to->end]; use; use = use->next) wanted++;
    for (uint64_t i = to->from; wanted <= to->room && i < to->end; i++)
        for (Use *use = self->buckets[i]; use; use = use->next) {
            if (now && (use->load || has_expired(self, use, *now))) continue;
            to->uses[to->count++] = *use;
            Py_INCREF(use->key);
            Py_XINCREF(use->value);
            Py_XINCREF((PyObject *)use->load);
        }
    END_STEP
    return wanted;
}

/* The same with as much room as there has to be: 0, or -1 if memory is refused. */
static int copied(Table *self, const uint64_t *now, Copies *to) {
    Py_ssize_t wanted;
    while ((wanted = copy_slice(self, now, to)) > to->room) {
        PyMem_Free(to->uses);
        to->room = wanted + wanted / 4;
        to->uses = PyMem_Malloc((size_t)to->room * sizeof(Use));
        if (!to->uses) return to->room = 0, no_memory(self);
    }
    to->from = to->end;
    return 0;
}

static PyObject *key_of(const Use *use) {
    Py_INCREF(use->key);
    return use->key;
}

static PyObject *item_of(const Use *use) { return PyTuple_Pack(2, use->key, use->value); }

static PyObject *row_of(const Use *use) {
    PyObject *load = use->load ? (PyObject *)use->load : Py_None;
    return Py_BuildValue("KKO", use->hash, use->number, load);
}

/* Appends what `of` makes of each copy to the list, and gives the copies' references up: 0, or -1. */
static int append(PyObject *list, PyObject *of(const Use *use), Copies *copies) {
    for (Py_ssize_t i = 0; i < copies->count; i++) {
        Use *use = &copies->uses[i];
        PyObject *one = list ? of(use) : NULL;
        if (!one || PyList_Append(list, one) < 0) list = NULL;
        Py_XDECREF(one);
        Py_DECREF(use->key);
        Py_XDECREF(use->value);
        Py_XDECREF((PyObject *)use->load);
    }
    return list && !PyErr_Occurred() ? 0 : -1;
}

/* A list of what `of` makes of each use; or with a moment, of each entry that hasn't expired by then, in a list for each slice. Other threads
 * may run between two slices. */
static PyObject *lists_of(Table *self, const uint64_t *now, PyObject *of(const Use *use)) {
    Copies copies = {NULL, 0, 0, 0, 0};
    PyObject *lists = PyList_New(0);
    while (lists && copies.from <= self->mask) {
        if ((copies.from && make_way(self) < 0) || copied(self, now, &copies) < 0) {
            Py_CLEAR(lists);
            break;
        }
        PyObject *list = now ? PyList_New(0) : lists;
        if (append(list, of, &copies) < 0 || (now && PyList_Append(lists, list) < 0)) Py_CLEAR(lists);
        if (now) Py_XDECREF(list);
    }
    PyMem_Free(copies.uses);
    return lists;
}

static PyObject *table_uses(Table *self, PyObject *none) { return (void)none, lists_of(self, NULL, row_of); }

/* The same of the entries now, unless the cache is closed before the end. */
static PyObject *lists_of_entries(Table *self, PyObject *of(const Use *use)) {
    uint64_t now;
    if (now_of(self, &now) < 0) return NULL;
    PyObject *lists = self->caches->is_open ? lists_of(self, &now, of) : NULL;
    if (PyErr_Occurred() || self->caches->is_open) return lists;
    Py_XDECREF(lists);
    return refuse(self, RD_CLOSED), NULL;
}

static PyObject *table_keys(Table *self, PyObject *none) { return (void)none, lists_of_entries(self, key_of); }
static PyObject *table_pairs(Table *self, PyObject *none) { return (void)none, lists_of_entries(self, item_of); }

PyMethodDef held_methods[] = {
    {"kept", METHOD(table_kept), METH_NOARGS,
     "kept($self)\n--\n\n"
     "Returns how many values this side keeps, and how many keys, of entries and open loads.\n\n"
     ">>> cache.put(\"a\", 1)\n"
     ">>> cache.kept()\n"
     "(1, 1)"},
    {"refused", METHOD(table_refused), METH_NOARGS,
     "refused($self)\n--\n\n"
     "Returns how many calls were refused, by the fault's number.\n\n"
     ">>> cache = Cache(entries=10, bound=5, weigh=lambda key, value: value)\n"
     ">>> try:\n"
     "...     cache.put(\"a\", 6)\n"
     "... except Refused as refused:\n"
     "...     print(refused, refused.fault, cache.refused())\n"
     "the value is heavier than the bound 3 {3: 1}"},
    {"window", METHOD(table_window), METH_NOARGS,
     "window($self)\n--\n\n"
     "Returns how many entries the windows may hold now, of all shards together.\n\n"
     "If the window follows the look-ups (`adaptive`), the number changes by up to four at each look, get or put; it begins at 10\n"
     "hundredths of the entries. Else it is what each shard was opened with. Raises Refused of a closed cache.\n\n"
     ">>> Cache(entries=1000).window(), Cache(entries=1000, adaptive=False).window()\n"
     "(100, 10)"},
    {"_numbers", METHOD(table_numbers), METH_NOARGS, "The numbers of the library, of all shards together."},
    {"_counts", METHOD(table_counts), METH_NOARGS, "What this side counted, in the order of Stats."},
    {"_keys", METHOD(table_keys), METH_NOARGS, "The key of each entry that hasn't expired, in lists."},
    {"_pairs", METHOD(table_pairs), METH_NOARGS, "(key, value) of each entry that hasn't expired, in lists."},
    {"_uses", METHOD(table_uses), METH_NOARGS, "(hash, number, load or None) of each key of an entry or an open load."},
    {NULL, NULL, 0, NULL},
};
