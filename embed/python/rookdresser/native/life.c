/* The life of a table: how it is opened, what gc sees of it, and its end. */
#include "native.h"

static const char *const SETTINGS[] = {"entries", "window", "flights", "bound", "after_write", "after_access", "refresh"};

PyObject *table_new(PyTypeObject *type, PyObject *args, PyObject *names) {
    (void)args, (void)names;
    Table *self = (Table *)PyType_GenericAlloc(type, 0);
    if (self) self->buckets = &self->one_bucket, self->caches = &self->one_cache, self->shards = 1;
    return (PyObject *)self;
}

/* The i-th of n parts of a number, which differ by one at most. */
static uint64_t share(uint64_t number, uint64_t i, uint64_t n) { return number / n + (i < number % n); }

/* The setup of the i-th of n shards. A window of 0 stands for a hundredth of the shard's entries. */
static rd_setup part_of(const rd_setup *all, uint64_t i, uint64_t n) {
    rd_setup part = *all;
    part.entries = (uint32_t)share(all->entries, i, n), part.bound = share(all->bound, i, n);
    part.window = all->window ? (uint32_t)share(all->window, i, n) : part.entries / 100;
    if (!part.window) part.window = 1;
    return part;
}

/* The setup of all shards together. _settings.py says which settings are refused, and names them. */
static int setup_of(PyObject *given, uint64_t shards, rd_setup *setup) {
    uint64_t number[7];
    for (int i = 0; i < 7; i++) {
        PyObject *setting = PyTuple_GetItem(given, i);
        Py_INCREF(setting);
        if (whole(setting, i < 3 ? 32 : 64, SETTINGS[i], &number[i]) < 0) return -1;
    }
    *setup = (rd_setup){(uint32_t)number[0], (uint32_t)number[1], (uint32_t)number[2], number[3], number[4], number[5], number[6]};
    rd_setup first = part_of(setup, 0, shards), last = part_of(setup, shards - 1, shards);
    if (!rd_check(&first) && !rd_check(&last)) return 0;
    PyErr_SetString(PyExc_ValueError, "a setting is out of its range");
    return -1;
}

static int take_seed(Table *self, PyObject *seed) {
    char *bytes;
    Py_ssize_t length;
    if (seed == Py_None) return 0;
    if (PyBytes_AsStringAndSize(seed, &bytes, &length) < 0) return -1;
    if (length != 24) {
        PyErr_SetString(PyExc_ValueError, "a seed has 24 bytes");
        return -1;
    }
    memcpy(self->seed, bytes, 16);
    memcpy(&self->mark, bytes + 16, 8);
    self->is_seeded = 1;
    return 0;
}

/* The memory of the buckets and of the caches, and of the advice if there is to be one. */
static int take_memory(Table *self, const rd_setup *setup, uint64_t shards, int is_advised) {
    uint64_t buckets = 8;
    while (buckets < setup->entries + setup->flights * shards && buckets < UINT64_C(1) << 40) buckets *= 2;
    Use **all = zeroed(buckets * sizeof *all);
    rd_cache *caches = shards > 1 ? zeroed(shards * sizeof *caches) : &self->one_cache;
    Advice *advice = is_advised ? zeroed(sizeof *advice + shards * sizeof *advice->windows) : NULL;
    if (!all || !caches || (is_advised && !advice)) {
        PyMem_Free(advice);
        PyMem_Free(all);
        if (shards > 1) PyMem_Free(caches);
        return -1;
    }
    self->buckets = all, self->mask = buckets - 1, self->caches = caches, self->shards = shards, self->advice = advice;
    return 0;
}

/* Opens the adviser for so many entries, unless there are none, and the shards. Returns a fault, and then nothing is open; or 0. */
static uint64_t open_all(Table *self, const rd_setup *setup, uint32_t advised) {
    uint64_t fault = advised ? open_adviser(self, advised) : 0;
    for (uint64_t i = 0; i < self->shards && !fault; i++) {
        rd_setup part = part_of(setup, i, self->shards);
        if (advised) self->advice->windows[i] = part.window = share_of(self->advice, i);
        fault = rd_open(&part, &self->caches[i]);
        self->windows += part.window;
    }
    for (uint64_t i = 0; fault && i <= self->shards; i++) close_one(self, i);
    return fault;
}

static PyObject *given_or_null(PyObject *given) {
    if (given == Py_None) return NULL;
    Py_INCREF(given);
    return given;
}

static PyObject *opened_once(void) { return PyErr_Format(PyExc_ValueError, "a cache is opened once, by Cache(..)"); }

static PyObject *table_open(Table *self, PyObject *args) {
    PyObject *given, *of_shards, *seed, *weigh, *clock, *on_leave, *pauses, *log, *plain, *prime, *load_type, *refusal, *timedelta, *waits, *timed_out, *abandoned;
    int hash_is_secret, refuses, hands_on;
    unsigned long long load_timeout;
    unsigned int advised;
    uint64_t shards, fault;
    rd_setup setup;
    if (!PyArg_ParseTuple(args, "O!OIOppKOOOOOOO!O!OO!OOOp", &PyTuple_Type, &given, &of_shards, &advised, &seed, &hash_is_secret, &refuses, &load_timeout,
                          &weigh, &clock, &on_leave, &pauses, &log, &plain, &PyLong_Type, &prime, &PyType_Type, &load_type, &refusal,
                          &PyType_Type, &timedelta, &waits, &timed_out, &abandoned,
                          &hands_on))
        return NULL;
    if (PyTuple_Size(given) != 7 || PyType_GetSlot((PyTypeObject *)load_type, Py_tp_new) != (void *)load_new
        || !is_of(waits, Py_tp_methods, waits_methods))
        return opened_once();
    Py_INCREF(of_shards);
    if (whole(of_shards, 32, "shards", &shards) < 0) return NULL;
    if (shards < 1 || shards > 4096) return PyErr_Format(PyExc_ValueError, "there are 1 to 4,096 shards");
    if (setup_of(given, shards, &setup) < 0) return NULL;
    /* Only now, as a setting's __index__ may have opened the cache. */
    if (self->load_type) return opened_once();
    if (take_seed(self, seed) < 0) return NULL;
    if (take_memory(self, &setup, shards, advised != 0) < 0) return raise_fault(refusal, RD_OUT_OF_MEMORY), NULL;
    self->hash_is_secret = (char)hash_is_secret;
    self->refuses_at_limit = (char)refuses;
    self->load_timeout = load_timeout;
    self->hands_on = (char)hands_on;
    self->timed_out = given_or_null(timed_out), self->abandoned = given_or_null(abandoned);
    self->room = share(setup.entries, 0, shards);
    self->load_type = given_or_null(load_type), self->refusal = given_or_null(refusal), self->waits = (Waits *)given_or_null(waits);
    self->log = given_or_null(log), self->plain = given_or_null(plain), self->prime = given_or_null(prime);
    self->timedelta = given_or_null(timedelta);
    self->weigh = given_or_null(weigh), self->clock = given_or_null(clock), self->on_leave = given_or_null(on_leave);
    self->pause = given_or_null(pauses);
    if ((fault = open_all(self, &setup, advised))) return refuse(self, fault), NULL;
    Py_RETURN_NONE;
}

static int table_traverse(Table *self, visitproc visit, void *arg) {
    Py_VISIT(Py_TYPE(self));
    Py_VISIT(self->weigh);
    Py_VISIT(self->clock);
    Py_VISIT(self->on_leave);
    Py_VISIT(self->pause);
    Py_VISIT(self->log);
    Py_VISIT(self->plain);
    Py_VISIT(self->load_type);
    Py_VISIT(self->timedelta);
    Py_VISIT(self->timed_out);
    Py_VISIT(self->abandoned);
    Py_VISIT(self->refusal);
    Py_VISIT((PyObject *)self->waits);
    Py_VISIT((PyObject *)self->spare);
    for (uint64_t i = 0; i <= self->mask; i++)
        for (Use *use = self->buckets[i]; use; use = use->next) {
            Py_VISIT(use->key);
            Py_VISIT(use->value);
            Py_VISIT((PyObject *)use->load);
        }
    return 0;
}

/* What is there is reported to nobody. A finalizer may still call a table that gc has cleared, and is refused. Other threads may run
 * between two slices. */
static int table_clear(Table *self) {
    PyObject *on_leave = self->on_leave;
    Load *spare = self->spare;
    self->on_leave = NULL, self->spare = NULL;
    for (uint64_t i = 0; i <= self->shards; i++) {
        close_one(self, i);
        if (self->room > SLICE) rest();
    }
    for (uint64_t at = 0, slices = 1; at <= self->mask; slices++) {
        free_uses(take_slice(self, &at, 1));
        if (slices % 4 == 0) rest();
    }
    Py_XDECREF((PyObject *)spare);
    Py_XDECREF(on_leave);
    Py_CLEAR(self->weigh);
    Py_CLEAR(self->clock);
    Py_CLEAR(self->pause);
    return 0;
}

/* Of calls of threads that a forked child hasn't. */
static void free_swept(Table *self) {
    while (self->swept) {
        Swept *next = self->swept->next;
        PyMem_Free(self->swept);
        self->swept = next;
    }
}

static void table_dealloc(Table *self) {
    PyTypeObject *type = Py_TYPE(self);
    PyObject_GC_UnTrack(self);
    table_clear(self);
    Py_XDECREF((PyObject *)self->spare); /* a finalizer may have left one */
    Py_CLEAR(self->log);
    Py_CLEAR(self->plain);
    Py_CLEAR(self->prime);
    Py_CLEAR(self->load_type);
    Py_CLEAR(self->timedelta);
    Py_CLEAR(self->timed_out);
    Py_CLEAR(self->abandoned);
    Py_CLEAR(self->refusal);
    Py_XDECREF((PyObject *)self->waits);
    if (self->buckets != &self->one_bucket) PyMem_Free(self->buckets);
    if (self->caches != &self->one_cache) PyMem_Free(self->caches);
    PyMem_Free(self->advice);
    free_swept(self);
    ((freefunc)PyType_GetSlot(type, Py_tp_free))(self);
    Py_DECREF(type);
}

/* Table[K, V], as an annotation or a base. */
static PyObject *itself(PyObject *type, PyObject *of) {
    (void)of;
    Py_INCREF(type);
    return type;
}

static PyMethodDef life_methods[] = {
    {"_open", METHOD(table_open), METH_VARARGS, "Opens the cache, once."},
    {"__class_getitem__", itself, METH_O | METH_CLASS, "Returns the class, for annotations."},
    {NULL, NULL, 0, NULL},
};

/* All methods, in one list: module.c joins them before it makes the type. */
static PyMethodDef all_methods[60];

static PyType_Slot table_slots[] = {
    {Py_tp_doc, "What a cache keeps, and its calls."},
    {Py_tp_new, (void *)table_new},
    {Py_tp_dealloc, (void *)table_dealloc},
    {Py_tp_traverse, (void *)table_traverse},
    {Py_tp_clear, (void *)table_clear},
    {Py_tp_methods, all_methods},
    {Py_sq_contains, (void *)table_contains},
    {Py_mp_length, (void *)table_length},
    {Py_mp_subscript, (void *)table_item},
    {Py_mp_ass_subscript, (void *)table_set_item},
    {0, NULL},
};

PyType_Spec table_spec = {"rookdresser._native.Table", sizeof(Table), 0, BASE_WITH_GC, table_slots};

void join_methods(void) {
    PyMethodDef *const parts[] = {call_methods, given_up_methods, open_load_methods, sweep_methods, python_load_methods, held_methods, life_methods}, *to = all_methods;
    for (size_t i = 0; i < sizeof parts / sizeof *parts; i++)
        for (PyMethodDef *from = parts[i]; from->ml_name; from++) *to++ = *from;
    *to = (PyMethodDef){NULL, NULL, 0, NULL};
}
