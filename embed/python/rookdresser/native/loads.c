/* How a load begins and ends: the seek that opens it, its landing, its failure, and the get that makes it. */
#include "native.h"

/* Makes this caller's load the one that the seek has opened. */
static void open_load(Table *self, Load *load, PyObject *key, uint64_t hash, uint64_t number, uint64_t now, uint64_t id, Use *entry) {
    load->table = self, load->id = id, load->now = now, load->graph = self->waits;
    load->is_open = 1, load->is_refresh = entry != NULL;
    load->begun = nanoseconds(), load->thread = PyThread_get_thread_ident();
    load->old = entry ? entry->value : NULL;
    Py_XINCREF(load->old);
    Py_INCREF((PyObject *)load->graph);
    load->use->key = key, load->use->load = load;
    Py_INCREF(key);
    Py_INCREF((PyObject *)load);
    link_use(self, load->use, hash, number);
    link_load(self, load);
    self->counts.refreshes += entry != NULL;
}

/* What a seek returns that the library has refused: -1; or BESIDE if as many loads as may be are open. Such a miss is looked up, so that it
 * counts as any other. */
static SELDOM int seek_refused(Table *self, uint64_t fault, uint64_t number, uint64_t now, PyObject **found) {
    rd_answer answer;
    Use *left = NULL;
    if (fault != RD_TOO_MANY_FLIGHTS || self->refuses_at_limit) return refuse(self, fault), -1;
    *found = NULL;
    STEP
    rd_cache *cache = shard_of(self, number);
    if (!(fault = rd_look(cache, number, now, &answer))) {
        self->counts.misses++;
        self->counts.beside++;
        if (self->advice) note(self, number);
        take_left(self, cache, &answer, NULL, &left);
    }
    END_STEP
    if (fault) return refuse(self, fault), -1;
    return tell(self, left) < 0 ? -1 : BESIDE;
}

/* Looks the key up, and joins or opens a load. Returns RD_HIT, RD_JOIN or RD_LEAD; or BESIDE; or -1 with an exception. `found` is the value,
 * or the load, or null; of RD_LEAD it is `mine`, or else the table's spare one. */
int seek(Table *self, PyObject *key, Load *mine, PyObject **found) {
    uint64_t now, hash, number, fault = 0;
    rd_answer answer;
    Use *left = NULL;
    int kind = -1;
    if (now_of(self, &now) < 0 || hash_of(self, key, &hash) < 0) return -1;
    if (self->load_timeout && give_up_overdue(self, now) < 0) return -1;
    Load *load = mine;
    Py_XINCREF((PyObject *)mine);
    STEP
    if (!load) load = self->spare, self->spare = NULL;
    END_STEP
    if (!load && !self->load_type) refuse(self, RD_CLOSED);
    else if (!load) load = (Load *)PyObject_CallObject(self->load_type, NULL);
    if (!load) return PyErr_ExceptionMatches(PyExc_MemoryError) ? no_memory(self) : -1;
    STEP
    int is_found = find(self, key, hash, &number);
    rd_cache *cache = shard_of(self, number);
    if (is_found == 0 && self->advice) follow(self, cache, now);
    if (is_found == 0 && !(fault = rd_seek(cache, number, now, &answer))) {
        kind = (int)answer.kind;
        if (self->advice) note(self, number);
        Use *entry = kind == RD_HIT || kind == RD_HIT_LEAD ? (Use *)(uintptr_t)answer.token : NULL;
        *(entry ? &self->counts.hits : &self->counts.misses) += 1;
        if (kind == RD_HIT)
            *found = entry->value;
        else if (kind == RD_JOIN) {
            *found = (PyObject *)load_of(self, number, answer.number);
            self->counts.joins++;
        } else {
            open_load(self, load, key, hash, number, now, answer.number, entry);
            *found = (PyObject *)load;
            kind = RD_LEAD;
        }
        Py_INCREF(*found);
        if (answer.notices) take_left(self, cache, &answer, NULL, kind == RD_LEAD ? &load->left : &left);
    }
    if (!mine && !load->is_open && !self->spare) self->spare = load, load = NULL;
    END_STEP
    Py_XDECREF((PyObject *)load);
    if (fault) return seek_refused(self, fault, number, now, found);
    if (kind >= 0 && left && tell(self, left) < 0) {
        Py_DECREF(*found);
        return -1;
    }
    return kind;
}

/* The use of a load that ends. The reference to the load is the caller's from now on. */
static Use *end_load(Table *self, Load *load) {
    Use *use = load->use;
    unlink_use(self, use);
    unlink_load(self, load);
    use->load = NULL, load->use = NULL, load->is_open = 0, load->is_over = 1;
    uint64_t took = (uint64_t)(nanoseconds() - load->begun);
    self->counts.load_ns += took;
    count_time(self, took);
    return use;
}

/* Wakes all who wait for a load that has ended, reports what left, and gives up the table's reference to it. */
static int told_of(Table *self, Load *load, Use *left) {
    PyObject *type, *raised, *trace;
    int rang = ring(load);
    PyErr_Fetch(&type, &raised, &trace);
    int told = tell(self, left);
    if (rang < 0) PyErr_Restore(type, raised, trace); /* in place of what on_leave raised */
    Py_DECREF(load);
    return rang < 0 || told < 0 ? -1 : 0;
}

/* Ends the load without a value, if it is open. Returns 1 if it was a refresh, whose caller gets the old value, also if it was given up
 * before; else 0; -1 if on_leave or an interrupt raised. */
int fail(Table *self, Load *load, PyObject *error) {
    Use *use = NULL, *left = NULL;
    PyObject *trace = PyExceptionInstance_Check(error) ? PyException_GetTraceback(error) : NULL;
    STEP
    if (load->is_open && load->table == self) {
        rd_answer answer;
        uint64_t number = load->use->number;
        rd_cache *cache = shard_of(self, number);
        use = end_load(self, load);
        left = load->left, load->left = NULL;
        Py_INCREF(error);
        load->error = error, load->trace = trace, trace = NULL;
        self->counts.failed++;
        if (!rd_land_failed(cache, load->id, number, load->now, &answer)) take_left(self, cache, &answer, NULL, &left);
    }
    END_STEP
    Py_XDECREF(trace);
    if (!use) return load->is_given_up && load->is_refresh && PyErr_GivenExceptionMatches(error, PyExc_Exception);
    int is_old = load->is_refresh && PyErr_GivenExceptionMatches(error, PyExc_Exception);
    free_uses(use);
    return told_of(self, load, left) < 0 ? -1 : is_old;
}

/* Ends the load with a value, which is stored if it may be: 0; 1 if the load was given up before. -1 with an exception: of weigh or ttl, and
 * the load is open; or else of on_leave. */
int land(Table *self, Load *load, PyObject *value, PyObject *ttl) {
    Use *use = NULL, *stored = NULL, *left = NULL;
    PyObject *key = NULL, *own = NULL;
    uint64_t weight = 0;
    uint32_t life = 0;
    int has_ended = 0;
    STEP
    if (load->is_open && load->table == self) key = load->use->key;
    Py_XINCREF(key);
    END_STEP
    if (!key) return load->is_given_up; /* it has ended already */
    int asked = weight_of(self, key, value, &weight);
    if (asked == 0 && ttl) asked = life_of(self, ttl, key, value, &life);
    Py_DECREF(key);
    if (asked < 0) return -1;
    STEP
    if (load->is_open) {
        rd_answer answer;
        rd_notice first;
        uint64_t hash = load->use->hash, number = load->use->number;
        rd_cache *cache = shard_of(self, number);
        rd_token token = {(uintptr_t)load->use, (uint32_t)weight};
        if (self->advice) follow(self, cache, load->now);
        uint64_t fault = rd_land_for(cache, load->id, number, token, life, load->now, &answer, &first);
        use = end_load(self, load);
        left = load->left, load->left = NULL;
        Py_INCREF(value);
        load->value = value;
        has_ended = 1;
        self->counts.loads++;
        if (!fault && answer.kind == RD_KEPT) {
            /* The use that was the load's is the entry's from now on. */
            Py_INCREF(value);
            use->value = value;
            link_use(self, use, hash, number);
            stored = use, use = NULL;
        } else
            self->counts.loose++;
        const rd_notice *told = fault ? NULL : &first;
        if (fault) fault = rd_land_loose(cache, load->id, number, load->now, &answer);
        if (!fault) take_left(self, cache, &answer, told, &left);
        if (stored) own = keep_first_key(stored, left);
    }
    END_STEP
    Py_XDECREF(own);
    free_uses(use);
    return has_ended ? told_of(self, load, left) : load->is_given_up;
}

/* Ends this caller's load with the exception that is raised. Returns what the caller then returns. */
PyObject *failed(Table *self, Load *load) {
    PyObject *type, *error, *trace;
    PyErr_Fetch(&type, &error, &trace);
    PyErr_NormalizeException(&type, &error, &trace);
    if (trace) PyException_SetTraceback(error, trace);
    int is_old = fail(self, load, error);
    if (is_old == 0) {
        PyErr_Restore(type, error, trace);
        return NULL;
    }
    Py_XDECREF(type);
    Py_XDECREF(error);
    Py_XDECREF(trace);
    if (is_old > 0) Py_INCREF(load->old);
    return is_old > 0 ? load->old : NULL;
}

static PyObject *loaded(PyObject *key, const Loader *loader) {
    return loader->args ? PyObject_Call(loader->function, loader->args, loader->names)
                        : PyObject_CallFunctionObjArgs(loader->function, key, NULL);
}

static int not_callable(void) {
    PyErr_SetString(PyExc_TypeError, "load has to be callable; for a default call get(key, default)");
    return -1;
}

/* What the loader returns, which may be no coroutine. */
static PyObject *loaded_once(Table *self, PyObject *key, const Loader *loader) {
    const char *why = loader->args ? "the function returned a coroutine, and isn't an async function" : "load returned a coroutine: use aget_or_load";
    PyObject *value = loaded(key, loader);
    if (value && refuse_coroutine(self, value, why) < 0) Py_CLEAR(value);
    return value;
}

static PyObject *made(Table *self, PyObject *key, Load *load, const Loader *loader) {
    if (!PyCallable_Check(loader->function)) {
        if (forsake(self, load, "its caller had nothing to call") == 0) not_callable();
        return NULL;
    }
    PyObject *loop = PyObject_CallMethod((PyObject *)self->waits, "running_loop", NULL);
    load->is_below_loop = loop == Py_None;
    PyObject *value = loop ? loaded_once(self, key, loader) : NULL;
    Py_XDECREF(loop);
    int landed = value ? land(self, load, value, loader->ttl) : -1;
    if (landed == 0) return value;
    Py_XDECREF(value);
    return landed < 0 ? failed(self, load) : dropped(self, load);
}

/* Of a load that nobody shares, and whose value isn't stored. */
static SELDOM PyObject *made_beside(Table *self, PyObject *key, const Loader *loader) {
    return PyCallable_Check(loader->function) || not_callable() == 0 ? loaded_once(self, key, loader) : NULL;
}

/* The old value of an entry that is due, if another thread is to make the load; else the load is made here. */
static SELDOM PyObject *handed_on(Table *self, PyObject *key, Load *load, const Loader *loader) {
    PyObject *args = loader->args ? loader->args : Py_None, *names = loader->names ? loader->names : Py_None;
    const unsigned long thread = load->thread;
    load->thread = 0; /* until the other one begins */
    PyObject *is_taken = PyObject_CallMethod((PyObject *)self, "_hand_on", "OOOOOO", (PyObject *)load, key, loader->function, args, names,
                                             loader->ttl ? loader->ttl : Py_None);
    int taken = is_taken ? PyObject_IsTrue(is_taken) : -1;
    Py_XDECREF(is_taken);
    if (taken < 0) return failed(self, load);
    if (taken) {
        Py_INCREF(load->old);
        return load->old;
    }
    load->thread = thread;
    return made(self, key, load, loader);
}

/* The value of another's load that has ended, or null with its exception; null with none if the caller is to ask again.
 *
 * All who share the load raise one exception. It begins anew with the load's own traceback, and gets no context from what its caller is
 * handling, so that it gathers nothing of those who share it. */
PyObject *shared(Load *load) {
    PyObject *error = load->error, *value = error ? NULL : load->value;
    Py_XINCREF(value);
    /* What told the thread that loaded to end, as SystemExit, isn't for this one. */
    if (!error || !PyErr_GivenExceptionMatches(error, PyExc_Exception)) return value;
    PyObject *type = (PyObject *)Py_TYPE(error);
    Py_INCREF(type);
    Py_INCREF(error);
    Py_XINCREF(load->trace);
    PyErr_Restore(type, error, load->trace);
    return NULL;
}

PyObject *get(Table *self, PyObject *key, const Loader *loader, PyObject *timeout) {
    for (;;) {
        PyObject *found, *value = NULL;
        int kind = seek(self, key, NULL, &found);
        if (kind < 0) return NULL;
        if (kind == RD_HIT) return found;
        if (kind == BESIDE) return made_beside(self, key, loader);
        if (kind == RD_LEAD && self->hands_on && ((Load *)found)->is_refresh) value = handed_on(self, key, (Load *)found, loader);
        else if (kind == RD_LEAD) value = made(self, key, (Load *)found, loader);
        else if (wait_for(self, (Load *)found, timeout) == 0) value = shared((Load *)found);
        Py_DECREF(found);
        if (value || PyErr_Occurred()) return value;
    }
}

/* The type. */

PyObject *load_new(PyTypeObject *type, PyObject *args, PyObject *names) {
    (void)args, (void)names;
    Load *self = (Load *)PyType_GenericAlloc(type, 0);
    if (!self) return NULL;
    self->use = zeroed(sizeof(Use));
    if (self->use) return (PyObject *)self;
    Py_DECREF(self);
    return PyErr_NoMemory();
}

static int load_traverse(Load *self, visitproc visit, void *arg) {
    Py_VISIT(Py_TYPE(self));
    Py_VISIT(self->task);
    Py_VISIT(self->old);
    Py_VISIT(self->value);
    Py_VISIT(self->error);
    Py_VISIT(self->trace);
    for (Use *use = self->left; use; use = use->next) {
        Py_VISIT(use->key);
        Py_VISIT(use->value);
    }
    return 0;
}

static int load_clear(Load *self) {
    Use *left = self->left;
    self->left = NULL;
    free_uses(left);
    Py_CLEAR(self->task);
    Py_CLEAR(self->old);
    Py_CLEAR(self->value);
    Py_CLEAR(self->error);
    Py_CLEAR(self->trace);
    return 0;
}

static void load_dealloc(Load *self) {
    PyTypeObject *type = Py_TYPE(self);
    PyObject_GC_UnTrack(self);
    load_clear(self);
    Py_XDECREF((PyObject *)self->graph);
    if (!self->is_open) PyMem_Free(self->use);
    ((freefunc)PyType_GetSlot(type, Py_tp_free))(self);
    Py_DECREF(type);
}

static PyObject *field(PyObject *value) {
    PyObject *given = value ? value : Py_None;
    Py_INCREF(given);
    return given;
}

static PyObject *get_task(Load *self, void *none) { return (void)none, field(self->task); }
static PyObject *get_old(Load *self, void *none) { return (void)none, field(self->old); }
static PyObject *get_value(Load *self, void *none) { return (void)none, field(self->value); }
static PyObject *get_error(Load *self, void *none) { return (void)none, field(self->error); }
static PyObject *get_is_open(Load *self, void *none) { return (void)none, PyBool_FromLong(self->is_open); }
static PyObject *get_is_over(Load *self, void *none) { return (void)none, PyBool_FromLong(self->is_over); }
static PyObject *get_is_refresh(Load *self, void *none) { return (void)none, PyBool_FromLong(self->is_refresh); }
static PyObject *get_thread(Load *self, void *none) { return (void)none, PyLong_FromUnsignedLong(self->thread); }

static PyGetSetDef load_fields[] = {
    {"task", (getter)get_task, NULL, "A weak reference to the task that makes the load, or None if a thread does.", NULL},
    {"old", (getter)get_old, NULL, "The value that a refresh is to replace, or None.", NULL},
    {"value", (getter)get_value, NULL, "What was loaded.", NULL},
    {"error", (getter)get_error, NULL, "What the load raised, or None.", NULL},
    {"is_open", (getter)get_is_open, NULL, "Whether it is under way.", NULL},
    {"is_over", (getter)get_is_over, NULL, "Whether it has ended.", NULL},
    {"is_refresh", (getter)get_is_refresh, NULL, "Whether there is an old value.", NULL},
    {"thread", (getter)get_thread, NULL, "The identifier of the thread in which it began.", NULL},
    {NULL, NULL, NULL, NULL, NULL},
};

static PyType_Slot load_slots[] = {
    {Py_tp_doc, "A load that one thread or task makes, and that others may wait for."},
    {Py_tp_new, (void *)load_new},
    {Py_tp_dealloc, (void *)load_dealloc},
    {Py_tp_traverse, (void *)load_traverse},
    {Py_tp_clear, (void *)load_clear},
    {Py_tp_getset, load_fields},
    {0, NULL},
};

PyType_Spec load_spec = {"rookdresser._native.Load", sizeof(Load), 0, Py_TPFLAGS_DEFAULT | Py_TPFLAGS_HAVE_GC, load_slots};
