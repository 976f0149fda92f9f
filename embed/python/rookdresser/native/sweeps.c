/* The calls that take entries out of the whole table. */
#include "native.h"

typedef uint64_t SweepCall(rd_cache *cache, uint64_t now, rd_answer *answer);

/* Room for what leaves a shard, known to the table. Null of a table that holds few, and if memory is refused: then what leaves a shard is
 * taken out in one step. */
static Swept *begin_swept(Table *self) {
    Swept *swept = self->room > SLICE ? PyMem_Malloc(sizeof *swept + self->room * sizeof *swept->left) : NULL;
    if (!swept) return NULL;
    swept->thread = PyThread_get_thread_ident();
    swept->at = swept->count = 0;
    STEP
    swept->next = self->swept;
    self->swept = swept;
    END_STEP
    return swept;
}

static void end_swept(Table *self, Swept *swept) {
    if (!swept) return;
    STEP
    Swept **at = &self->swept;
    while (*at != swept) at = &(*at)->next;
    *at = swept->next;
    END_STEP
    PyMem_Free(swept);
}

/* The next slice of what a call has taken out of the library, or null. */
static Use *next_slice(Table *self, Swept *swept) {
    Use *left;
    STEP
    left = take_swept(self, swept);
    END_STEP
    return left;
}

/* The same of another call, of another thread; or of this one, if the other call's on_leave makes this one. */
static Use *slice_of_others(Table *self, int of_this_thread) {
    const unsigned long thread = PyThread_get_thread_ident();
    Use *left;
    STEP
    Swept *swept = self->swept;
    while (swept && (swept->at == swept->count || (swept->thread == thread && !of_this_thread))) swept = swept->next;
    left = take_swept(self, swept);
    END_STEP
    return left;
}

static void tell_slice(Table *self, Use *left, Raised *raised) {
    if (tell(self, left) < 0) keep_raised(raised);
}

static void make_way_between(Table *self, Raised *raised) {
    if (make_way(self) < 0) keep_raised(raised);
}

/* One call of the library on a shard, and a slice at a time the report of what left. */
static uint64_t sweep_shard(Table *self, rd_cache *cache, SweepCall *sweep_call, uint64_t now, Swept *swept, Raised *raised) {
    rd_answer answer;
    Use *left = NULL;
    uint64_t fault;
    STEP
    fault = sweep_call(cache, now, &answer);
    if (!fault && swept) note_left(self, cache, &answer, swept);
    else if (!fault) take_left(self, cache, &answer, NULL, &left);
    END_STEP
    tell_slice(self, left, raised);
    while ((left = next_slice(self, swept))) {
        make_way_between(self, raised);
        tell_slice(self, left, raised);
    }
    return fault;
}

/* None, of a call on the whole table; null if it was refused, or if on_leave or a signal handler raised. */
static PyObject *ended(Table *self, uint64_t fault, Raised *raised) {
    if (raised->type) PyErr_Restore(raised->type, raised->error, raised->trace);
    else if (fault) refuse(self, fault);
    else Py_RETURN_NONE;
    return NULL;
}

/* One call of the library on each of these shards, all at one moment. If the cache is closed meanwhile, that takes out the rest. */
static PyObject *sweep(Table *self, uint64_t first, uint64_t end, SweepCall *sweep_call) {
    uint64_t now, fault = 0, at = first;
    Raised raised = {NULL, NULL, NULL};
    if (now_of(self, &now) < 0) return NULL;
    for (;;) {
        /* Anew for each shard: glibc joins what the library has freed as a large block is asked for or freed, which for all shards at once
         * takes a tenth of a second. */
        Swept *swept = begin_swept(self);
        if (swept) make_way_between(self, &raised);
        fault = sweep_shard(self, &self->caches[at], sweep_call, now, swept, &raised);
        end_swept(self, swept);
        if (fault || ++at == end) break;
        make_way_between(self, &raised);
    }
    return ended(self, at > first && fault == RD_CLOSED ? 0 : fault, &raised);
}

/* The next entry, from the bucket on at which the last search ended, that hasn't expired at this moment; null if there is none. */
static Use *next_entry(Table *self, uint64_t now) {
    rd_answer answer;
    for (uint64_t i = 0; i <= self->mask; i++, self->at_bucket++)
        for (Use *use = self->buckets[self->at_bucket & self->mask]; use; use = use->next)
            if (!use->load && !rd_peek(shard_of(self, use->number), use->number, now, &answer) && answer.kind == RD_HIT
                && answer.token == (uintptr_t)use)
                return use;
    return NULL;
}

static PyObject *table_popitem(Table *self, PyObject *none) {
    (void)none;
    uint64_t now, fault = 0;
    rd_answer answer;
    Use *use, *left = NULL;
    PyObject *key = NULL, *value = NULL;
    if (now_of(self, &now) < 0) return NULL;
    STEP
    use = next_entry(self, now);
    if (use) {
        rd_cache *cache = shard_of(self, use->number);
        key = use->key, value = use->value;
        Py_INCREF(key);
        Py_INCREF(value);
        fault = rd_drop_key(cache, use->number, now, &answer);
        if (!fault) take_left(self, cache, &answer, NULL, &left);
    } else if (!self->caches->is_open)
        fault = RD_CLOSED;
    END_STEP
    if (fault) refuse(self, fault);
    else if (!use) PyErr_SetString(PyExc_KeyError, "the cache is empty");
    PyObject *item = !use || fault || tell(self, left) < 0 ? NULL : PyTuple_Pack(2, key, value);
    Py_XDECREF(key);
    Py_XDECREF(value);
    return item;
}

static PyObject *table_clear(Table *self, PyObject *none) { return (void)none, sweep(self, 0, self->shards, rd_clear); }
static PyObject *table_clean(Table *self, PyObject *none) { return (void)none, sweep(self, 0, self->shards, rd_clean); }

static PyObject *table_clean_shard(Table *self, PyObject *given) {
    uint64_t shard;
    Py_INCREF(given);
    if (whole(given, 32, "the shard", &shard) < 0) return NULL;
    if (shard >= self->shards) return PyErr_Format(PyExc_ValueError, "there is no such shard");
    return sweep(self, shard, shard + 1, rd_clean);
}

static PyObject *table_close(Table *self, PyObject *none) {
    (void)none;
    Raised raised = {NULL, NULL, NULL};
    Use *left;
    for (uint64_t i = 0; i <= self->shards; i++) {
        close_one(self, i);
        if (self->room > SLICE) make_way_between(self, &raised);
    }
    while ((left = slice_of_others(self, 1))) tell_slice(self, left, &raised);
    for (uint64_t at = 0; at <= self->mask;) {
        if (at) make_way_between(self, &raised);
        tell_slice(self, take_slice(self, &at, 0), &raised);
    }
    return ended(self, 0, &raised);
}

/* In a forked child nobody goes on with the calls of threads that aren't there: what they were about to take out is freed. */
static PyObject *table_end_sweeps(Table *self, PyObject *none) {
    (void)none;
    Use *left;
    while ((left = slice_of_others(self, 0))) free_uses(left);
    Py_RETURN_NONE;
}

PyMethodDef sweep_methods[] = {
    {"clear", METHOD(table_clear), METH_NOARGS,
     "clear($self)\n--\n\n"
     "Takes every entry out; the open loads will store nothing.\n\n"
     "It goes shard by shard, and lets other threads run between: what is stored meanwhile may stay.\n\n"
     ">>> cache.put(\"a\", 1)\n"
     ">>> cache.clear()\n"
     ">>> len(cache)\n"
     "0"},
    {"clean", METHOD(table_clean), METH_NOARGS,
     "clean($self)\n--\n\n"
     "Takes every expired entry out.\n\n"
     "It goes shard by shard, and lets other threads run between. It costs time for every entry, also for those that stay.\n\n"
     ">>> now = 0\n"
     ">>> cache = Cache(entries=10, after_write=5, clock=lambda: now)\n"
     ">>> cache.put(\"a\", 1)\n"
     ">>> now = 5\n"
     ">>> cache.clean()\n"
     ">>> len(cache)\n"
     "0"},
    {"popitem", METHOD(table_popitem), METH_NOARGS,
     "popitem($self)\n--\n\n"
     "Takes an entry out, and returns its key and value; raises KeyError if there is none. Not promised: which entry.\n\n"
     "An open load of its key will store nothing.\n\n"
     ">>> cache.put(\"a\", 1)\n"
     ">>> cache.popitem(), len(cache)\n"
     "(('a', 1), 0)"},
    {"close", METHOD(table_close), METH_NOARGS,
     "close($self)\n--\n\n"
     "Closes the cache, and reports every entry to on_leave as \"explicit\". Closing it again does nothing.\n\n"
     ">>> cache = Cache(entries=10, on_leave=print)\n"
     ">>> cache.put(\"a\", 1)\n"
     ">>> cache.close()\n"
     "a 1 explicit"},
    {"_clean_shard", METHOD(table_clean_shard), METH_O, "Takes every expired entry of a shard out."},
    {"_end_sweeps", METHOD(table_end_sweeps), METH_NOARGS, "Ends the calls of threads that aren't in this process, which took entries out."},
    {NULL, NULL, 0, NULL},
};
