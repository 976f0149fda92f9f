/* The calls of a cache by key, each one step; setdefault is two. */
#include "native.h"

static PyObject *table_get_or_load(Table *self, PyObject *const *args, Py_ssize_t count, PyObject *names) {
    static const char *const known[] = {"key", "load", "timeout", "ttl", "get_or_load(key, load, timeout=None, ttl=None)"};
    PyObject *given[4];
    if (arguments(args, count, names, 2, 4, known, given) < 0) return NULL;
    return get(self, given[0], &(Loader){given[1], NULL, NULL, given[3]}, given[2]);
}

/* 1 with the value, 0, or -1. With `takes` the entry is dropped in the same step. */
static int look(Table *self, PyObject *key, int takes, PyObject **value) {
    uint64_t now, hash, number, fault = 0;
    rd_answer answer;
    Use *left = NULL;
    int is_there = -1;
    if (now_of(self, &now) < 0 || hash_of(self, key, &hash) < 0) return -1;
    STEP
    int is_found = find(self, key, hash, &number);
    rd_cache *cache = shard_of(self, number);
    if (is_found == 0 && self->advice) follow(self, cache, now);
    if (is_found == 0 && !(fault = rd_look(cache, number, now, &answer))) {
        is_there = answer.kind == RD_HIT;
        *(is_there ? &self->counts.hits : &self->counts.misses) += 1;
        *value = is_there ? ((Use *)(uintptr_t)answer.token)->value : NULL;
        Py_XINCREF(*value);
        if (self->advice) note(self, number);
        if (answer.notices) take_left(self, cache, &answer, NULL, &left);
        if (takes && !rd_drop_key(cache, number, now, &answer)) take_left(self, cache, &answer, NULL, &left);
    }
    END_STEP
    if (fault) refuse(self, fault);
    if (is_there < 0 || !left || tell(self, left) == 0) return is_there;
    Py_XDECREF(*value);
    return -1;
}

/* The value that a call found, or else the default, or else None; null if it raised. */
static inline PyObject *found_or(int is_there, PyObject *value, PyObject *otherwise) {
    if (is_there) return is_there < 0 ? NULL : value;
    value = otherwise ? otherwise : Py_None;
    Py_INCREF(value);
    return value;
}

static PyObject *table_look(Table *self, PyObject *const *args, Py_ssize_t count, PyObject *names) {
    static const char *const known[] = {"key", "default", "look(key, default=None)"};
    PyObject *given[2], *value = NULL;
    if (arguments(args, count, names, 1, 2, known, given) < 0) return NULL;
    int is_there = look(self, given[0], 0, &value);
    return found_or(is_there, value, given[1]);
}

/* get(key, load, timeout=None), as it was before a mapping's get: it loads, and warns. */
static SELDOM PyObject *get_as_before(Table *self, PyObject *key, PyObject *load, PyObject *timeout) {
    static const char why[] = "get(key, load) will only look from version 1.0 on: call get_or_load(key, load)";
    if (PyErr_WarnEx(PyExc_DeprecationWarning, why, 1) < 0) return NULL;
    return get(self, key, &(Loader){load, NULL, NULL, NULL}, timeout);
}

static PyObject *table_get(Table *self, PyObject *const *args, Py_ssize_t count, PyObject *names) {
    static const char call[] = "get(key, default=None)";
    static const char *const known[] = {"key", "default", "timeout", "load", call};
    PyObject *given[4], *value = NULL;
    if (arguments(args, count, names, 1, 4, known, given) < 0) return NULL;
    PyObject *key = given[0], *second = given[1], *timeout = given[2], *load = given[3];
    int is_default = !second || count < 2 || !PyCallable_Check(second);
    if (!timeout && !load && is_default) {
        int is_there = look(self, key, 0, &value);
        return found_or(is_there, value, second);
    }
    /* Before, `load` was the second; no name calls it a default. */
    int has_one_load = second ? count > 1 && !load : load != NULL;
    if (has_one_load && count < 4) return get_as_before(self, key, load ? load : second, timeout);
    return PyErr_Format(PyExc_TypeError, "the call is %s", call);
}

/* 1 with the value, 0, or -1. No entry is used, and nothing is counted. */
static int peek(Table *self, PyObject *key, PyObject **value) {
    uint64_t now, hash, number, fault = 0;
    rd_answer answer;
    int is_there = -1;
    if (now_of(self, &now) < 0 || hash_of(self, key, &hash) < 0) return -1;
    STEP
    int is_found = find(self, key, hash, &number);
    if (is_found == 0 && !(fault = rd_peek(shard_of(self, number), number, now, &answer))) {
        is_there = answer.kind == RD_HIT;
        *value = is_there ? ((Use *)(uintptr_t)answer.token)->value : NULL;
        Py_XINCREF(*value);
    }
    END_STEP
    if (fault) refuse(self, fault);
    return is_there;
}

static PyObject *table_peek(Table *self, PyObject *const *args, Py_ssize_t count, PyObject *names) {
    static const char *const known[] = {"key", "default", "peek(key, default=None)"};
    PyObject *given[2], *value = NULL;
    if (arguments(args, count, names, 1, 2, known, given) < 0) return NULL;
    int is_there = peek(self, given[0], &value);
    return found_or(is_there, value, given[1]);
}

/* Raises KeyError with the key, whatever it is: a tuple, too, as one argument. */
static PyObject *missing(PyObject *key) {
    PyObject *one = PyTuple_Pack(1, key);
    if (one) PyErr_SetObject(PyExc_KeyError, one);
    Py_XDECREF(one);
    return NULL;
}

static PyObject *table_pop(Table *self, PyObject *const *args, Py_ssize_t count, PyObject *names) {
    static const char *const known[] = {"key", "default", "pop(key[, default])"};
    PyObject *given[2], *value = NULL;
    if (arguments(args, count, names, 1, 2, known, given) < 0) return NULL;
    int is_there = look(self, given[0], 1, &value);
    return is_there || given[1] ? found_or(is_there, value, given[1]) : missing(given[0]);
}

PyObject *table_item(Table *self, PyObject *key) {
    PyObject *value;
    int is_there = look(self, key, 0, &value);
    return is_there > 0 ? value : is_there < 0 ? NULL : missing(key);
}

int table_contains(Table *self, PyObject *key) {
    PyObject *value = NULL;
    int is_there = peek(self, key, &value);
    Py_XDECREF(value);
    return is_there;
}

/* Stores the value, or returns 1 with the value that is there if the caller asks for it; 0, or -1. */
static int put(Table *self, PyObject *key, PyObject *value, PyObject *ttl, PyObject **there) {
    uint64_t weight, now, hash, number, fault = 0;
    uint32_t life = 0;
    rd_answer answer;
    rd_notice first;
    Use *left = NULL;
    PyObject *own = NULL;
    int is_found = -1, is_there = 0;
    if (weight_of(self, key, value, &weight) < 0 || (ttl && life_of(self, ttl, key, value, &life) < 0)) return -1;
    if (now_of(self, &now) < 0 || hash_of(self, key, &hash) < 0) return -1;
    Use *use = zeroed(sizeof(Use));
    if (!use) return no_memory(self);
    use->key = key, use->value = value;
    Py_INCREF(key);
    Py_INCREF(value);
    STEP
    is_found = find(self, key, hash, &number);
    rd_cache *cache = shard_of(self, number);
    rd_token token = {(uintptr_t)use, (uint32_t)weight};
    if (there && is_found == 0 && !rd_peek(cache, number, now, &answer) && answer.kind == RD_HIT) {
        *there = ((Use *)(uintptr_t)answer.token)->value, is_there = 1, is_found = 1;
        Py_INCREF(*there);
    }
    if (is_found == 0 && self->advice) follow(self, cache, now);
    if (is_found == 0 && !(fault = rd_put_for(cache, number, token, life, now, &answer, &first))) {
        link_use(self, use, hash, number);
        take_left(self, cache, &answer, &first, &left);
        own = keep_first_key(use, left);
        use = NULL;
    }
    END_STEP
    Py_XDECREF(own);
    free_uses(use);
    if (fault) refuse(self, fault);
    return is_there ? 1 : is_found < 0 || fault ? -1 : tell(self, left);
}

static PyObject *table_put(Table *self, PyObject *const *args, Py_ssize_t count, PyObject *names) {
    static const char *const known[] = {"key", "value", "ttl", "put(key, value, ttl=None)"};
    PyObject *given[3];
    if (arguments(args, count, names, 2, 3, known, given) < 0 || put(self, given[0], given[1], given[2], NULL) < 0) return NULL;
    Py_RETURN_NONE;
}

/* A look, and if that finds nothing, a put. Another caller may have put between the two: then its value is returned. */
static PyObject *table_setdefault(Table *self, PyObject *const *args, Py_ssize_t count, PyObject *names) {
    static const char *const known[] = {"key", "default", "setdefault(key, default=None)"};
    PyObject *given[2], *value = NULL;
    if (arguments(args, count, names, 1, 2, known, given) < 0) return NULL;
    int is_there = look(self, given[0], 0, &value);
    if (is_there == 0) is_there = put(self, given[0], given[1] ? given[1] : Py_None, NULL, &value);
    return found_or(is_there, value, given[1]);
}

typedef uint64_t KeyCall(rd_cache *cache, uint64_t key, uint64_t now, rd_answer *answer);

/* 1 if there was an entry or a load, 0 if none, or -1. */
static int by_key(Table *self, PyObject *key, KeyCall *key_call) {
    uint64_t now, hash, number, fault = 0;
    rd_answer answer;
    Use *left = NULL;
    int is_found = -1;
    if (now_of(self, &now) < 0 || hash_of(self, key, &hash) < 0) return -1;
    STEP
    is_found = find(self, key, hash, &number);
    rd_cache *cache = shard_of(self, number);
    if (is_found == 0 && !(fault = key_call(cache, number, now, &answer))) take_left(self, cache, &answer, NULL, &left);
    END_STEP
    if (fault) refuse(self, fault);
    if (is_found < 0 || fault || tell(self, left) < 0) return -1;
    return answer.number != 0;
}

static PyObject *table_drop(Table *self, PyObject *key) { return truth_of(by_key(self, key, rd_drop_key)); }
static PyObject *table_forget(Table *self, PyObject *key) { return truth_of(by_key(self, key, rd_forget)); }

int table_set_item(Table *self, PyObject *key, PyObject *value) {
    if (value) return put(self, key, value, NULL, NULL);
    int was_there = by_key(self, key, rd_drop_key);
    if (was_there == 0) missing(key);
    return was_there > 0 ? 0 : -1;
}

PyMethodDef call_methods[] = {
    {"get_or_load", METHOD(table_get_or_load), FAST,
     "get_or_load($self, key, load, timeout=None, ttl=None)\n--\n\n"
     "Returns the key's value; if there is none, that of load(key), which all who ask meanwhile share.\n\n"
     "The value's age counts from this call, not from the end of the load. If an entry is due for a refresh, the first caller that asks\n"
     "loads it and gets the new value, or the old one if that load fails. What `load` raises is raised in all who share it, but for\n"
     "SystemExit, KeyboardInterrupt and the like: then the others ask again. `timeout`, in seconds or a timedelta, limits how long\n"
     "another's load is waited for: then TimeoutError is raised. WaitsForItself is raised if the load waits for this caller.\n"
     "`ttl` gives a value that this caller loads a life of its own, as it does of put, which counts from this call.\n\n"
     ">>> cache.get_or_load(\"a\", str.upper), cache.get_or_load(\"a\", str.lower)\n"
     "('A', 'A')"},
    {"get", METHOD(table_get), FAST,
     "get($self, key, default=None)\n--\n\n"
     "Returns the key's value if it is there, else `default`, without any load. It is a use of the entry, and counted.\n\n"
     "Before version 1.0 get(key, load) with a callable in the second place loads, as get_or_load does, and warns. So does\n"
     "get(key, load=.., timeout=..). A callable that is a default is named: get(key, default=callable).\n\n"
     ">>> cache.get(\"a\"), cache.get(\"a\", 7)\n"
     "(None, 7)"},
    {"look", METHOD(table_look), FAST,
     "look($self, key, default=None)\n--\n\n"
     "Does the same as get, by the name that the call has in Rust, Go and C. No callable is taken for a load.\n\n"
     ">>> cache.look(\"a\"), cache.look(\"a\", 7)\n"
     "(None, 7)"},
    {"peek", METHOD(table_peek), FAST,
     "peek($self, key, default=None)\n--\n\n"
     "Returns what get would return, but uses no entry, counts nothing and moves no window. So does `key in cache`.\n\n"
     ">>> cache.put(\"a\", 1)\n"
     ">>> cache.peek(\"a\"), \"a\" in cache, cache.stats().hits\n"
     "(1, True, 0)"},
    {"put", METHOD(table_put), FAST,
     "put($self, key, value, ttl=None)\n--\n\n"
     "Stores the value under the key. An open load of the key will store nothing.\n\n"
     "`ttl` is the entry's life: it expires so long after it was written, or earlier by the cache's durations. It is a whole number of\n"
     "milliseconds, a timedelta, None for no life, or ttl(key, value) that returns one of these. Less than a millisecond counts as one,\n"
     "and more than 2^32 - 1 (49 days) as none. The next store of the key gives its entry another life, or none.\n\n"
     ">>> now = 0\n"
     ">>> cache = Cache(entries=10, clock=lambda: now)\n"
     ">>> cache.put(\"a\", 1, ttl=5)\n"
     ">>> cache.put(\"b\", 2)\n"
     ">>> now = 5\n"
     ">>> cache.look(\"a\"), cache.look(\"b\")\n"
     "(None, 2)"},
    {"setdefault", METHOD(table_setdefault), FAST,
     "setdefault($self, key, default=None)\n--\n\n"
     "Returns the key's value if it is there, which is a use; else stores `default`, as put does, and returns it.\n\n"
     "Of several callers that find nothing at once, one stores, and the others get its value. `default` is weighed before. To make the\n"
     "value only if there is none, call get_or_load.\n\n"
     ">>> cache.setdefault(\"a\", 1), cache.setdefault(\"a\", 2)\n"
     "(1, 1)"},
    {"pop", METHOD(table_pop), FAST,
     "pop($self, key, default=...)\n--\n\n"
     "Takes the key's entry out, and returns its value; if there is none, `default`, or KeyError. It is counted as a look.\n"
     "An open load of the key will store nothing.\n\n"
     ">>> cache.put(\"a\", 1)\n"
     ">>> cache.pop(\"a\"), cache.pop(\"a\", None)\n"
     "(1, None)"},
    {"drop", METHOD(table_drop), METH_O,
     "drop($self, key, /)\n--\n\n"
     "Takes the key's entry out; an open load of it will store nothing. Returns whether an entry was there.\n\n"
     ">>> cache.put(\"a\", 1)\n"
     ">>> cache.drop(\"a\"), cache.drop(\"a\")\n"
     "(True, False)"},
    {"forget", METHOD(table_forget), METH_O,
     "forget($self, key, /)\n--\n\n"
     "Lets nobody else join an open load of the key, which will store nothing. Returns whether there was one.\n\n"
     ">>> cache.get_or_load(\"a\", cache.forget)\n"
     "True\n"
     ">>> \"a\" in cache\n"
     "False"},
    {NULL, NULL, 0, NULL},
};
