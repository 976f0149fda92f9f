/* The number that is made of a key: SipHash-1-3 of the words that stand for it, without that of the length, under the seed of the cache.
 *
 * hash() won't do: that of numbers, and of all that is made of numbers, is no secret, so that whoever chooses keys can choose many of one
 * hash. So a whole number stands for itself, or for itself modulo a secret prime if it has more than 64 bits; a tuple for its parts; text
 * for its hash() if Python has a secret for that, and else for its bytes. `plain` in _keys.py says what stands for other kinds. Keys that
 * are equal stand for the same, whatever their types. */
#include "native.h"

/* How deep a key may be nested. Python's own limit counts calls, and a thread with a small stack ends before it. */
enum { DEEPEST = 200 };

typedef struct {
    uint64_t a, b, c, d;
    int level; /* of the part of the key that is read */
} Sip;

static inline uint64_t rotated(uint64_t x, int by) { return x << by | x >> (64 - by); }

static inline void round_of(Sip *s) {
    s->a += s->b, s->c += s->d;
    s->b = rotated(s->b, 13) ^ s->a, s->d = rotated(s->d, 16) ^ s->c;
    s->a = rotated(s->a, 32);
    s->c += s->b, s->a += s->d;
    s->b = rotated(s->b, 17) ^ s->c, s->d = rotated(s->d, 21) ^ s->a;
    s->c = rotated(s->c, 32);
}

static inline Sip start_hash(Table *self, int level) {
    uint64_t one = self->seed[0], two = self->seed[1];
    return (Sip){one ^ 0x736f6d6570736575u, two ^ 0x646f72616e646f6du, one ^ 0x6c7967656e657261u, two ^ 0x7465646279746573u, level};
}

static inline void add(Sip *s, uint64_t word) {
    s->d ^= word;
    round_of(s);
    s->a ^= word;
}

/* The end of SipHash: its mark, and three rounds. */
static inline uint64_t finish_hash(Sip *s) {
    s->c ^= 0xff;
    for (int i = 0; i < 3; i++) round_of(s);
    return s->a ^ s->b ^ s->c ^ s->d;
}

static int add_key(Table *self, Sip *s, PyObject *key);
static int seeded_hash_of(Table *self, PyObject *key, int level, uint64_t *hash);

/* Enters a part of a key that has parts itself: 0, or -1 with RecursionError. */
static int enter(Sip *s) {
    if (s->level == DEEPEST) {
        PyErr_Format(PyExc_RecursionError, "a key is nested deeper than %d levels", DEEPEST);
        return -1;
    }
    if (Py_EnterRecursiveCall(" as a key is read")) return -1;
    s->level++;
    return 0;
}

static void leave(Sip *s) {
    s->level--;
    Py_LeaveRecursiveCall();
}

static int add_hash(Sip *s, PyObject *key) {
    Py_hash_t hash = PyObject_Hash(key);
    if (hash == -1) return -1;
    add(s, (uint64_t)hash);
    return 0;
}

static int add_bytes(Table *self, Sip *s, PyObject *key) {
    char *bytes;
    Py_ssize_t length;
    if (PyBytes_AsStringAndSize(key, &bytes, &length) < 0) return -1;
    add(s, self->mark ^ (uint64_t)length);
    for (Py_ssize_t at = 0; at < length; at += 8) {
        uint64_t word = 0;
        memcpy(&word, bytes + at, length - at < 8 ? (size_t)(length - at) : 8);
        add(s, word);
    }
    return 0;
}

/* The parts in their order, behind a word that nobody can make who doesn't know the secret `mark`: no two tuples are added alike. */
static int add_tuple(Table *self, Sip *s, PyObject *key) {
    Py_ssize_t length = PyTuple_Size(key);
    if (enter(s) < 0) return -1;
    add(s, self->mark ^ ~(uint64_t)length);
    int added = 0;
    for (Py_ssize_t i = 0; i < length && added == 0; i++) added = add_key(self, s, PyTuple_GetItem(key, i));
    leave(s);
    return added;
}

/* The sum of the numbers of its parts, which is the same in every order. */
static int add_set(Table *self, Sip *s, PyObject *key) {
    if (enter(s) < 0) return -1;
    PyObject *parts = PyObject_GetIter(key), *part;
    uint64_t sum = 0, hash;
    while (parts && (part = PyIter_Next(parts))) {
        if (seeded_hash_of(self, part, s->level, &hash) == 0) sum += hash;
        Py_DECREF(part);
        if (PyErr_Occurred()) break;
    }
    Py_XDECREF(parts);
    leave(s);
    add(s, self->mark + 1);
    add(s, sum);
    return PyErr_Occurred() ? -1 : 0;
}

/* What `plain` says that the key stands for; None is its hash(). */
static int add_plain(Table *self, Sip *s, PyObject *key) {
    PyObject *plain = PyObject_CallFunctionObjArgs(self->plain, key, NULL);
    int added = !plain ? -1 : plain == Py_None ? add_hash(s, key) : add_key(self, s, plain);
    Py_XDECREF(plain);
    return added;
}

/* A whole number beyond 64 bits, with its sign. */
static int add_great(Table *self, Sip *s, PyObject *key) {
    PyObject *rest = PyNumber_Remainder(key, self->prime);
    if (!rest) return -1;
    add(s, PyLong_AsUnsignedLongLong(rest));
    Py_DECREF(rest);
    return 0;
}

static int is_hashed_by_address(PyObject *key) {
    return PyType_GetSlot(Py_TYPE(key), Py_tp_hash) == PyType_GetSlot(&PyBaseObject_Type, Py_tp_hash);
}

static int add_key(Table *self, Sip *s, PyObject *key) {
    if (PyLong_CheckExact(key) || PyBool_Check(key)) {
        int overflow;
        long long small = PyLong_AsLongLongAndOverflow(key, &overflow);
        if (!overflow) return add(s, (uint64_t)small), 0;
        return add_great(self, s, key);
    }
    if (PyUnicode_CheckExact(key) && self->hash_is_secret) return add_hash(s, key);
    if (PyBytes_CheckExact(key)) return self->hash_is_secret ? add_hash(s, key) : add_bytes(self, s, key);
    if (PyTuple_CheckExact(key)) return add_tuple(self, s, key);
    if (PyFloat_CheckExact(key)) {
        double number = PyFloat_AsDouble(key);
        if (number < 0x1p63 && number >= -0x1p63 && (double)(long long)number == number) return add(s, (uint64_t)(long long)number), 0;
    }
    if (PyFrozenSet_CheckExact(key)) return add_set(self, s, key);
    return is_hashed_by_address(key) ? add_hash(s, key) : add_plain(self, s, key);
}

static int seeded_hash_of(Table *self, PyObject *key, int level, uint64_t *hash) {
    Sip s = start_hash(self, level);
    if (add_key(self, &s, key) < 0) return -1;
    *hash = finish_hash(&s);
    return 0;
}

int hash_of(Table *self, PyObject *key, uint64_t *hash) {
    if (self->is_seeded) return seeded_hash_of(self, key, 0, hash);
    Py_hash_t plain = PyObject_Hash(key);
    *hash = (uint64_t)plain;
    return plain == -1 ? -1 : 0;
}
