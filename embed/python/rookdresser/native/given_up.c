/* Loads that are given up, since they take longer than load_timeout or by abandon. A load that is given up ends with an error for all who wait
 * for it, and its place is free. Its loader goes on: what it brings is dropped as it lands. */
#include "native.h"

void link_load(Table *self, Load *load) {
    load->older = self->newest;
    load->newer = NULL;
    *(load->older ? &load->older->newer : &self->oldest) = load;
    self->newest = load;
}

void unlink_load(Table *self, Load *load) {
    *(load->older ? &load->older->newer : &self->oldest) = load->newer;
    *(load->newer ? &load->newer->older : &self->newest) = load->older;
    load->older = load->newer = NULL;
}

/* Ends the load, if it is open, with what `error_type` makes of the sentence: 0; -1 if memory is refused, or on_leave or an interrupt raised. */
static int give_up(Table *self, Load *load, PyObject *error_type, const char *why) {
    PyObject *error = PyObject_CallFunction(error_type, "s", why);
    if (!error) return -1;
    STEP
    if (load->is_open && load->table == self) {
        load->is_given_up = 1;
        self->counts.given_up++;
    }
    END_STEP
    int failed = fail(self, load, error);
    Py_DECREF(error);
    return failed < 0 ? -1 : 0;
}

static int time_out(Table *self, Load *load) {
    return give_up(self, load, self->timed_out, "the load of the key took longer than load_timeout");
}

/* For how many milliseconds the load may go on; 0 if it is overdue. */
static uint64_t milliseconds_left(const Table *self, const Load *load, uint64_t now) {
    uint64_t age = now > load->now ? now - load->now : 0;
    return age < self->load_timeout ? self->load_timeout - age : 0;
}

/* The load that was opened first, with a reference, if it is overdue; else null. */
static Load *oldest_overdue(Table *self, uint64_t now) {
    Load *load;
    STEP
    load = self->oldest;
    if (load && milliseconds_left(self, load, now)) load = NULL;
    Py_XINCREF((PyObject *)load);
    END_STEP
    return load;
}

/* Gives up each load that is overdue, the oldest first: 0, or -1 with an exception. */
SELDOM int give_up_overdue(Table *self, uint64_t now) {
    Load *load;
    int given = 0;
    while (given == 0 && (load = oldest_overdue(self, now))) {
        given = time_out(self, load);
        Py_DECREF((PyObject *)load);
    }
    return given;
}

/* For how many microseconds a wait for the load may sleep: at most `most`; 0 if the load was given up just now; -1 with an exception. */
long long time_left(Table *self, Load *load, long long most) {
    uint64_t now;
    if (!self->load_timeout) return most;
    if (now_of(self, &now) < 0) return -1;
    uint64_t left = milliseconds_left(self, load, now);
    if (!left) return time_out(self, load);
    return left < (uint64_t)most / 1000 ? (long long)left * 1000 : most;
}

/* Counts what a loader brought late, and returns what its caller gets: the error, or of a refresh the old value. */
PyObject *dropped(Table *self, Load *load) {
    STEP
    self->counts.late++;
    END_STEP
    if (!load->is_refresh) return shared(load);
    Py_INCREF(load->old);
    return load->old;
}

/* Finds an open load of the key, with a reference, that was opened no later than `last`; with 0 that becomes now. Returns what find does. */
static int find_load(Table *self, PyObject *key, uint64_t hash, uint64_t *last, Load **load) {
    uint64_t number;
    int is_found;
    *load = NULL;
    STEP
    is_found = find(self, key, hash, &number);
    if (!*last) *last = self->serial;
    Use *use = is_found == 0 ? *bucket_of(self, number) : NULL;
    while (use && !(use->load && use->number == number && use->serial <= *last)) use = use->next;
    if (use) *load = use->load;
    Py_XINCREF((PyObject *)*load);
    END_STEP
    return is_found;
}

static PyObject *table_abandon(Table *self, PyObject *key) {
    uint64_t hash, last = 0; /* a load that begins meanwhile goes on */
    int was_open = 0;
    Load *load;
    if (!self->abandoned) return refuse(self, RD_CLOSED), NULL;
    if (hash_of(self, key, &hash) < 0 || find_load(self, key, hash, &last, &load) < 0) return NULL;
    while (load) {
        int given = give_up(self, load, self->abandoned, "the load of the key was abandoned");
        Py_DECREF((PyObject *)load);
        if (given < 0 || find_load(self, key, hash, &last, &load) < 0) return NULL;
        was_open = 1;
    }
    return truth_of(was_open);
}

static PyObject *table_time_left(Table *self, PyObject *given) {
    if ((PyObject *)Py_TYPE(given) != self->load_type) return PyErr_Format(PyExc_TypeError, "it takes a load");
    if (!self->load_timeout) Py_RETURN_NONE;
    long long left = time_left(self, (Load *)given, 3600000000);
    return left < 0 ? NULL : PyFloat_FromDouble((double)left / 1e6);
}

PyMethodDef given_up_methods[] = {
    {"abandon", METHOD(table_abandon), METH_O,
     "abandon($self, key, /)\n--\n\n"
     "Gives up the open loads of the key. Returns whether there was one.\n\n"
     "All who wait for it get Abandoned, and so does its caller once its loader returns; of a refresh, its caller gets the old value. What\n"
     "the loader brings is dropped. Its place is free, and the next caller loads anew. The loader itself isn't stopped.\n\n"
     ">>> def load(key):\n"
     "...     print(cache.abandon(key))\n"
     "...     return 7\n"
     ">>> try:\n"
     "...     cache.get_or_load(\"a\", load)\n"
     "... except Abandoned as error:\n"
     "...     print(error, \"a\" in cache)\n"
     "True\n"
     "the load of the key was abandoned False"},
    {"_time_left", METHOD(table_time_left), METH_O,
     "Returns for how many seconds the load may go on, or None for ever; if it is 0, the load was given up."},
    {NULL, NULL, 0, NULL},
};
