/* The uses of a table, chained in buckets by the numbers of their keys. */
#include "native.h"

Use **bucket_of(Table *self, uint64_t number) { return &self->buckets[(number ^ number >> 32) & self->mask]; }

/* The cache of the key's shard: by the number's middle bits, spread for numbers that are small. */
rd_cache *shard_of(Table *self, uint64_t number) {
    if (self->shards == 1) return self->caches;
    uint64_t spread = number * 0x9E3779B97F4A7C15u >> 32;
    return &self->caches[spread * self->shards >> 32];
}

static int is_in_use(Table *self, uint64_t number) {
    for (Use *use = *bucket_of(self, number); use; use = use->next)
        if (use->number == number) return 1;
    return 0;
}

void link_use(Table *self, Use *use, uint64_t hash, uint64_t number) {
    Use **bucket = bucket_of(self, number);
    use->hash = hash, use->number = number, use->serial = ++self->serial, use->next = *bucket, *bucket = use;
    if (number != hash) {
        self->displaced++;
        if (number - hash > self->reach) self->reach = number - hash;
    }
    *(use->load ? &self->loads : &self->entries) += 1;
}

void unlink_use(Table *self, Use *use) {
    Use **at = bucket_of(self, use->number);
    while (*at != use) at = &(*at)->next;
    *at = use->next, use->next = NULL;
    if (use->number != use->hash && --self->displaced == 0) self->reach = 0;
    *(use->load ? &self->loads : &self->entries) -= 1;
}

void free_uses(Use *use) {
    while (use) {
        Use *next = use->next;
        Py_XDECREF(use->key);
        Py_XDECREF(use->value);
        Py_XDECREF((PyObject *)use->load);
        PyMem_Free(use);
        use = next;
    }
}

/* The use of this number from which the search goes on after a comparison with its key, or null if that has gone. */
static Use *found_again(Table *self, PyObject *key, uint64_t hash, uint64_t number) {
    Use *use = *bucket_of(self, number);
    while (use && !(use->key == key && use->number == number && use->hash == hash)) use = use->next;
    return use;
}

/* Whether the key is in use under this number, by a use that was linked after `compared`: 1 or 0, -1 if a comparison raised, -2 if the key
 * that it compared with was taken out meanwhile. */
static int is_under(Table *self, PyObject *key, uint64_t hash, uint64_t number, uint64_t compared) {
    /* The later a use was linked, the earlier it stands in its bucket. An entry and a load may have the same key: each is compared once. */
    uint64_t below = UINT64_MAX;
    for (Use *use = *bucket_of(self, number); use; use = use->next) {
        if (use->number != number || use->hash != hash || use->serial <= compared || use->serial >= below) continue;
        if (use->key == key) return 1;
        PyObject *other = use->key;
        below = use->serial;
        Py_INCREF(other);
        int is_equal = PyObject_RichCompareBool(other, key, Py_EQ);
        use = found_again(self, other, hash, number);
        Py_DECREF(other);
        if (is_equal < 0) return -1;
        if (!use) return -2;
        if (is_equal) return 1;
    }
    return 0;
}

/* Finds the number that the key has, or the one that it is to have: its hash, or the next that is free, so that a key that comes again
 * is counted with its earlier uses. 0, or -1 if a comparison raised or goes on changing the table.
 *
 * A comparison may change all that is here, and while it runs another thread may put this very key. So what was linked since a scan
 * began is compared in a further one, and the number is taken right after a scan during which nothing was linked. */
int find(Table *self, PyObject *key, uint64_t hash, uint64_t *number) {
    uint64_t compared = 0;
    for (int tries = 0; tries < 1000; tries++) {
        uint64_t linked = self->serial, reach = self->reach;
        int found = 0;
        for (*number = hash; found == 0 && *number - hash <= reach; ++*number) found = is_under(self, key, hash, *number, compared);
        if (found == -1) return -1;
        if (found == 1) return --*number, 0;
        if (found == -2) continue;
        if (self->serial == linked) {
            for (*number = hash; is_in_use(self, *number);) ++*number;
            return 0;
        }
        compared = linked;
    }
    PyErr_SetString(PyExc_RuntimeError, "the comparison of a key puts or takes out keys of its hash, again and again");
    return -1;
}

Load *load_of(Table *self, uint64_t number, uint64_t id) {
    Use *use = *bucket_of(self, number);
    while (use && !(use->load && use->load->id == id && use->number == number)) use = use->next;
    return use ? use->load : NULL;
}

/* Takes what left in the call out of the table, and appends it to the list, whose end it returns: there the next list is appended with no
 * walk over this one. `first` is the first notice, or null if the call doesn't write it. */
Use **take_left(Table *self, rd_cache *cache, const rd_answer *answer, const rd_notice *first, Use **left) {
    rd_notice notice;
    if (!answer->notices) return left;
    while (*left) left = &(*left)->next;
    for (uint64_t i = 0; i < answer->notices; i++, left = &(*left)->next) {
        if (first && i == 0) notice = *first;
        else if (rd_get_notice(cache, i, &notice)) return left;
        Use *use = (Use *)(uintptr_t)notice.token;
        unlink_use(self, use);
        use->cause = notice.cause, *left = use;
        self->counts.left[notice.cause - 1]++;
    }
    return left;
}

/* Notes what left in a call that may have taken out a whole shard. The uses aren't touched: take_swept does that, a slice at a time. */
void note_left(Table *self, rd_cache *cache, const rd_answer *answer, Swept *swept) {
    rd_notice notice;
    swept->at = swept->count = 0;
    while (swept->count < answer->notices && !rd_get_notice(cache, swept->count, &notice)) {
        swept->left[swept->count].use = (Use *)(uintptr_t)notice.token;
        swept->left[swept->count].cause = notice.cause;
        swept->count++;
        self->counts.left[notice.cause - 1]++;
    }
    self->swept_entries += (Py_ssize_t)swept->count;
}

/* Takes the next slice of what was noted out of the table; of null, and once there is none, null. */
Use *take_swept(Table *self, Swept *swept) {
    Use *left = NULL, **end = &left;
    for (int i = 0; swept && i < SLICE && swept->at < swept->count; i++) {
        Use *use = swept->left[swept->at].use;
        unlink_use(self, use);
        use->cause = swept->left[swept->at++].cause;
        self->swept_entries--;
        *end = use;
        end = &use->next;
    }
    return left;
}

/* Gives the entry the key of the one that it has replaced, if that is among what left: a store under an equal key keeps the first key, as in
 * a dict. Returns the key that it had, whose reference is the caller's from now on, or null. */
PyObject *keep_first_key(Use *entry, const Use *left) {
    while (left && !(left->cause == RD_REPLACED && left->number == entry->number)) left = left->next;
    if (!left) return NULL;
    PyObject *own = entry->key;
    entry->key = left->key;
    Py_INCREF(entry->key);
    return own;
}

/* Closes the library's side of a shard; or behind the last one the adviser, which the calls of an open shard need. Once the first shard is
 * closed, the table is. */
void close_one(Table *self, uint64_t i) {
    STEP
    if (i < self->shards) rd_close(&self->caches[i]);
    else if (self->advice) rd_close_adviser(&self->advice->adviser);
    END_STEP
}

/* A load that nobody will end. */
static void forget_load(Table *self, Load *load) {
    unlink_load(self, load);
    load->use = NULL;
    load->is_open = 0;
}

/* Of a closed table, takes the next entries from a bucket on, in a step of its own, and with_loads the loads too. */
Use *take_slice(Table *self, uint64_t *at, int with_loads) {
    Use *left = NULL, *use, *next;
    const uint64_t end = *at + SLICE_BUCKETS;
    STEP
    for (int taken = 0; *at <= self->mask && *at < end && taken <= SLICE; ++*at)
        for (use = self->buckets[*at]; use; use = next) {
            next = use->next;
            if (use->load && !with_loads) continue;
            unlink_use(self, use);
            if (use->load) forget_load(self, use->load);
            else self->counts.left[RD_EXPLICIT - 1]++;
            use->cause = RD_EXPLICIT;
            use->next = left;
            left = use;
            taken++;
        }
    END_STEP
    return left;
}
