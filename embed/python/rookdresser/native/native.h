/* What the files of the module share. module.c states the rule that all of them keep. */
#ifndef ROOKDRESSER_NATIVE_H
#define ROOKDRESSER_NATIVE_H
#define PY_SSIZE_T_CLEAN
#include <Python.h>
#include <stdint.h>
#include <string.h>
#include "rookdresser.h"

/* The marks of a step on the object `self`. tools/gate/check_native_steps reads what stands between them. */
#ifdef Py_GIL_DISABLED
#define STEP Py_BEGIN_CRITICAL_SECTION(self);
#define END_STEP Py_END_CRITICAL_SECTION();
#else
#define STEP {
#define END_STEP }
#endif

enum { FAULTS = 16, NUMBERS = sizeof(rd_numbers) / sizeof(uint64_t) };
/* The adviser sees so many look-ups at a time, and a window moves by so many entries at most ahead of a call. */
enum { BATCH = 64, SLIDES = 4 };
/* The buckets of load times: open_loads.c has their bounds. */
enum { TIMES = 12 };
/* A call on the whole table takes out or lists so many uses, or goes by so many buckets, before it lets other threads run. */
enum { SLICE = 1000, SLICE_BUCKETS = 50000 };

/* Of a function that is seldom called: it stays out of its caller, which needs fewer instructions then. */
#define SELDOM __attribute__((noinline))

/* What a seek returns, beside the kinds of the library's answers: the caller loads without the cache, since as many loads as may be are open. */
enum { BESIDE = 100 };

typedef struct Load Load;
typedef struct Wait Wait;
typedef struct Waits Waits;

/* A key that is in use: one for its entry, and one for each open load of it. A token is the address of its entry's Use. */
typedef struct Use {
    struct Use *next; /* of its bucket, or of what left */
    PyObject *key;
    PyObject *value; /* null if it is a load's */
    Load *load;      /* null if it is an entry's */
    uint64_t hash;   /* made of the key */
    uint64_t number; /* the library's key: hash, or one a little above it that no other key in use has */
    uint64_t serial; /* uses are counted as they are linked */
    uint32_t cause;  /* an rd_cause, once it has left */
} Use;

/* What left a shard in a call that took out many. The library has it no more, and it is taken out of the table a slice at a time. */
typedef struct Swept {
    struct Swept *next;   /* of the table's */
    unsigned long thread; /* whose call it is */
    uint64_t at, count;   /* which is taken out next, and how many left */
    struct {
        Use *use;
        uint32_t cause;
    } left[];
} Swept;

/* The first exception that isn't logged, of several calls of on_leave. */
typedef struct {
    PyObject *type, *error, *trace;
} Raised;

/* A load that one thread or task makes. */
struct Load {
    PyObject_HEAD
    void *table;         /* whose it is; compared, never followed */
    Use *use;            /* the table's while the load is open; before, the one that it brings along */
    Use *left;           /* what left in its seek; reported once it has ended, so that on_leave may ask for the key */
    uint64_t id, now;    /* the library's number of the load, and the moment of its seek in milliseconds */
    long long begun;     /* nanoseconds, by a clock that doesn't go back */
    unsigned long thread;
    PyObject *task;      /* a weak reference, or null if a thread makes the load */
    void *loop;          /* the task's; compared, never followed */
    PyObject *old, *value, *error, *trace; /* `trace` is the traceback that the error had as the load ended, or null */
    Waits *graph;
    Wait *waits;         /* all who wait for it */
    Load *next, *before; /* of the loads that somebody waits for */
    Load *older, *newer; /* of the table's open loads */
    char is_open, is_over, is_refresh;
    char is_given_up;    /* before its loader returned, by load_timeout or abandon */
    char is_below_loop;  /* a thread makes it, in which no loop ran as it began: so one that runs there now was begun by its loader */
};

/* A thread or task that waits for a load. */
struct Wait {
    Wait *next, *before; /* of the load */
    Load *load;          /* who waits keeps it alive */
    uint64_t serial;     /* waits are counted as they begin */
    PyThread_type_lock lock; /* of a thread, released as the load ends; null for a task */
    unsigned long thread;
    PyObject *loop;      /* that runs in the thread, or null */
    PyObject *task_wait; /* for a task, the object that this struct is part of; not a reference */
    char is_linked;
};

/* All waits of the process. */
struct Waits {
    PyObject_HEAD
    Load *first; /* the loads that somebody waits for */
    uint64_t serial;
};

/* The fields of _stats.py, in their order. */
typedef struct {
    uint64_t hits, misses, joins, loads, failed, refreshes, load_ns, loose, left[4], beside, given_up, late;
} Counts;

/* What lets the windows follow the look-ups. */
typedef struct {
    rd_adviser adviser; /* one for all shards */
    uint32_t share;     /* how many entries it wants the window of each shard to hold */
    uint32_t one_more;  /* and in how many shards, from the first one on, one more */
    uint32_t noted;     /* how many look-ups it hasn't seen yet */
    uint64_t keys[BATCH];
    uint32_t windows[]; /* how many entries the window of each shard may hold now */
} Advice;

typedef struct {
    PyObject_HEAD
    rd_cache *caches, one_cache; /* one for each shard */
    uint64_t shards;
    Advice *advice;            /* null if the windows stay as they were opened */
    uint64_t windows;          /* how many entries the windows of all shards could hold as they were opened */
    Use **buckets, *one_bucket;
    uint64_t mask;             /* how many buckets there are, less one */
    uint64_t displaced, reach; /* how many uses have another number than their hash, and how far that is at most */
    uint64_t serial;           /* of the use that was linked last */
    uint64_t at_bucket;        /* where popitem goes on */
    uint64_t room;             /* how many entries a shard may hold at most */
    Swept *swept;              /* what calls are about to take out */
    Py_ssize_t swept_entries;  /* and how many of `entries` that are */
    Py_ssize_t entries, loads; /* how many uses of each kind there are */
    Load *oldest, *newest;     /* of the open loads, by when they were opened */
    uint64_t load_timeout;     /* how many milliseconds one may take; 0: any */
    Load *spare;               /* for the next load, so that no memory is asked for after its seek */
    uint64_t seed[2], mark;
    char is_seeded, hash_is_secret, refuses_at_limit, hands_on;
    PyObject *weigh, *clock, *on_leave; /* or null */
    PyObject *pause; /* lets other threads run */
    PyObject *log, *plain, *prime, *refusal, *load_type, *timedelta, *timed_out, *abandoned;
    Waits *waits;
    Counts counts;
    uint64_t refused[FAULTS];
    uint64_t times[TIMES]; /* how many loads took so long */
} Table;

/* What makes a value: function(key), or function(*args, **names) if there are args; and the ttl of what it returns, or null. */
typedef struct {
    PyObject *function, *args, *names, *ttl;
} Loader;

/* table.c: the uses, by the numbers of their keys. */
Use **bucket_of(Table *self, uint64_t number);
rd_cache *shard_of(Table *self, uint64_t number);
void link_use(Table *self, Use *use, uint64_t hash, uint64_t number);
void unlink_use(Table *self, Use *use);
void free_uses(Use *use);
int find(Table *self, PyObject *key, uint64_t hash, uint64_t *number);
Load *load_of(Table *self, uint64_t number, uint64_t id);
Use **take_left(Table *self, rd_cache *cache, const rd_answer *answer, const rd_notice *first, Use **left);
void note_left(Table *self, rd_cache *cache, const rd_answer *answer, Swept *swept);
Use *take_swept(Table *self, Swept *swept);
PyObject *keep_first_key(Use *entry, const Use *left);
void close_one(Table *self, uint64_t i);
Use *take_slice(Table *self, uint64_t *at, int with_loads);

/* advice.c: how the windows follow the look-ups. All but windows_of need self->advice. */
uint64_t open_adviser(Table *self, uint32_t entries);
void note(Table *self, uint64_t number);
uint32_t share_of(const Advice *advice, uint64_t shard);
void follow(Table *self, rd_cache *cache, uint64_t now);
uint64_t windows_of(Table *self);

/* ask.c: what runs code of the caller's. */
void *zeroed(size_t size);
int is_of(PyObject *object, int slot, const void *has);
int arguments(PyObject *const *args, Py_ssize_t count, PyObject *names, int least, int most, const char *const *known, PyObject **given);
int whole(PyObject *given, int bits, const char *what, uint64_t *number);
int now_of(Table *self, uint64_t *now);
long long nanoseconds(void);
int weight_of(Table *self, PyObject *key, PyObject *value, uint64_t *weight);
void raise_fault(PyObject *refusal, uint64_t fault);
void refuse(Table *self, uint64_t fault);
int no_memory(Table *self);
int tell(Table *self, Use *left);
void keep_raised(Raised *raised);
int make_way(Table *self);
void rest(void);
PyObject *truth_of(int is_true);
int refuse_coroutine(Table *self, PyObject *value, const char *why);

/* durations.c: numbers and timedeltas. */
int is_timedelta(Table *self, PyObject *given);
int life_of(Table *self, PyObject *ttl, PyObject *key, PyObject *value, uint32_t *life);
double seconds_of(Table *self, PyObject *timeout);

/* keys.c: the number that is made of a key. */
int hash_of(Table *self, PyObject *key, uint64_t *hash);

/* loads.c: how a load begins and ends. */
int seek(Table *self, PyObject *key, Load *mine, PyObject **found);
int land(Table *self, Load *load, PyObject *value, PyObject *ttl);
int fail(Table *self, Load *load, PyObject *error);
PyObject *failed(Table *self, Load *load);
PyObject *shared(Load *load);
PyObject *get(Table *self, PyObject *key, const Loader *loader, PyObject *timeout);

/* given_up.c: loads that take too long, or are abandoned. */
void link_load(Table *self, Load *load);
void unlink_load(Table *self, Load *load);
int give_up_overdue(Table *self, uint64_t now);
long long time_left(Table *self, Load *load, long long most);
PyObject *dropped(Table *self, Load *load);

/* open_loads.c: what one asks of the loads. */
void count_time(Table *self, uint64_t nanoseconds);

/* waits.c: who waits for which load. */
void link_wait(Waits *self, Load *load, Wait *wait);
void unlink_wait(Wait *wait);
int ring(Load *load);
int forsake(Table *self, Load *load, const char *why);
int wait_for(Table *self, Load *load, PyObject *timeout);

/* The methods and types, for module.c. */
PyObject *load_new(PyTypeObject *type, PyObject *args, PyObject *names);
PyObject *table_new(PyTypeObject *type, PyObject *args, PyObject *names);
extern PyMethodDef call_methods[], given_up_methods[], open_load_methods[], sweep_methods[], python_load_methods[], held_methods[], waits_methods[], duration_functions[];
extern PyType_Spec table_spec, load_spec, waits_spec, task_wait_spec, function_spec;
PyObject *table_item(Table *self, PyObject *key);
int table_set_item(Table *self, PyObject *key, PyObject *value);
int table_contains(Table *self, PyObject *key);
Py_ssize_t table_length(Table *self);

/* The flags of a type that may be a base, and whose objects gc visits. */
#define BASE_WITH_GC (Py_TPFLAGS_DEFAULT | Py_TPFLAGS_BASETYPE | Py_TPFLAGS_HAVE_GC)

/* How a method of C is written down in a PyMethodDef. */
#define FAST METH_FASTCALL | METH_KEYWORDS
#define METHOD(function) (PyCFunction)(void (*)(void))function
#endif
