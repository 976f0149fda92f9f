/* Who waits for which load. _waits.py asks this to find loads that wait for each other in a circle. */
#include "native.h"

void link_wait(Waits *self, Load *load, Wait *wait) {
    STEP
    wait->load = load, wait->serial = ++self->serial, wait->is_linked = !load->is_over;
    if (wait->is_linked) {
        if (!load->waits) {
            load->next = self->first, load->before = NULL;
            if (load->next) load->next->before = load;
            self->first = load;
        }
        wait->next = load->waits, wait->before = NULL;
        if (wait->next) wait->next->before = wait;
        load->waits = wait;
    }
    END_STEP
}

/* Takes the wait out, within a step on the graph. */
static void take_out(Waits *self, Wait *wait) {
    Load *load = wait->load;
    if (!wait->is_linked) return;
    wait->is_linked = 0;
    if (wait->next) wait->next->before = wait->before;
    *(wait->before ? &wait->before->next : &load->waits) = wait->next;
    if (load->waits) return;
    if (load->next) load->next->before = load->before;
    *(load->before ? &load->before->next : &self->first) = load->next;
}

void unlink_wait(Wait *wait) {
    Waits *self = wait->load->graph;
    STEP
    take_out(self, wait);
    END_STEP
}

/* Takes a wait out of the load and wakes it, if it is a thread's. A task's, which is to be woken, is returned with a reference. */
static PyObject *take_wait(Waits *self, Load *load, int *is_empty) {
    PyObject *task_wait = NULL;
    STEP
    Wait *wait = load->waits;
    *is_empty = !wait;
    if (wait) {
        task_wait = wait->task_wait;
        Py_XINCREF(task_wait);
        take_out(self, wait);
        /* From here on a thread's wait may be gone. */
        if (wait->lock) PyThread_release_lock(wait->lock);
    }
    END_STEP
    return task_wait;
}

/* Wakes all who wait for a load that has ended. An interrupt that strikes meanwhile is raised once all are woken. What else a task's `ring`
 * raises is passed over: its loop is closed, or memory was refused, and a task looks for itself from time to time. */
int ring(Load *load) {
    PyObject *type = NULL, *raised = NULL, *trace = NULL;
    int is_empty = 0;
    while (load->graph) {
        PyObject *wait = take_wait(load->graph, load, &is_empty);
        if (is_empty) break;
        if (!wait) continue;
        for (int tries = 0; tries < 2; tries++) {
            PyObject *rung = PyObject_CallMethod(wait, "ring", NULL);
            Py_XDECREF(rung);
            if (rung) break;
            if (type || PyErr_ExceptionMatches(PyExc_Exception)) PyErr_Clear();
            else PyErr_Fetch(&type, &raised, &trace);
        }
        Py_DECREF(wait);
    }
    if (type) PyErr_Restore(type, raised, trace);
    return type ? -1 : 0;
}

/* The moment, in nanoseconds, at which a wait of so many seconds ends; -1 for none. -2 with an exception. */
static long long end_of(Table *self, PyObject *timeout) {
    if (!timeout || timeout == Py_None) return -1;
    double seconds = seconds_of(self, timeout);
    if (seconds == -1 && PyErr_Occurred()) return -2;
    if (seconds != seconds) {
        PyErr_SetString(PyExc_ValueError, "timeout is no number");
        return -2;
    }
    /* Beyond thirty years nobody waits. */
    return seconds > 1e9 ? -1 : nanoseconds() + (seconds > 0 ? (long long)(seconds * 1e9) : 0);
}

/* Asks _waits.py whether this thread may wait: 0; 1 if nobody will ever end the load; -1 with WaitsForItself. */
static int checked(Waits *self, Load *load, Wait *wait) {
    PyObject *who = Py_BuildValue("kO", wait->thread, wait->loop ? wait->loop : Py_None);
    PyObject *is_left = who ? PyObject_CallMethod((PyObject *)self, "check", "OOK", (PyObject *)load, who, wait->serial) : NULL;
    int left = is_left ? PyObject_IsTrue(is_left) : -1;
    Py_XDECREF(is_left);
    Py_XDECREF(who);
    return left;
}

/* Waits until the lock is released, for so many microseconds at most. 1 once it is, 0 if not yet, -1 if a signal handler raised. */
static int sleep_on(PyThread_type_lock lock, long long microseconds) {
    PyLockStatus got;
    Py_BEGIN_ALLOW_THREADS
    got = PyThread_acquire_lock_timed(lock, microseconds, 1);
    Py_END_ALLOW_THREADS
    if (got == PY_LOCK_INTR && PyErr_CheckSignals() < 0) return -1;
    return got == PY_LOCK_ACQUIRED;
}

/* Ends a load that nobody will end. Those who wait for it ask again. */
int forsake(Table *self, Load *load, const char *why) {
    PyObject *ended = PyObject_CallFunction(PyExc_SystemExit, "s", why);
    if (!ended) return -1;
    int failed = fail(self, load, ended);
    Py_DECREF(ended);
    return failed < 0 ? -1 : 0;
}

/* The wait looks again after one second, two, four, and so on up to a minute: a circle may close, or a loop be closed, later on. */
static int wait_linked(Table *self, Load *load, Wait *wait, PyObject *timeout) {
    long long end = end_of(self, timeout), pause = 1000000;
    if (end == -2) return -1;
    while (!load->is_over) {
        int left = checked(load->graph, load, wait);
        if (left) return left < 0 ? -1 : forsake(self, load, "the task that made the load is done, or its loop is closed");
        long long rest = end < 0 ? pause : (end - nanoseconds()) / 1000 + 1;
        if ((rest = time_left(self, load, rest < 0 ? 0 : rest < pause ? rest : pause)) < 0) return -1;
        int woken = sleep_on(wait->lock, rest);
        if (woken) return woken < 0 ? -1 : 0;
        if (end >= 0 && nanoseconds() >= end && !load->is_over) {
            PyErr_Format(PyExc_TimeoutError, "the load of the key took longer than %S%s", timeout, is_timedelta(self, timeout) > 0 ? "" : " s");
            return -1;
        }
        if (pause < 60000000) pause *= 2;
    }
    return 0;
}

/* Waits in this thread until the load ends: 0, or -1 with TimeoutError, WaitsForItself, or what a signal handler raised. */
int wait_for(Table *self, Load *load, PyObject *timeout) {
    Wait *wait = zeroed(sizeof(Wait));
    if (wait) wait->lock = PyThread_allocate_lock();
    if (!wait || !wait->lock) {
        PyMem_Free(wait);
        return no_memory(self);
    }
    PyThread_acquire_lock(wait->lock, NOWAIT_LOCK);
    wait->thread = PyThread_get_thread_ident();
    wait->loop = PyObject_CallMethod((PyObject *)self->waits, "running_loop", NULL);
    int waited = -1;
    if (wait->loop) {
        link_wait(self->waits, load, wait);
        waited = wait_linked(self, load, wait, timeout);
        unlink_wait(wait);
    }
    Py_XDECREF(wait->loop);
    PyThread_free_lock(wait->lock);
    PyMem_Free(wait);
    return waited;
}

/* The graph. */

/* Who may keep a load from ending: a task; a thread, with the loop that runs in it; or what a thread began before it ran its loop. In Python
 * they are the task, (thread, loop or None), and (thread,). */
typedef struct {
    PyObject *task, *loop;
    unsigned long thread;
    int is_below_loop;
} Who;

static int is_led(Load *load, const Who *who) {
    if (!load->task) return !who->task && load->thread == who->thread && (load->is_below_loop || !who->is_below_loop);
    PyObject *leader = PyWeakref_GetObject(load->task); /* borrowed */
    return leader != Py_None && (who->task ? leader == who->task : who->loop && load->loop == who->loop);
}

/* Takes apart what `who` is in Python. */
static int taken_apart(PyObject *given, Who *who) {
    *who = (Who){given, NULL, 0, 0};
    if (!PyTuple_Check(given)) return 0;
    *who = (Who){NULL, NULL, 0, PyTuple_Size(given) == 1};
    if (!PyArg_ParseTuple(given, "k|O", &who->thread, &who->loop)) return -1;
    if (who->loop == Py_None) who->loop = NULL;
    return 0;
}

static PyObject *waits_leads(PyObject *self, PyObject *args) {
    (void)self;
    PyObject *load, *given;
    Who who;
    if (!PyArg_ParseTuple(args, "OO", &load, &given) || taken_apart(given, &who) < 0) return NULL;
    if (!is_of(load, Py_tp_new, (void *)load_new)) return PyErr_Format(PyExc_TypeError, "it takes a load");
    return PyBool_FromLong(is_led((Load *)load, &who));
}

typedef struct {
    PyObject *task_wait, *loop;
    unsigned long thread;
} Waiting;

/* Copies the waits for loads that are led so and that began before `serial`, as many as there is room for; returns how many there are. */
static Py_ssize_t copy_waits(Waits *self, const Who *who, uint64_t serial, Waiting *all, Py_ssize_t room) {
    Py_ssize_t count = 0;
    STEP
    for (Load *load = self->first; load; load = load->next) {
        if (!is_led(load, who)) continue;
        for (Wait *wait = load->waits; wait; wait = wait->next) {
            if (wait->serial >= serial) continue;
            if (count < room) {
                all[count] = (Waiting){wait->task_wait, wait->loop, wait->thread};
                Py_XINCREF(wait->task_wait);
                Py_XINCREF(wait->loop);
            }
            count++;
        }
    }
    END_STEP
    return count;
}

static PyObject *waits_behind(Waits *self, PyObject *args) {
    PyObject *given;
    Who who;
    unsigned long long serial;
    if (!PyArg_ParseTuple(args, "OK", &given, &serial) || taken_apart(given, &who) < 0) return NULL;
    Py_ssize_t room = copy_waits(self, &who, serial, NULL, 0);
    Waiting *all = zeroed((size_t)(room + 1) * sizeof *all);
    if (!all) return PyErr_NoMemory();
    Py_ssize_t count = copy_waits(self, &who, serial, all, room);
    if (count > room) count = room;
    PyObject *list = PyList_New(count);
    for (Py_ssize_t i = 0; i < count; i++) {
        PyObject *one = all[i].task_wait;
        if (!one && list) one = Py_BuildValue("kO", all[i].thread, all[i].loop);
        if (list && (!one || PyList_SetItem(list, i, one) < 0)) Py_CLEAR(list);
        else if (!list) Py_XDECREF(one);
        Py_XDECREF(all[i].loop);
    }
    PyMem_Free(all);
    return list;
}

static void waits_dealloc(Waits *self) {
    PyTypeObject *type = Py_TYPE(self);
    ((freefunc)PyType_GetSlot(type, Py_tp_free))(self);
    Py_DECREF(type);
}

PyMethodDef waits_methods[] = {
    {"leads", METHOD(waits_leads), METH_VARARGS,
     "leads(load, who, /)\n--\n\n"
     "Tells whether `who` makes the load, or keeps its maker from going on."},
    {"behind", METHOD(waits_behind), METH_VARARGS,
     "behind(who, serial, /)\n--\n\n"
     "Returns who waits for a load that `who` makes, of those who began to wait before: tasks' waits, and pairs of threads."},
    {NULL, NULL, 0, NULL},
};

static PyType_Slot waits_slots[] = {
    {Py_tp_doc, "All waits for loads."},
    {Py_tp_dealloc, (void *)waits_dealloc},
    {Py_tp_methods, waits_methods},
    {0, NULL},
};

PyType_Spec waits_spec = {"rookdresser._native.Waits", sizeof(Waits), 0, Py_TPFLAGS_DEFAULT | Py_TPFLAGS_BASETYPE, waits_slots};

/* A task's wait. */

typedef struct {
    PyObject_HEAD
    Wait wait;
    PyObject *load;
} TaskWait;

static PyObject *task_wait_begin(TaskWait *self, PyObject *given) {
    Load *load = (Load *)given;
    if (self->load || !is_of(given, Py_tp_new, (void *)load_new) || !load->graph)
        return PyErr_Format(PyExc_ValueError, "a wait begins once, for a load that was opened");
    Py_INCREF(given);
    self->load = given;
    self->wait.task_wait = (PyObject *)self;
    link_wait(load->graph, load, &self->wait);
    return PyLong_FromUnsignedLongLong(self->wait.serial);
}

static PyObject *task_wait_end(TaskWait *self, PyObject *none) {
    (void)none;
    if (self->load) unlink_wait(&self->wait);
    Py_RETURN_NONE;
}

static int task_wait_traverse(TaskWait *self, visitproc visit, void *arg) {
    Py_VISIT(Py_TYPE(self));
    Py_VISIT(self->load);
    return 0;
}

static int task_wait_clear(TaskWait *self) {
    if (self->load) unlink_wait(&self->wait);
    Py_CLEAR(self->load);
    return 0;
}

static void task_wait_dealloc(TaskWait *self) {
    PyTypeObject *type = Py_TYPE(self);
    PyObject_GC_UnTrack(self);
    task_wait_clear(self);
    ((freefunc)PyType_GetSlot(type, Py_tp_free))(self);
    Py_DECREF(type);
}

static PyMethodDef task_wait_methods[] = {
    {"begin", METHOD(task_wait_begin), METH_O,
     "begin(load, /)\n--\n\n"
     "Begins to wait for the load, and returns how many waits have begun."},
    {"end", METHOD(task_wait_end), METH_NOARGS,
     "end()\n--\n\n"
     "Waits no more."},
    {NULL, NULL, 0, NULL},
};

static PyType_Slot task_wait_slots[] = {
    {Py_tp_doc, "A task's wait for a load, which calls its `ring` as it ends."},
    {Py_tp_dealloc, (void *)task_wait_dealloc},
    {Py_tp_traverse, (void *)task_wait_traverse},
    {Py_tp_clear, (void *)task_wait_clear},
    {Py_tp_methods, task_wait_methods},
    {0, NULL},
};

PyType_Spec task_wait_spec = {"rookdresser._native.TaskWait", sizeof(TaskWait), 0, BASE_WITH_GC, task_wait_slots};
