/* The native part of the package: the keys and values of Python beside the numbers and tokens of the library, and each call as one step.
 *
 * No lock guards a table. A call first runs all code of the caller's: clock, weigh, the key's hash, its equality. From there to the end of
 * its step, between the marks STEP and END_STEP, no code of Python runs: nothing is raised, no reference is dropped that may be the last,
 * and no object is made that gc watches. So the interpreter's lock, which is held all along, keeps other threads, finalizers and signal
 * handlers out, and a fork finds whole tables. Wake-ups, on_leave and the last references come after the step. On a build without that
 * lock a step is a critical section of its object. tools/gate/check_native_steps checks what is called within a step.
 *
 *     table.c   the keys in use, by their numbers         loads.c         how a load begins and ends
 *     keys.c    the number that is made of a key          waits.c         who waits for which load
 *     ask.c     what runs code of the caller's            python_loads.c  loads that are made in Python
 *     held.c    what a table holds                        calls.c         the calls by key
 *     advice.c  how the windows follow the look-ups       sweeps.c        what takes entries out of the whole table
 *     life.c    how a table is opened, and its end        function.c      a cached function
 *     given_up.c  loads that take too long, or are abandoned
 *     open_loads.c  what one asks of the loads
 *     durations.c  lives and time-outs, which are numbers or timedeltas */
#include "native.h"

void join_methods(void);

/* The three numbers of a version. */
#define NUMBERS(version) (int)((version) / 1000000), (int)((version) / 1000 % 1000), (int)((version) % 1000)

static int has_right_library(void) {
    if (rd_is_this_version()) return 1;
    const uint64_t found = rd_version(), wanted = RD_VERSION;
    PyErr_Format(PyExc_ImportError, "librookdresser is of version %d.%d.%d, and this package is of %d.%d.%d", NUMBERS(found), NUMBERS(wanted));
    return 0;
}

static int fill(PyObject *module) {
#ifdef __x86_64__
    if (!__builtin_cpu_supports("sse4.2") || !__builtin_cpu_supports("popcnt") || !__builtin_cpu_supports("ssse3")) {
        PyErr_SetString(PyExc_ImportError, "rookdresser needs a processor of x86-64-v2 or later");
        return -1;
    }
#endif
    if (!has_right_library()) return -1;
    static PyType_Spec *const specs[] = {&table_spec, &load_spec, &waits_spec, &task_wait_spec, &function_spec};
    join_methods();
    for (size_t i = 0; i < sizeof specs / sizeof *specs; i++) {
        PyObject *type = PyType_FromSpec(specs[i]);
        if (!type || PyModule_AddObject(module, strrchr(specs[i]->name, '.') + 1, type) < 0) {
            Py_XDECREF(type);
            return -1;
        }
    }
    return 0;
}

static PyModuleDef_Slot slots[] = {
    {Py_mod_exec, (void *)fill},
#ifdef Py_GIL_DISABLED
    {Py_mod_gil, Py_MOD_GIL_NOT_USED},
#endif
    {0, NULL},
};

static PyModuleDef definition = {PyModuleDef_HEAD_INIT, "_native", "The native part of rookdresser.", 0, duration_functions, slots, NULL, NULL, NULL};

PyMODINIT_FUNC PyInit__native(void) { return PyModuleDef_Init(&definition); }
