/* Eight threads get 64 keys again and again, through a cache of 32 entries. No two loads of a key run at once, each thread gets the
 * value of its key that was loaded last, or the error of the load that it shared, and the loads are as many as the cache counts. */
#include "rookdresser_waiting.h"
#include <sched.h>
#include <stdatomic.h>
#include <stdio.h>
#include <stdlib.h>
#define CHECK(x)                                   \
    do {                                           \
        if (!(x)) {                                \
            printf("line %d: %s\n", __LINE__, #x); \
            exit(1);                               \
        }                                          \
    } while (0)

enum { THREADS = 8, EACH = 20000, KEYS = 64, ERROR = 1001 };
static rd_gate gate = RD_GATE_INIT;
static rd_caller callers[THREADS];
static atomic_int loading[KEYS];
static atomic_uint_least64_t loads, failures, hits, errors, moment;

static uint64_t load(void *context, uint64_t key, rd_token *value) {
    (void)context;
    CHECK(atomic_fetch_add(&loading[key], 1) == 0);
    uint64_t number = atomic_fetch_add(&loads, 1);
    if (number % 4 == 0) sched_yield();
    CHECK(atomic_fetch_sub(&loading[key], 1) == 1);
    if (number % 16 == 7) {
        atomic_fetch_add(&failures, 1);
        return ERROR;
    }
    *value = (rd_token){number * KEYS + key, 1 + (uint32_t)key % 3};
    return RD_OK;
}

static void *work(void *given) {
    rd_caller *caller = given;
    unsigned seed = (unsigned)(caller - callers) + 1;
    for (int i = 0; i < EACH; i++) {
        uint64_t key = (uint64_t)(rand_r(&seed) % KEYS), fault;
        rd_token value = {0, 0};
        rd_answer answer;
        fault = rd_shared_get(&gate, caller, key, atomic_fetch_add(&moment, 1) / 64, load, 0, &value, &answer);
        if (fault == ERROR) atomic_fetch_add(&errors, 1);
        else CHECK(fault == RD_OK && value.token % KEYS == key && value.weight == 1 + key % 3);
        if (fault == RD_OK && answer.kind == RD_HIT) atomic_fetch_add(&hits, 1);
    }
    return 0;
}

int main(void) {
    static const rd_setup setup = {.entries = 32, .window = 4, .flights = 64, .bound = 50, .after_write = 200, .refresh = 50};
    pthread_t threads[THREADS];
    CHECK(rd_shared_open(&setup, &callers[0]) == RD_OK);
    for (int t = 1; t < THREADS; t++) CHECK(rd_shared_another(&callers[0], &callers[t]) == RD_OK);
    for (int t = 0; t < THREADS; t++) CHECK(pthread_create(&threads[t], 0, work, &callers[t]) == 0);
    for (int t = 0; t < THREADS; t++) CHECK(pthread_join(threads[t], 0) == 0);
    uint64_t place, most = 0;
    for (int t = 0; t < THREADS; t++) {
        CHECK(rd_shared_get_place(&callers[t], &place) == RD_OK);
        if (place > most) most = place;
        CHECK(rd_shared_close(&callers[t]) == RD_OK);
    }
    /* Each get is a seek, each load a landing, and there are no other calls. */
    CHECK(most == (uint64_t)THREADS * EACH + loads);
    CHECK(errors >= failures / 2 && hits > 0 && !gate.loads && !gate.abandoned && !gate.sleepers);
    printf("shared_loads: %d gets of %d threads, never two loads of a key at once\n", THREADS * EACH, THREADS);
    return 0;
}
