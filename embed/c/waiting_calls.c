/* The gets of rookdresser_waiting.h that could wait forever: loads that wait for each other in a circle, of two to eight threads, and
 * loads that their thread can't land, since they closed its caller. */
#include "rookdresser_waiting.h"
#include <sched.h>
#include <stdio.h>
#include <stdlib.h>
#define CHECK(x)                                   \
    do {                                           \
        if (!(x)) {                                \
            printf("line %d: %s\n", __LINE__, #x); \
            exit(1);                               \
        }                                          \
    } while (0)

enum { THREADS = 8, NESTED = 100, KEYS = 12, EACH = 3000 };
static rd_gate gate;
static rd_caller callers[THREADS + 1]; /* the last one belongs to no thread: it reads the numbers and opens callers */
static int count, refused, loaded;
static pthread_barrier_t all_load;

static void open_callers(const rd_setup *setup, int callers_wanted) {
    static const rd_gate new_gate = RD_GATE_INIT;
    gate = new_gate;
    count = callers_wanted;
    refused = loaded = 0;
    CHECK(rd_shared_open(setup, &callers[THREADS]) == RD_OK);
    for (int t = 0; t < count; t++) CHECK(rd_shared_another(&callers[THREADS], &callers[t]) == RD_OK);
}

static rd_numbers numbers(void) {
    rd_numbers n;
    uint64_t fault;
    RD_WAITING(&gate, fault, rd_shared_get_numbers(&callers[THREADS], &n));
    CHECK(fault == RD_OK);
    return n;
}

/* Closes what is open. No load is left. */
static void close_callers(void) {
    CHECK(numbers().flights == 0 && !gate.loads && !gate.sleepers);
    for (int t = 0; t < count; t++) rd_shared_close(&callers[t]);
    CHECK(rd_shared_close(&callers[THREADS]) == RD_OK);
}

static void run(void *(*work)(void *), int threads) {
    pthread_t at[THREADS];
    for (long t = 0; t < threads; t++) CHECK(pthread_create(&at[t], 0, work, (void *)t) == 0);
    for (int t = 0; t < threads; t++) CHECK(pthread_join(at[t], 0) == 0);
}

static uint64_t get(long thread, uint64_t key, uint64_t now, rd_load_token *load, rd_token *value) {
    rd_answer answer;
    return rd_shared_get(&gate, &callers[thread], key, now, load, (void *)thread, value, &answer);
}

/* A load's value is 10 times its key, whatever became of the get that it made first. */
static uint64_t loads_after(uint64_t fault, uint64_t key, rd_token *value) {
    if (fault == RD_WAITS_FOR_ITSELF) __atomic_add_fetch(&refused, 1, __ATOMIC_SEQ_CST);
    CHECK(fault == RD_OK || fault == RD_WAITS_FOR_ITSELF);
    __atomic_add_fetch(&loaded, 1, __ATOMIC_SEQ_CST);
    *value = (rd_token){10 * key, 1};
    return RD_OK;
}

static const rd_setup roomy = {.entries = 600, .window = 6, .flights = 64, .bound = 1000};

static uint64_t asks_for_itself(void *thread, uint64_t key, rd_token *value) {
    return loads_after(get((long)thread, key, 0, asks_for_itself, value), key, value);
}

static void a_load_of_its_own_key(void) {
    rd_token value = {0, 0};
    open_callers(&roomy, 1);
    CHECK(get(0, 7, 0, asks_for_itself, &value) == RD_OK && value.token == 70 && refused == 1 && loaded == 1);
    close_callers();
}

/* Thread t loads key t, and once all load, key t + 1, which the next thread loads; the last one asks for key 0. */
static uint64_t asks_for_the_next(void *thread, uint64_t key, rd_token *value) {
    pthread_barrier_wait(&all_load);
    return loads_after(get((long)thread, (key + 1) % (uint64_t)count, 0, asks_for_the_next, value), key, value);
}

static void *in_a_circle(void *thread) {
    rd_token value = {0, 0};
    CHECK(get((long)thread, (uint64_t)(long)thread, 0, asks_for_the_next, &value) == RD_OK && value.token == 10 * (uint64_t)(long)thread);
    return 0;
}

static void circles(void) {
    for (int threads = 2; threads <= THREADS; threads++) {
        open_callers(&roomy, threads);
        CHECK(pthread_barrier_init(&all_load, 0, (unsigned)threads) == 0);
        run(in_a_circle, threads);
        CHECK(refused == 1 && loaded == threads);
        pthread_barrier_destroy(&all_load);
        close_callers();
    }
}

/* The same, but each load first loads a key of its own, and that load asks for the next thread's key. */
static uint64_t asks_within(void *thread, uint64_t key, rd_token *value) {
    uint64_t t = (uint64_t)(long)thread;
    if (key >= NESTED) return asks_for_the_next(thread, t, value);
    return loads_after(get((long)thread, key + NESTED, 0, asks_within, value), key, value);
}

static void *in_a_nested_circle(void *thread) {
    rd_token value = {0, 0};
    CHECK(get((long)thread, (uint64_t)(long)thread, 0, asks_within, &value) == RD_OK && value.token == 10 * (uint64_t)(long)thread);
    return 0;
}

static void a_nested_circle(void) {
    open_callers(&roomy, 3);
    CHECK(pthread_barrier_init(&all_load, 0, 3) == 0);
    run(in_a_nested_circle, 3);
    CHECK(refused == 1 && loaded == 6);
    pthread_barrier_destroy(&all_load);
    close_callers();
}

/* The first load closes its caller once so many have asked. */
static uint64_t asked;
static uint64_t closes_its_caller(void *thread, uint64_t key, rd_token *value) {
    if (__atomic_add_fetch(&loaded, 1, __ATOMIC_SEQ_CST) == 1) {
        while (numbers().lookups < asked) sched_yield();
        CHECK(rd_shared_close(&callers[(long)thread]) == RD_OK);
    }
    *value = (rd_token){10 * key, 1};
    return RD_OK;
}

static void *gets_it(void *thread) {
    rd_token value = {0, 0};
    uint64_t fault = get((long)thread, 5, 0, closes_its_caller, &value);
    CHECK(value.token == 50 && fault == (callers[(long)thread].is_open ? RD_OK : RD_CLOSED));
    return 0;
}

/* Those that came before the load was given up have its value. One that comes later may have to load: at most one load more is made. */
static void a_load_that_closes_its_caller(int threads) {
    rd_token value = {0, 0};
    open_callers(&roomy, threads);
    asked = (uint64_t)threads;
    run(gets_it, threads);
    if (!callers[0].is_open) CHECK(rd_shared_another(&callers[THREADS], &callers[0]) == RD_OK);
    CHECK(get(0, 5, 0, closes_its_caller, &value) == RD_OK && value.token == 50 && loaded == 2 && gate.abandoned == 1);
    rd_numbers n = numbers();
    CHECK(n.loads == 1 && n.failed == 1 && n.entries == 1);
    close_callers();
}

/* A due entry is served until it expires. Then the load that was given up is closed, and made again. */
static void a_refresh_that_closes_its_caller(void) {
    static const rd_setup due = {.entries = 600, .window = 6, .flights = 1, .bound = 1000, .after_write = 100, .refresh = 10};
    rd_token value = {0, 0};
    rd_answer answer;
    open_callers(&due, 2);
    asked = 1;
    CHECK(rd_shared_put(&callers[1], 5, (rd_token){49, 1}, 0, &answer) == RD_OK);
    CHECK(get(0, 5, 10, closes_its_caller, &value) == RD_OK && value.token == 49 && !callers[0].is_open);
    CHECK(get(1, 5, 99, closes_its_caller, &value) == RD_OK && value.token == 49 && loaded == 1 && numbers().flights == 1);
    CHECK(get(1, 5, 100, closes_its_caller, &value) == RD_OK && value.token == 50 && loaded == 2);
    close_callers();
}

/* A load of any of eight threads: it gets two keys of the cache, and it may have closed its caller, or fail. */
static uint64_t seeds[THREADS], moment;
static uint64_t random_below(long thread, uint64_t below) {
    uint64_t *s = &seeds[thread];
    *s ^= *s << 13;
    *s ^= *s >> 7;
    *s ^= *s << 17;
    return (*s >> 11) % below;
}

enum { DOWN = 1001 };
static uint64_t loads_anything(void *thread, uint64_t key, rd_token *value) {
    const long t = (long)thread;
    rd_token other;
    if (random_below(t, 50) == 0) rd_shared_close(&callers[t]);
    for (int i = 0; i < 2; i++) {
        uint64_t wanted = random_below(t, KEYS), fault = get(t, wanted, 0, loads_anything, &other);
        if (fault == RD_OK) CHECK(other.token % KEYS == wanted);
        else CHECK(fault == RD_WAITS_FOR_ITSELF || fault == DOWN || fault == RD_CLOSED);
        if (fault == RD_WAITS_FOR_ITSELF) __atomic_add_fetch(&refused, 1, __ATOMIC_SEQ_CST);
    }
    if (random_below(t, 10) == 0) return DOWN;
    *value = (rd_token){KEYS * random_below(t, 1000) + key, 1};
    return RD_OK;
}

static void *gets_anything(void *thread) {
    static pthread_mutex_t opening = PTHREAD_MUTEX_INITIALIZER;
    const long t = (long)thread;
    seeds[t] = 88172645463325252u + (uint64_t)t;
    for (int i = 0; i < EACH; i++) {
        uint64_t key = random_below(t, KEYS), fault;
        rd_token value = {0, 0};
        fault = get(t, key, __atomic_add_fetch(&moment, 1, __ATOMIC_SEQ_CST) / 64, loads_anything, &value);
        CHECK(fault == RD_OK ? value.token % KEYS == key : fault == DOWN || fault == RD_CLOSED);
        if (!callers[t].is_open) {
            pthread_mutex_lock(&opening);
            CHECK(rd_shared_another(&callers[THREADS], &callers[t]) == RD_OK);
            pthread_mutex_unlock(&opening);
        }
    }
    return 0;
}

static uint64_t loads_it(void *thread, uint64_t key, rd_token *value) {
    (void)thread;
    *value = (rd_token){key, 1};
    return RD_OK;
}

static void any_loads(void) {
    static const rd_setup short_lived = {.entries = 600, .window = 6, .flights = 64, .bound = 1000, .after_write = 5};
    rd_token value;
    open_callers(&short_lived, THREADS);
    run(gets_anything, THREADS);
    for (uint64_t key = 0; key < KEYS; key++) CHECK(get(0, key, 0, loads_it, &value) == RD_OK && value.token % KEYS == key);
    CHECK(refused > 0 && gate.abandoned > 0);
    close_callers();
}

int main(void) {
    a_load_of_its_own_key();
    circles();
    a_nested_circle();
    for (int threads = 1; threads <= THREADS; threads++) a_load_that_closes_its_caller(threads);
    a_refresh_that_closes_its_caller();
    any_loads();
    printf("waiting_calls: no load waits for itself, and none that was given up is waited for\n");
    return 0;
}
