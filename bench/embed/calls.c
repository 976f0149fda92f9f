/* calls FORM KEYS ROUNDS THREADS [WORK]: hits, puts and read-through of the keys in a file, by threads on one cache: a line for each
 * round, with the nanoseconds an operation and the misses. FORM is `alone`, rd_look and the others on one thread; `mutex`,
 * the same in a pthread mutex; `shared`, rd_shared_look and the others, each thread with a caller of its own; or `loading`, rd_loading_look,
 * rd_loading_put and rd_loading_get. */
#include "rookdresser_loading.h"
#include "rookdresser_waiting.h"
#include <stdio.h>
#include <stdlib.h>
#include <string.h>

enum { ENTRIES = 4096, HELD = 2048, MOST = 64 };
enum form { ALONE, MUTEX, SHARED, LOADING };
enum work { HIT, PUT, MIXED, READ_THROUGH };
static enum form form;
static enum work work;
static uint64_t *keys;
static size_t count, threads;
static rd_cache cache;
static pthread_mutex_t lock = PTHREAD_MUTEX_INITIALIZER;
static rd_gate gate = RD_GATE_INIT;
static rd_loading loading = RD_LOADING_INIT;
static rd_caller callers[MOST];
static uint64_t missed[MOST];

static double now_ns(void) {
    struct timespec t;
    clock_gettime(CLOCK_MONOTONIC, &t);
    return 1e9 * (double)t.tv_sec + (double)t.tv_nsec;
}

static void wants(bool holds) {
    if (!holds) exit(3);
}

/* Each call below is made by the form that was asked for, and must not fail. */
#define MADE(of_cache, of_caller)                                     \
    do {                                                              \
        uint64_t fault;                                               \
        if (form == SHARED) RD_WAITING(&gate, fault, of_caller);      \
        else {                                                        \
            if (form == MUTEX) pthread_mutex_lock(&lock);             \
            fault = of_cache;                                         \
            if (form == MUTEX) pthread_mutex_unlock(&lock);           \
        }                                                             \
        wants(fault == RD_OK);                                        \
    } while (0)

/* A value of the loading cache, which has the key. */
typedef struct value {
    rd_shared shared;
    uint64_t key;
} value;

static rd_shared *made_value(uint64_t key) {
    value *made = malloc(sizeof *made);
    wants(made);
    made->key = key;
    return &made->shared;
}

static void let_go(rd_shared *shared) { free(shared); }

static uint64_t load(void *misses, uint64_t key, rd_shared **value, uint32_t *weight) {
    *value = made_value(key);
    *weight = 1;
    ++*(uint64_t *)misses;
    return RD_OK;
}

/* A call of the loading cache. Adds to the misses. */
static void call_loading(uint64_t key, uint64_t now, uint64_t *misses) {
    rd_shared *got = 0;
    if (work == PUT || (work == MIXED && now % 32 == 31)) {
        wants(rd_loading_put(&loading, key % HELD, made_value(key % HELD), 1, now) == RD_OK);
    } else if (work == READ_THROUGH) {
        wants(rd_loading_get(&loading, key, now, load, misses, &got) == RD_OK);
    } else {
        wants(rd_loading_look(&loading, key % HELD, now, &got) == RD_OK);
        *misses += !got;
    }
    rd_loading_release(&loading, got);
}

static inline void put(rd_caller *caller, uint64_t key, uint64_t now) {
    rd_answer answer;
    rd_token value = {key, 1};
    MADE(rd_put(&cache, key, value, now, &answer), rd_shared_put(caller, key, value, now, &answer));
}

static inline uint64_t hit(rd_caller *caller, uint64_t key, uint64_t now) {
    rd_answer answer;
    MADE(rd_look(&cache, key, now, &answer), rd_shared_look(caller, key, now, &answer));
    return answer.kind != RD_HIT;
}

static inline uint64_t read_through(rd_caller *caller, uint64_t key, uint64_t now) {
    rd_answer answer, landed;
    rd_token value = {key, 1};
    MADE(rd_seek(&cache, key, now, &answer), rd_shared_seek(caller, key, now, &answer));
    if (answer.kind == RD_LEAD)
        MADE(rd_land_keep(&cache, answer.number, key, value, now, &landed), rd_shared_land_keep(caller, answer.number, key, value, now, &landed));
    return answer.kind != RD_HIT;
}

/* Goes through all keys, from a place of the thread's own. */
static void *pass(void *given) {
    size_t t = (size_t)((rd_caller *)given - callers);
    rd_caller *caller = given;
    uint64_t misses = 0;
    for (size_t i = 0; form == LOADING && i < count; i++) call_loading(keys[(i + t * count / threads) % count], i, &misses);
    for (size_t i = 0; form != LOADING && i < count; i++) {
        uint64_t key = keys[(i + t * count / threads) % count];
        if (work == READ_THROUGH) misses += read_through(caller, key, i);
        else if (work == PUT || (work == MIXED && i % 32 == 31)) put(caller, key % HELD, i);
        else misses += hit(caller, key % HELD, i);
    }
    missed[t] = misses;
    return 0;
}

static void open_all(void) {
    rd_setup setup = {.entries = ENTRIES, .window = 41, .flights = 64, .bound = 1ull << 40};
    if (form == LOADING) wants(rd_loading_open(&loading, &setup, let_go) == RD_OK);
    else wants((form == SHARED ? rd_shared_open(&setup, &callers[0]) : rd_open(&setup, &cache)) == RD_OK);
    for (size_t t = 1; form == SHARED && t < threads; t++) wants(rd_shared_another(&callers[0], &callers[t]) == RD_OK);
    for (uint64_t key = 0; work != READ_THROUGH && key < HELD; key++) {
        if (form == LOADING) wants(rd_loading_put(&loading, key, made_value(key), 1, 0) == RD_OK);
        else put(&callers[0], key, 0);
    }
}

static void close_all(void) {
    if (form == LOADING) wants(rd_loading_close(&loading) == RD_OK);
    else if (form != SHARED) wants(rd_close(&cache) == RD_OK);
    for (size_t t = 0; form == SHARED && t < threads; t++) wants(rd_shared_close(&callers[t]) == RD_OK);
}

/* The nanoseconds of an operation in one round. */
static double one_round(void) {
    pthread_t others[MOST];
    open_all();
    double begun = now_ns();
    for (size_t t = 1; t < threads; t++) wants(pthread_create(&others[t], 0, pass, &callers[t]) == 0);
    pass(&callers[0]);
    for (size_t t = 1; t < threads; t++) wants(pthread_join(others[t], 0) == 0);
    double each = (now_ns() - begun) / (double)(count * threads);
    close_all();
    return each;
}

static void read_keys(const char *path) {
    FILE *file = fopen(path, "rb");
    wants(file && !fseek(file, 0, SEEK_END));
    count = (size_t)ftell(file) / sizeof *keys;
    rewind(file);
    keys = malloc(count * sizeof *keys);
    wants(keys && fread(keys, sizeof *keys, count, file) == count);
}

int main(int argc, char **argv) {
    static const char *const forms[] = {"alone", "mutex", "shared", "loading"}, *const works[] = {"hit", "put", "mixed", "read-through"};
    if (argc < 5) return 2;
    while (strcmp(argv[1], forms[form]))
        if (form++ == LOADING) return 2;
    read_keys(argv[2]);
    int rounds = atoi(argv[3]);
    threads = (size_t)atoi(argv[4]);
    if (!threads || threads > MOST || (form == ALONE && threads > 1)) return 2;
    for (work = HIT; work <= READ_THROUGH; work++) {
        if (argc > 5 && strcmp(argv[5], works[work])) continue;
        for (int round = 0; round < rounds; round++) {
            double each = one_round();
            uint64_t misses = 0;
            for (size_t t = 0; t < threads; t++) misses += missed[t];
            wants(work == READ_THROUGH || !misses);
            printf("%s %zu %.2f %llu\n", works[work], threads, each, (unsigned long long)misses);
        }
    }
    return 0;
}
