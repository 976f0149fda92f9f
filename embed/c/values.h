/* What the tests of rookdresser_loading.h share: numbered values, of which the ones that live are counted, requests in threads, and flags
 * that threads wait for. */
#include "rookdresser_loading.h"
#include <sched.h>
#include <stdatomic.h>
#include <stdio.h>
#include <stdlib.h>
#define CHECK(x)                                                                                             \
    do {                                                                                                     \
        if (!(x)) {                                                                                          \
            printf("line %d: %s\n", __LINE__, #x);                                                           \
            exit(1);                                                                                         \
        }                                                                                                    \
    } while (0)

enum { DOWN = RD_LOADING_ERRORS };

typedef struct value {
    rd_shared shared;
    int number;
} value;

static atomic_long live;

static rd_shared *new_value(int number) {
    value *v = malloc(sizeof *v);
    CHECK(v);
    v->number = number;
    live++;
    return &v->shared;
}

static void destroy(rd_shared *shared) {
    live--;
    free(shared);
}

static int number_of(rd_shared *shared) { return ((value *)shared)->number; }

static inline void wait_for(atomic_bool *flag) {
    while (!*flag) sched_yield();
}

static inline void wait_for_joins(rd_loading *l, uint64_t joins) {
    rd_stats stats;
    do {
        sched_yield();
        rd_loading_numbers(l, NULL, &stats);
    } while (stats.answers[RD_JOIN] < joins);
}

static inline void wait_for_loads(rd_loading *l, uint64_t loads) {
    rd_numbers n;
    do {
        sched_yield();
        rd_loading_numbers(l, &n, NULL);
    } while (n.flights < loads);
}

/* A get of a thread: what its load does, and what it was given. */
typedef struct request {
    rd_loading *of;
    uint64_t key, now;
    const struct timespec *deadline;
    int number;                     /* of the value to load, or 0 if the load fails */
    atomic_bool *until;             /* the load waits for this flag, if it isn't null */
    void (*within)(struct request *); /* what else it does, if that isn't null */
    int got;
    uint64_t fault;
    pthread_t thread;
} request;

static uint64_t load(void *context, uint64_t key, rd_shared **got, uint32_t *weight) {
    request *r = context;
    CHECK(key == r->key);
    if (r->until) wait_for(r->until);
    if (r->within) r->within(r);
    if (!r->number) return DOWN;
    *got = new_value(r->number);
    *weight = 1;
    return RD_OK;
}

static void get(request *r) {
    rd_shared *got = NULL;
    r->fault = rd_loading_get_until(r->of, r->key, r->now, load, r, r->deadline, &got);
    CHECK(!got == (r->fault != RD_OK));
    r->got = got ? number_of(got) : 0;
    rd_loading_release(r->of, got);
}

static void *get_in_thread(void *r) {
    get(r);
    return NULL;
}

static inline void begin(request *r) { CHECK(!pthread_create(&r->thread, NULL, get_in_thread, r)); }
static inline void end(request *r) { CHECK(!pthread_join(r->thread, NULL)); }

static inline int looked(rd_loading *l, uint64_t key, uint64_t now) {
    rd_shared *got;
    CHECK(rd_loading_look(l, key, now, &got) == RD_OK);
    int number = got ? number_of(got) : 0;
    rd_loading_release(l, got);
    return number;
}
