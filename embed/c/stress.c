/* Eight threads on one loading cache, 100,000 requests. With expiry, refresh, failing loads, invalidations during loads, waits with a
 * deadline, and a listener that gets and looks up other keys; the same with a window that follows; and a cache that is closed while in
 * use. Afterwards exactly the values live that the library holds, and in the end none. The listener got each entry that left, once. */
#include "keys.h"
#ifdef NAMES
#define ROOKDRESSER_LOADING_NAMES
#define KEY(k) spelled(k)
#else
#define KEY(k) (k)
#endif
#include "rookdresser_loading.h"
#include <sched.h>
#include <stdatomic.h>
#define THREADS 8
#define EACH 12500
#define CHECK(x)                                                                                             \
    do {                                                                                                     \
        if (!(x)) {                                                                                          \
            printf("line %d: %s\n", __LINE__, #x);                                                           \
            exit(1);                                                                                         \
        }                                                                                                    \
    } while (0)

typedef struct value {
    rd_shared shared;
    uint64_t key;
    atomic_bool has_left;
} value;

static atomic_long live;
static atomic_ullong moment;

static rd_shared *new_value(uint64_t key) {
    value *v = malloc(sizeof *v);
    CHECK(v);
    live++;
    v->key = key;
    v->has_left = false;
    return &v->shared;
}

static void destroy(rd_shared *shared) {
    live--;
    free(shared);
}

/* A load, which may fail, drop its own key, or be given up. */
typedef struct request {
    rd_loading *of;
    uint64_t key;
    unsigned what;
} request;

static uint64_t load(void *context, rd_loading_key key, rd_shared **got, uint32_t *weight) {
    const request *r = context;
    if (r->what < 5) return RD_LOADING_ERRORS;
    if (r->what < 10) {
        uint64_t fault = rd_loading_drop(r->of, key, moment);
        CHECK(fault == RD_OK || fault == RD_CLOSED);
    } else if (r->what < 15) {
        rd_loading_abandon(r->of, key, RD_LOADING_ERRORS);
    } else {
        sched_yield();
    }
    *got = new_value(r->key);
    *weight = (uint32_t)(r->key % 20);
    return RD_OK;
}

/* A third of the gets have a deadline: it has passed, or is far away. */
static uint64_t get(rd_loading *l, uint64_t key, unsigned what) {
    static const struct timespec deadlines[] = {{0, 1}, {INT32_MAX, 0}};
    request r = {l, key, what};
    rd_shared *got;
    uint64_t fault = what % 6 < 2 ? rd_loading_get_until(l, KEY(key), moment, load, &r, &deadlines[what % 6], &got)
                                  : rd_loading_get(l, KEY(key), moment, load, &r, &got);
    CHECK(!got == (fault != RD_OK));
    CHECK(!got || ((value *)got)->key == key);
    rd_loading_release(l, got);
    if (fault == RD_TIMED_OUT) CHECK(what % 6 == 0);
    return fault == RD_TOO_MANY_FLIGHTS || fault == RD_LOADING_ERRORS || fault == RD_TIMED_OUT ? RD_OK : fault;
}

static uint64_t look(rd_loading *l, uint64_t key) {
    rd_shared *got;
    uint64_t fault = rd_loading_look(l, KEY(key), moment, &got);
    CHECK(!got || ((value *)got)->key == key);
    rd_loading_release(l, got);
    return fault;
}

/* What the listener of a cache got, by causes. */
typedef struct tally {
    rd_loading *of;
    atomic_ullong left[RD_SIZE + 1];
} tally;

/* Each value comes once, under its key. Now and then it uses the cache. If it does so within a load of this thread, a circle may close. */
static void count_left(void *context, rd_loading_key key, rd_shared *shared, enum rd_cause cause) {
    static _Thread_local int depth;
    tally *to = context;
    value *v = (value *)shared;
    rd_loading_key wanted = KEY(v->key);
    CHECK(!atomic_exchange(&v->has_left, true) && memcmp(&key, &wanted, sizeof key) == 0);
    to->left[cause]++;
    if (depth > 1 || v->key % 8 > 1) return;
    depth++;
    uint64_t fault = v->key % 8 ? look(to->of, v->key / 2) : get(to->of, v->key / 2, 6);
    CHECK(fault == RD_OK || fault == RD_CLOSED || fault == RD_WAITS_FOR_ITSELF);
    depth--;
}

/* The counts of the cache are those of the listener. */
static void check_told(rd_loading *l, const tally *to) {
    rd_stats s;
    CHECK(rd_loading_numbers(l, 0, &s) == RD_OK);
    for (int cause = RD_EXPLICIT; cause <= RD_SIZE; cause++) CHECK(s.left[cause] == to->left[cause]);
}

typedef struct worker {
    rd_loading *of;
    uint64_t rng;
    pthread_t thread;
} worker;

static uint64_t below(worker *w, uint64_t limit) {
    w->rng ^= w->rng << 13;
    w->rng ^= w->rng >> 7;
    w->rng ^= w->rng << 17;
    return (w->rng >> 16) % limit;
}

static uint64_t make(worker *w, uint64_t key, unsigned what) {
    if (what < 820) return get(w->of, key, what % 100);
    if (what < 870) return look(w->of, key);
    if (what < 950) return rd_loading_put(w->of, KEY(key), new_value(key), (uint32_t)(key % 20), moment);
    if (what < 970) return rd_loading_drop(w->of, KEY(key), moment);
    if (what < 990) return rd_loading_forget(w->of, KEY(key), moment);
    return what == 999 && below(w, 20) == 0 ? rd_loading_clear(w->of, moment) : rd_loading_clean(w->of, moment);
}

static void *work(void *given) {
    worker *w = given;
    for (int i = 0; i < EACH; i++) {
        uint64_t key = below(w, 2000), other = below(w, 2000);
        moment += below(w, 4) == 0;
        uint64_t fault = make(w, other < key ? other : key, (unsigned)below(w, 1000));
        if (fault == RD_CLOSED) break;
        CHECK(fault == RD_OK);
    }
    return 0;
}

static void run(rd_loading *l, tally *to, bool adapts, bool closes) {
    static const rd_setup setup = {.entries = 520, .window = 5, .flights = 64, .bound = 4000, .after_write = 1500, .refresh = 600};
    worker workers[THREADS];
    CHECK((adapts ? rd_loading_open_adaptive : rd_loading_open)(l, &setup, destroy) == RD_OK);
    to->of = l;
    rd_loading_listen(l, count_left, to);
    for (uint64_t i = 0; i < THREADS; i++) {
        workers[i].of = l;
        workers[i].rng = i * 104729 + 3;
        CHECK(!pthread_create(&workers[i].thread, 0, work, &workers[i]));
    }
    if (closes) {
        for (rd_numbers n = {.lookups = 0}; n.lookups < 1000;) {
            sched_yield();
            CHECK(rd_loading_numbers(l, &n, 0) == RD_OK);
        }
        CHECK(rd_loading_close(l) == RD_OK);
    }
    for (int i = 0; i < THREADS; i++) CHECK(!pthread_join(workers[i].thread, 0));
    CHECK(!l->loads);
    check_told(l, to);
}

/* After the requests: exactly the values live that the library holds, and the counts add up. */
static void check_whole(rd_loading *l, const tally *to) {
    rd_numbers n;
    rd_stats s;
    CHECK(rd_loading_numbers(l, &n, &s) == RD_OK);
    printf("%llu entries, %ld live; hits %llu misses %llu loads %llu failed %llu evicted %llu, a window of %u\n", (unsigned long long)n.entries,
           (long)live, (unsigned long long)n.hits, (unsigned long long)n.misses, (unsigned long long)n.loads, (unsigned long long)n.failed,
           (unsigned long long)n.evicted, rd_loading_window(l));
    CHECK(n.entries > 0 && n.entries == (uint64_t)live && n.flights == 0);
    CHECK(rd_hits(&s) == n.hits && rd_misses(&s) == n.misses && rd_loads(&s) == n.loads && s.answers[RD_FAILED] == n.failed);
    CHECK(rd_evicted(&s) == n.evicted && rd_held(&s) == n.entries && s.misused == 0);
    /* Each load that was begun has landed once. */
    CHECK(s.answers[RD_LEAD] + s.answers[RD_HIT_LEAD] == rd_loads(&s) + s.answers[RD_FAILED] && s.answers[RD_GONE] == 0);
    CHECK(s.given_up > 0 && s.late == s.given_up);
    CHECK(s.answers[RD_HIT_LEAD] > 0 && s.answers[RD_LOOSE] > 0 && s.left[RD_EXPIRED] > 0);
#ifdef NAMES
    rd_shared *got;
    CHECK(rd_loading_look(l, (rd_name){{0}, UINT64_MAX}, moment, &got) == RD_NAME_TOO_LONG && !got);
#endif
    CHECK(rd_loading_clear(l, moment) == RD_OK && live == 0);
    CHECK(rd_loading_close(l) == RD_OK);
    check_told(l, to);
}

int main(void) {
    static rd_loading fixed = RD_LOADING_INIT, adapted = RD_LOADING_INIT, closed = RD_LOADING_INIT;
    static tally of_fixed, of_adapted, of_closed;
    run(&fixed, &of_fixed, false, false);
    check_whole(&fixed, &of_fixed);
    run(&adapted, &of_adapted, true, false);
    check_whole(&adapted, &of_adapted);
    run(&closed, &of_closed, true, true);
    CHECK(live == 0 && rd_loading_close(&closed) == RD_CLOSED);
    puts("stress: ok");
    return 0;
}
