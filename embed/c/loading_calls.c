/* The calls of rookdresser_loading.h, each once with a known end: link with -Wl,--wrap=malloc,--wrap=realloc, so that memory can be
 * refused. After each test all values that live are the library's, and no load and no wait is left. */
#include "rookdresser_loading.h"
#include <sched.h>
#include <stdio.h>
#include <stdlib.h>
#define CHECK(x)                                                                                             \
    do {                                                                                                     \
        if (!(x)) {                                                                                          \
            printf("line %d: %s\n", __LINE__, #x);                                                           \
            exit(1);                                                                                         \
        }                                                                                                    \
    } while (0)
enum { DOWN = RD_LOADING_ERRORS };

static long live, refuse_in = -1; /* with one thread alone, or under the lock below */
static pthread_mutex_t counting = PTHREAD_MUTEX_INITIALIZER;

void *__real_malloc(size_t n);
void *__real_realloc(void *p, size_t n);
void *__wrap_malloc(size_t n) { return refuse_in >= 0 && refuse_in-- == 0 ? NULL : __real_malloc(n); }
void *__wrap_realloc(void *p, size_t n) { return refuse_in >= 0 && refuse_in-- == 0 ? NULL : __real_realloc(p, n); }

typedef struct value {
    rd_shared shared;
    int number;
} value;

static rd_shared *new_value(int number) {
    value *v = __real_malloc(sizeof *v);
    v->number = number;
    pthread_mutex_lock(&counting);
    live++;
    pthread_mutex_unlock(&counting);
    return &v->shared;
}

static void (*as_it_is_destroyed)(void);

static void destroy(rd_shared *shared) {
    if (as_it_is_destroyed) as_it_is_destroyed();
    pthread_mutex_lock(&counting);
    live--;
    pthread_mutex_unlock(&counting);
    free(shared);
}

static int number_of(rd_shared *shared) { return ((value *)shared)->number; }

static rd_loading l = RD_LOADING_INIT;

static void whole(void) {
    rd_numbers n;
    CHECK(rd_loading_numbers(&l, &n, NULL) == RD_OK && n.flights == 0 && n.entries == (uint64_t)live && !l.loads);
}

static void wait_for_joins(uint64_t joins) {
    rd_stats stats;
    do {
        sched_yield();
        rd_loading_numbers(&l, NULL, &stats);
    } while (stats.answers[RD_JOIN] < joins);
}

/* A request of a thread, with what it does within its load and what it was given. */
typedef struct request {
    uint64_t key, now, other; /* other: a key to ask for within the load, or to drop */
    int number;               /* of the value to load, or 0 if the load fails */
    uint64_t joins;           /* so many joins are waited for within the load */
    enum { NOTHING, ASKS, DROPS, CLOSES } does;
    int got;
    uint64_t fault, inner;
    pthread_t thread;
} request;

static uint64_t load(void *context, uint64_t key, rd_shared **got, uint32_t *weight);

static void get(request *r) {
    rd_shared *got;
    r->fault = rd_loading_get(&l, r->key, r->now, load, r, &got);
    CHECK(!got == (r->fault != RD_OK));
    r->got = got ? number_of(got) : 0;
    rd_loading_release(&l, got);
}

static uint64_t load(void *context, uint64_t key, rd_shared **got, uint32_t *weight) {
    request *r = context, inner = {.key = r->other, .now = r->now, .number = 99};
    CHECK(key == r->key);
    if (r->joins) wait_for_joins(r->joins);
    if (r->does == ASKS) get(&inner), r->inner = inner.fault;
    if (r->does == DROPS) r->inner = rd_loading_drop(&l, r->other, r->now);
    if (r->does == CLOSES) r->inner = rd_loading_close(&l);
    if (!r->number) return DOWN;
    *got = new_value(r->number);
    *weight = 1;
    return RD_OK;
}

static void *get_in_thread(void *r) {
    get(r);
    return NULL;
}

static void begin(request *r) { CHECK(!pthread_create(&r->thread, NULL, get_in_thread, r)); }
static void end(request *r) { CHECK(!pthread_join(r->thread, NULL)); }

static int looked(uint64_t key, uint64_t now) {
    rd_shared *got;
    CHECK(rd_loading_look(&l, key, now, &got) == RD_OK);
    int number = got ? number_of(got) : 0;
    rd_loading_release(&l, got);
    return number;
}

static void test_one_load_for_all(void) {
    request lead = {.key = 1, .number = 5, .joins = 7}, others[7];
    begin(&lead);
    for (rd_numbers n = {.flights = 0}; !n.flights; rd_loading_numbers(&l, &n, NULL)) sched_yield();
    for (int i = 0; i < 7; i++) others[i] = (request){.key = 1, .number = 6}, begin(&others[i]);
    end(&lead);
    CHECK(lead.fault == RD_OK && lead.got == 5);
    for (int i = 0; i < 7; i++) {
        end(&others[i]);
        CHECK(others[i].fault == RD_OK && others[i].got == 5);
    }
    whole();
}

static void test_a_load_that_fails_for_two(void) {
    request lead = {.key = 2, .joins = 8}, other = {.key = 2, .number = 6};
    begin(&lead);
    for (rd_numbers n = {.flights = 0}; !n.flights; rd_loading_numbers(&l, &n, NULL)) sched_yield();
    begin(&other);
    end(&lead);
    end(&other);
    CHECK(lead.fault == DOWN && other.fault == DOWN && looked(2, 0) == 0);
    whole();
}

static void test_a_refresh(void) {
    request fails = {.key = 1, .now = 60}, loads = {.key = 1, .now = 60, .number = 8};
    get(&fails);
    CHECK(fails.fault == RD_OK && fails.got == 5);
    get(&loads);
    CHECK(loads.fault == RD_OK && loads.got == 8 && looked(1, 60) == 8);
    whole();
}

static void test_waits_for_itself(void) {
    request own = {.key = 3, .now = 60, .other = 3, .number = 1, .does = ASKS};
    get(&own);
    CHECK(own.fault == RD_OK && own.got == 1 && own.inner == RD_WAITS_FOR_ITSELF);
    /* Each of two asks for the other's key once both have begun: the last to ask is refused. */
    request one = {.key = 4, .now = 60, .other = 5, .number = 1, .joins = 10, .does = ASKS};
    request two = {.key = 5, .now = 60, .other = 4, .number = 2, .does = ASKS};
    begin(&one);
    for (rd_numbers n = {.flights = 0}; !n.flights; rd_loading_numbers(&l, &n, NULL)) sched_yield();
    begin(&two);
    end(&one);
    end(&two);
    CHECK(one.fault == RD_OK && two.fault == RD_OK && one.inner == RD_WAITS_FOR_ITSELF && two.inner == RD_OK);
    whole();
}

static void test_changes_during_a_load(void) {
    request drops = {.key = 6, .now = 60, .other = 6, .number = 1, .does = DROPS};
    get(&drops);
    CHECK(drops.fault == RD_OK && drops.got == 1 && drops.inner == RD_OK && looked(6, 60) == 0);
    CHECK(rd_loading_put(&l, 6, new_value(2), 1, 60) == RD_OK && looked(6, 60) == 2);
    CHECK(rd_loading_put(&l, 6, new_value(3), 101, 60) == RD_TOO_HEAVY && looked(6, 60) == 2);
    CHECK(rd_loading_forget(&l, 6, 60) == RD_OK && rd_loading_clean(&l, 160) == RD_OK && looked(6, 160) == 0);
    whole();
}

static void look_at_another(void) { CHECK(looked(11, 160) == 11); }

static void test_a_destroy_that_uses_the_cache(void) {
    CHECK(rd_loading_put(&l, 11, new_value(11), 1, 160) == RD_OK && rd_loading_put(&l, 12, new_value(12), 1, 160) == RD_OK);
    CHECK(looked(11, 160) == 11);
    as_it_is_destroyed = look_at_another;
    CHECK(rd_loading_put(&l, 12, new_value(13), 1, 160) == RD_OK && rd_loading_drop(&l, 12, 160) == RD_OK);
    as_it_is_destroyed = NULL;
    whole();
}

/* Of 300 loads the first or the second allocation is refused: the get is, or else its value is returned and not stored. */
static void test_refused_memory(void) {
    rd_stats before, after;
    long refused = 0;
    rd_loading_numbers(&l, NULL, &before);
    for (long i = 0; i < 300; i++) {
        request r = {.key = 1000 + (uint64_t)i, .now = 160, .number = 1};
        refuse_in = i % 2;
        get(&r);
        bool was = refuse_in == -1;
        refuse_in = -1;
        CHECK(r.fault == RD_OK ? r.got == 1 : was && r.fault == RD_OUT_OF_MEMORY);
        refused += r.fault != RD_OK;
        whole();
    }
    rd_loading_numbers(&l, NULL, &after);
    long loose = (long)(after.answers[RD_LOOSE] - before.answers[RD_LOOSE]);
    printf("%ld gets refused memory, %ld values not stored\n", refused, loose);
    CHECK(loose > 0);
}

static rd_loading_job *job;

static bool keep(void *context, rd_loading_job *given) {
    (void)context;
    job = given;
    return true;
}

/* Of the refresh of an entry each allocation is refused: the get is, or its caller makes the load, or else a job is handed on. */
static void test_a_job_that_is_refused_memory(void) {
    long refused = 0, made = 0;
    request r; /* is there until the job is made */
    rd_loading_refresh_with(&l, keep, NULL);
    for (long i = 0; !job; i++) {
        r = (request){.key = 9, .now = 210, .number = 4};
        CHECK(rd_loading_clear(&l, 160) == RD_OK && rd_loading_put(&l, 9, new_value(3), 1, 160) == RD_OK);
        refuse_in = i;
        get(&r);
        bool was = refuse_in == -1;
        refuse_in = -1;
        CHECK(r.fault == RD_OK ? r.got == (job ? 3 : 4) && was == !job : was && r.fault == RD_OUT_OF_MEMORY);
        refused += r.fault != RD_OK;
        made += r.fault == RD_OK && !job;
        if (!job) whole();
        CHECK(rd_loading_close(&l) == RD_OK);
        if (!job) CHECK(rd_loading_open(&l, &(rd_setup){.entries = 8, .window = 1, .flights = 4, .bound = 100, .after_write = 100, .refresh = 50}, destroy) == RD_OK);
    }
    rd_loading_make(job);
    rd_loading_refresh_with(&l, NULL, NULL);
    printf("%ld refreshes refused memory, %ld made by their callers\n", refused, made);
    CHECK(made == 1 && live == 0);
}

static void test_closing(void) {
    rd_shared *kept, *got;
    rd_numbers n;
    CHECK(rd_loading_put(&l, 7, new_value(7), 1, 160) == RD_OK && rd_loading_look(&l, 7, 160, &kept) == RD_OK);
    request closes = {.key = 8, .now = 160, .number = 8, .does = CLOSES};
    get(&closes);
    CHECK(closes.fault == RD_OK && closes.got == 8 && closes.inner == RD_OK);
    CHECK(live == 1 && number_of(kept) == 7 && rd_loading_share(kept) == kept && !rd_loading_share(NULL));
    rd_loading_release(&l, kept);
    CHECK(live == 1 && number_of(kept) == 7);
    rd_loading_release(&l, kept);
    CHECK(live == 0 && !l.loads && rd_loading_close(&l) == RD_CLOSED && rd_loading_look(&l, 7, 160, &got) == RD_CLOSED && !got);
    CHECK(rd_loading_put(&l, 7, new_value(7), 1, 160) == RD_CLOSED && live == 0 && rd_loading_numbers(&l, &n, NULL) == RD_CLOSED);
    CHECK(rd_loading_drop(&l, 7, 160) == RD_CLOSED && rd_loading_forget(&l, 7, 160) == RD_CLOSED && rd_loading_clear(&l, 160) == RD_CLOSED);
}

/* The streams of adaptive_calls.c: of keys that stay popular, and of keys that are asked for twice. */
static void test_a_window_that_follows(void) {
    rd_setup setup = {.entries = 512, .window = 77, .flights = 0, .bound = 1000};
    CHECK(rd_loading_open_adaptive(&l, &setup, destroy) == RD_BAD_SETUP && !l.cache.is_open && rd_loading_window(&l) == 0);
    setup.flights = 4;
    setup.entries = 63;
    CHECK(rd_loading_open_adaptive(&l, &setup, destroy) == RD_BAD_SETUP && !l.cache.is_open && rd_loading_window(&l) == 0);
    setup.entries = 512;
    for (long i = 0;; i++) {
        refuse_in = i;
        uint64_t fault = rd_loading_open_adaptive(&l, &setup, destroy);
        refuse_in = -1;
        if (!fault) break;
        CHECK(fault == RD_OUT_OF_MEMORY && !l.cache.is_open && !l.follower.adviser.is_open);
    }
    CHECK(rd_loading_window(&l) == 51 && rd_loading_open_adaptive(&l, &setup, destroy) == RD_OPEN_ALREADY);
    for (uint64_t i = 0; i < 20000; i++) {
        request r = {.key = i % 2 ? 1000000 + i / 2 : i / 2 % 512, .number = 1};
        get(&r);
        CHECK(r.fault == RD_OK);
    }
    CHECK(rd_loading_window(&l) == 5);
    for (uint64_t i = 0; i < 20000; i++) {
        uint64_t key = 2000000 + i / 2 - i % 2 * 180;
        if (!looked(key, 0)) CHECK(rd_loading_put(&l, key, new_value(1), 1, 0) == RD_OK);
    }
    CHECK(rd_loading_window(&l) == 512);
    /* Without memory for the adviser or a slide, no look fails. */
    for (long i = 0; i < 300; i++) {
        rd_shared *got;
        l.follower.window = 500;
        refuse_in = i % 3;
        CHECK(rd_loading_look(&l, 9000000 + (uint64_t)i, 0, &got) == RD_OK && !got);
        refuse_in = -1;
        l.follower.window = 512;
    }
    whole();
    CHECK(rd_loading_close(&l) == RD_OK && live == 0 && rd_loading_window(&l) == 0 && !l.follower.adviser.is_open);
    /* The notices of a look and of a get are read before the border moves. */
    setup.after_write = 100;
    CHECK(rd_loading_open_adaptive(&l, &setup, destroy) == RD_OK);
    CHECK(rd_loading_put(&l, 1, new_value(1), 1, 0) == RD_OK && rd_loading_put(&l, 2, new_value(2), 1, 0) == RD_OK);
    l.follower.window = 20;
    request again = {.key = 2, .now = 200, .number = 3};
    CHECK(looked(1, 200) == 0 && l.follower.window == 24 && live == 1);
    get(&again);
    CHECK(again.got == 3 && l.follower.window == 28 && live == 1);
    whole();
    CHECK(rd_loading_close(&l) == RD_OK && live == 0);
}

int main(void) {
    const rd_setup setup = {.entries = 8, .window = 1, .flights = 4, .bound = 100, .after_write = 100, .refresh = 50};
    CHECK(rd_loading_open(&l, &setup, destroy) == RD_OK && rd_loading_open(&l, &setup, NULL) == RD_OPEN_ALREADY);
    test_one_load_for_all();
    test_a_load_that_fails_for_two();
    test_a_refresh();
    test_waits_for_itself();
    test_changes_during_a_load();
    test_a_destroy_that_uses_the_cache();
    test_refused_memory();
    test_closing();
    CHECK(rd_loading_open(&l, &setup, destroy) == RD_OK);
    test_a_job_that_is_refused_memory();
    CHECK(rd_loading_open(&l, &setup, destroy) == RD_OK && rd_loading_clear(&l, 0) == RD_OK && rd_loading_close(&l) == RD_OK);
    test_a_window_that_follows();
    puts("loading calls: ok");
    return 0;
}
