/* rookdresser_loading.h with a source that hangs: at the limit of open loads misses load beside the cache; loads are given up by
 * rd_loading_load_timeout and rd_loading_abandon, and what they bring late is never seen. */
#include "values.h"

static rd_loading l = RD_LOADING_INIT;
enum { HUNG = 64, STOPPED = RD_LOADING_ERRORS + 7, KEYS = 40, THREADS = 6, CALLS = 60000 };

static rd_stats stats_of(void) {
    rd_stats stats;
    rd_loading_numbers(&l, NULL, &stats);
    return stats;
}

static uint64_t flights(void) {
    rd_numbers n;
    CHECK(rd_loading_numbers(&l, &n, NULL) == RD_OK);
    return n.flights;
}

static void whole(void) {
    rd_numbers n;
    CHECK(rd_loading_numbers(&l, &n, NULL) == RD_OK && n.flights == 0 && n.entries == (uint64_t)live && !l.loads);
}

static uint64_t asked(uint64_t key, uint64_t now, int number, int *got) {
    request r = {.of = &l, .key = key, .now = now, .number = number};
    get(&r);
    *got = r.got;
    return r.fault;
}

/* So many loads hang, of the keys from 1000 on, begun at the moment 0. */
static request hung[HUNG];
static atomic_bool may_end;

static void hang(int count) {
    may_end = false;
    for (int i = 0; i < count; i++) {
        hung[i] = (request){.of = &l, .key = 1000 + (uint64_t)i, .number = 5, .until = &may_end};
        begin(&hung[i]);
        wait_for_loads(&l, (uint64_t)i + 1);
    }
}

static void end_all(int count, uint64_t fault) {
    may_end = true;
    for (int i = 0; i < count; i++) {
        end(&hung[i]);
        CHECK(hung[i].fault == fault && hung[i].got == (fault ? 0 : 5));
    }
}

static void test_a_healthy_key_is_answered_while_all_loads_hang(void) {
    int got;
    hang(HUNG);
    rd_stats before = stats_of();
    CHECK(asked(1, 0, 7, &got) == RD_OK && got == 7 && looked(&l, 1, 0) == 0);
    CHECK(asked(1, 0, 0, &got) == DOWN && got == 0);
    rd_stats after = stats_of();
    CHECK(after.beside == before.beside + 2 && rd_misses(&after) == rd_misses(&before) + 3 && after.refused[RD_TOO_MANY_FLIGHTS] == 0);
    CHECK(rd_loading_put(&l, 1, new_value(8), 1, 0) == RD_OK && asked(1, 0, 0, &got) == RD_OK && got == 8 && rd_loading_drop(&l, 1, 0) == RD_OK);
    CHECK(flights() == HUNG && live == 0);
    rd_loading_refuse_at_limit(&l, true);
    CHECK(asked(1, 0, 7, &got) == RD_TOO_MANY_FLIGHTS && got == 0 && stats_of().refused[RD_TOO_MANY_FLIGHTS] == 1 && live == 0);
    rd_loading_refuse_at_limit(&l, false);
    end_all(HUNG, RD_OK);
    CHECK(asked(1, 0, 7, &got) == RD_OK && looked(&l, 1, 0) == 7 && rd_loading_clear(&l, 0) == RD_OK);
    whole();
}

static void test_after_load_timeout_the_cache_is_as_new(void) {
    int got;
    rd_stats before = stats_of();
    request waits = {.of = &l, .key = 1000};
    rd_loading_load_timeout(&l, 30);
    hang(HUNG);
    begin(&waits);
    wait_for_joins(&l, before.answers[RD_JOIN] + 1);
    CHECK(asked(1, 29, 7, &got) == RD_OK && flights() == HUNG && looked(&l, 1, 29) == 0);
    CHECK(asked(1, 30, 7, &got) == RD_OK && flights() == 0 && looked(&l, 1, 30) == 7);
    end(&waits);
    CHECK(waits.fault == RD_TIMED_OUT && asked(1000, 30, 9, &got) == RD_OK && got == 9);
    end_all(HUNG, RD_TIMED_OUT);
    rd_stats after = stats_of();
    CHECK(after.given_up == before.given_up + HUNG && after.late == before.late + HUNG && live == 2 && looked(&l, 1000, 30) == 9);
    CHECK(rd_loading_clear(&l, 30) == RD_OK);
    whole();
    /* Without another get a timer gives up. */
    hang(3);
    rd_loading_give_up(&l, 29);
    CHECK(flights() == 3);
    rd_loading_give_up(&l, 30);
    CHECK(flights() == 0);
    end_all(3, RD_TIMED_OUT);
    /* The moments may be as late as there are. */
    rd_loading_load_timeout(&l, UINT64_MAX);
    hang(1);
    rd_loading_give_up(&l, UINT64_MAX - 1);
    CHECK(flights() == 1);
    end_all(1, RD_OK);
    rd_loading_load_timeout(&l, 0);
    CHECK(rd_loading_clear(&l, 30) == RD_OK);
    whole();
}

static void test_after_abandon_the_cache_is_as_new(void) {
    int got;
    rd_stats before = stats_of();
    request waits[3];
    hang(HUNG);
    for (int i = 0; i < 3; i++) {
        waits[i] = (request){.of = &l, .key = 1000};
        begin(&waits[i]);
    }
    wait_for_joins(&l, before.answers[RD_JOIN] + 3);
    for (uint64_t i = 0; i < HUNG; i++) CHECK(rd_loading_abandon(&l, 1000 + i, STOPPED) == 1 && rd_loading_abandon(&l, 1000 + i, STOPPED) == 0);
    for (int i = 0; i < 3; i++) {
        end(&waits[i]);
        CHECK(waits[i].fault == STOPPED && waits[i].got == 0);
    }
    CHECK(flights() == 0 && asked(1, 30, 7, &got) == RD_OK && looked(&l, 1, 30) == 7);
    end_all(HUNG, STOPPED);
    CHECK(live == 1 && stats_of().late == before.late + HUNG && rd_loading_clear(&l, 30) == RD_OK);
    whole();
}

/* Of a load that was forgotten, too; and of a cache that is closed meanwhile. */
static void test_forgotten_and_closed(void) {
    hang(1);
    CHECK(rd_loading_forget(&l, 1000, 30) == RD_OK);
    hung[1] = (request){.of = &l, .key = 1000, .now = 30, .number = 5, .until = &may_end};
    begin(&hung[1]);
    wait_for_loads(&l, 2);
    CHECK(rd_loading_abandon(&l, 1000, STOPPED) == 2 && flights() == 0);
    end_all(2, STOPPED);
    whole();
    const rd_setup setup = {.entries = 8, .window = 1, .flights = 2, .bound = 100};
    hang(1);
    CHECK(rd_loading_close(&l) == RD_OK && rd_loading_abandon(&l, 1000, STOPPED) == 1 && !l.loads);
    end_all(1, STOPPED);
    CHECK(live == 0 && rd_loading_open(&l, &setup, destroy) == RD_OK);
}

/* A load gives itself up, and the entry that was due keeps its old value. */
static uint64_t abandoned(void *context, uint64_t key, rd_shared **got, uint32_t *weight) {
    CHECK(rd_loading_abandon(&l, key, STOPPED) == 1);
    if (*(int *)context == 0) return DOWN;
    *got = new_value(*(int *)context);
    *weight = 1;
    return RD_OK;
}

static void test_a_refresh_that_is_given_up_returns_the_old_value(void) {
    const rd_setup setup = {.entries = 8, .window = 1, .flights = 2, .bound = 100, .refresh = 50};
    rd_shared *got;
    CHECK(rd_loading_close(&l) == RD_OK && rd_loading_open(&l, &setup, destroy) == RD_OK);
    for (int number = 0; number < 2; number++) {
        CHECK(rd_loading_get(&l, 1, 0, abandoned, &number, &got) == (number ? (uint64_t)STOPPED : (uint64_t)DOWN) && !got && live == 0);
        CHECK(rd_loading_put(&l, 1, new_value(3), 1, 0) == RD_OK);
        CHECK(rd_loading_get(&l, 1, 50, abandoned, &number, &got) == RD_OK && number_of(got) == 3 && live == 1);
        rd_loading_release(&l, got);
        whole();
        CHECK(rd_loading_close(&l) == RD_OK && rd_loading_open(&l, &setup, destroy) == RD_OK);
    }
}

static void test_the_open_loads_are_listed(void) {
    rd_loading_open_load loads[4];
    rd_stats before = stats_of();
    request waits[2];
    CHECK(rd_loading_loads(&l, 0, loads, 4) == 0 && rd_loading_loads(&l, 0, NULL, 0) == 0);
    hang(3);
    for (int i = 0; i < 2; i++) {
        waits[i] = (request){.of = &l, .key = 1001};
        begin(&waits[i]);
    }
    wait_for_joins(&l, before.answers[RD_JOIN] + 2);
    CHECK(rd_loading_loads(&l, 70, loads, 4) == 3);
    for (int i = 0; i < 3; i++) {
        CHECK(loads[i].key == (uint64_t)(1002 - i) && loads[i].age == 70 && loads[i].waiting == (i == 1 ? 2 : 0));
        CHECK(pthread_equal(loads[i].thread, hung[2 - i].thread) && !loads[i].is_job && !loads[i].is_refresh);
    }
    CHECK(rd_loading_loads(&l, 0, loads, 1) == 3 && loads[0].key == 1002 && loads[0].age == 0);
    CHECK(rd_loading_abandon(&l, 1001, STOPPED) == 1 && rd_loading_loads(&l, 0, loads, 4) == 2 && loads[1].key == 1000);
    for (int i = 0; i < 2; i++) end(&waits[i]);
    may_end = true;
    for (int i = 0; i < 3; i++) end(&hung[i]);
    CHECK(rd_loading_loads(&l, 0, loads, 4) == 0 && rd_loading_clear(&l, 0) == RD_OK);
    whole();
}

/* Due entries whose loads another thread makes. */
static rd_loading_job *job;
static bool takes;

static bool keep(void *context, rd_loading_job *given) {
    CHECK(context == &takes && !job);
    if (takes) job = given;
    return takes;
}

static void make_job(void) {
    rd_loading_job *made = job;
    job = NULL;
    rd_loading_make(made);
}

static void *make_in_thread(void *joins) {
    wait_for_joins(&l, *(uint64_t *)joins);
    make_job();
    return NULL;
}

static void test_jobs(void) {
    const rd_setup setup = {.entries = 8, .window = 1, .flights = 8, .bound = 100, .after_write = 100, .refresh = 50};
    request due = {.of = &l, .key = 1, .now = 50, .number = 4}, fails = {.of = &l, .key = 1, .now = 50};
    int got;
    CHECK(rd_loading_close(&l) == RD_OK && rd_loading_open(&l, &setup, destroy) == RD_OK);
    CHECK(rd_loading_put(&l, 1, new_value(3), 1, 0) == RD_OK);
    rd_loading_refresh_with(&l, keep, &takes);
    /* The old value at once, also for the others; then the new one. */
    takes = true;
    get(&due);
    CHECK(due.fault == RD_OK && due.got == 3 && asked(1, 50, 9, &got) == RD_OK && got == 3 && job && flights() == 1);
    rd_loading_open_load of;
    CHECK(rd_loading_loads(&l, 60, &of, 1) == 1 && of.key == 1 && of.age == 10 && of.is_job && of.is_refresh);
    make_job();
    CHECK(looked(&l, 1, 50) == 4);
    whole();
    /* One that fails, is cancelled, or is given up, before it is made or cancelled, leaves the old value. */
    uint64_t at = 50;
    for (int how = 0; how < 4; how++) {
        CHECK(rd_loading_put(&l, 1, new_value(3), 1, at) == RD_OK);
        fails.now = due.now = at += 50;
        get(how ? &due : &fails);
        CHECK((how ? due.got : fails.got) == 3 && job);
        if (how >= 2) CHECK(rd_loading_abandon(&l, 1, STOPPED) == 1);
        if (how % 2) rd_loading_cancel(job, STOPPED), job = NULL;
        else make_job();
        CHECK(!job && looked(&l, 1, at) == 3);
        whole();
    }
    /* If the job isn't taken, the caller makes the load. */
    takes = false;
    get(&due);
    CHECK(due.got == 4 && looked(&l, 1, at) == 4);
    fails.now = at += 50;
    get(&fails);
    CHECK(fails.fault == RD_OK && fails.got == 4);
    whole();
    /* A caller whose entry has expired meanwhile waits for the job, though it has handed it on itself. */
    takes = true;
    due.now = at;
    get(&due);
    pthread_t maker;
    uint64_t joins = stats_of().answers[RD_JOIN] + 1;
    CHECK(due.got == 4 && !pthread_create(&maker, NULL, make_in_thread, &joins));
    CHECK(asked(1, at += 50, 9, &got) == RD_OK && got == 4);
    CHECK(!pthread_join(maker, NULL) && rd_loading_clear(&l, at) == RD_OK);
    whole();
    /* A cache that is closed before the job is made stores nothing. */
    CHECK(rd_loading_put(&l, 1, new_value(3), 1, at) == RD_OK);
    due.now = at + 50;
    get(&due);
    CHECK(job && rd_loading_close(&l) == RD_OK);
    make_job();
    CHECK(live == 0 && !l.loads && rd_loading_open(&l, &setup, destroy) == RD_OK);
    rd_loading_refresh_with(&l, NULL, NULL);
}

/* Each load brings a number of its own. One whose caller is told that it was given up is late, and nobody may ever get it. */
static atomic_int serial;
static atomic_uchar is_late[THREADS * CALLS + 1], is_seen[THREADS * CALLS + 1];

typedef struct storm {
    pthread_t thread;
    unsigned seed;
    int made;
} storm;

static uint64_t load_in_storm(void *context, uint64_t key, rd_shared **got, uint32_t *weight) {
    storm *s = context;
    if (rand_r(&s->seed) % 10 == 0) rd_loading_abandon(&l, key, STOPPED);
    if (rand_r(&s->seed) % 10 == 0) sched_yield();
    s->made = ++serial;
    *got = new_value(s->made);
    *weight = 1;
    return RD_OK;
}

static void *in_storm(void *given) {
    storm *s = given;
    for (int i = 0; i < CALLS; i++) {
        rd_shared *got;
        const uint64_t key = (uint64_t)rand_r(&s->seed) % KEYS;
        s->made = 0;
        uint64_t fault = rd_loading_get(&l, key, 0, load_in_storm, s, &got);
        CHECK(fault == RD_OK || fault == STOPPED);
        if (!fault) is_seen[number_of(got)] = 1;
        if (fault && s->made) is_late[s->made] = 1;
        rd_loading_release(&l, got);
        if (rand_r(&s->seed) % 20 == 0) rd_loading_abandon(&l, (uint64_t)rand_r(&s->seed) % KEYS, STOPPED);
        if (rand_r(&s->seed) % 4 == 0) CHECK(rd_loading_drop(&l, (uint64_t)rand_r(&s->seed) % KEYS, 0) == RD_OK);
    }
    return NULL;
}

static void test_a_late_value_is_never_seen_in_a_storm(void) {
    static storm storms[THREADS];
    rd_stats before = stats_of();
    for (unsigned i = 0; i < THREADS; i++) {
        storms[i].seed = i + 1;
        CHECK(!pthread_create(&storms[i].thread, NULL, in_storm, &storms[i]));
    }
    for (int i = 0; i < THREADS; i++) CHECK(!pthread_join(storms[i].thread, NULL));
    uint64_t late = 0;
    for (int i = 0; i <= serial; i++) {
        CHECK(!(is_late[i] && is_seen[i]));
        late += is_late[i];
    }
    rd_stats after = stats_of();
    CHECK(late > 100 && after.late - before.late == late && after.given_up - before.given_up == late);
    for (uint64_t key = 0; key < KEYS; key++) CHECK(!is_late[looked(&l, key, 0)]);
    whole();
    printf("%d loads, %lu of them given up\n", (int)serial, (unsigned long)late);
}

int main(void) {
    const rd_setup setup = {.entries = 200, .window = 2, .flights = HUNG, .bound = 1000};
    CHECK(rd_loading_open(&l, &setup, destroy) == RD_OK);
    test_a_healthy_key_is_answered_while_all_loads_hang();
    test_after_load_timeout_the_cache_is_as_new();
    test_after_abandon_the_cache_is_as_new();
    test_the_open_loads_are_listed();
    test_forgotten_and_closed();
    test_a_refresh_that_is_given_up_returns_the_old_value();
    test_a_late_value_is_never_seen_in_a_storm();
    CHECK(rd_loading_clear(&l, 0) == RD_OK);
    test_jobs();
    CHECK(rd_loading_close(&l) == RD_OK && live == 0);
    puts("given up calls: ok");
    return 0;
}
