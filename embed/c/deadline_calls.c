/* rd_loading_get_until of rookdresser_loading.h: a wait that a deadline ends, while the load goes on; and a wait is woken by its own load
 * alone: link with -Wl,--wrap=pthread_cond_wait, so that wake-ups can be counted. */
#include "values.h"

static rd_loading l = RD_LOADING_INIT;
static const struct timespec past = {0, 1}, none = {0, -1}, more = {0, 1000000000};
static struct timespec future;
static atomic_long woken;

int __real_pthread_cond_wait(pthread_cond_t *condition, pthread_mutex_t *lock);
int __wrap_pthread_cond_wait(pthread_cond_t *condition, pthread_mutex_t *lock) {
    int failed = __real_pthread_cond_wait(condition, lock);
    woken++;
    return failed;
}

static void whole(void) {
    rd_numbers n;
    CHECK(rd_loading_numbers(&l, &n, NULL) == RD_OK && n.flights == 0 && n.entries == (uint64_t)live && !l.loads);
}

/* A moment that is a millisecond away, or has passed once it is used: a wait for a load that goes on ends in both cases. */
static struct timespec soon(void) {
    struct timespec t;
    CHECK(!clock_gettime(CLOCK_MONOTONIC, &t));
    t.tv_nsec += 1000000;
    if (t.tv_nsec >= 1000000000) t.tv_sec++, t.tv_nsec -= 1000000000;
    return t;
}

static request asking(uint64_t key, int number, const struct timespec *deadline) {
    request r = {.of = &l, .key = key, .number = number, .deadline = deadline};
    return r;
}

static void test_no_deadline_ends_a_hit_or_a_load(void) {
    request loads = asking(1, 5, &past), hits = asking(1, 6, &past), fails = asking(2, 0, &past);
    get(&loads);
    get(&hits);
    get(&fails);
    CHECK(loads.fault == RD_OK && loads.got == 5 && hits.fault == RD_OK && hits.got == 5 && fails.fault == DOWN);
    whole();
}

/* One load; of those that wait for it, some have a deadline that passes, and the others get the value once it is there. */
static void test_a_deadline_passes_while_the_load_goes_on(void) {
    struct timespec near;
    const struct timespec *passing[] = {&past, &none, &more, &near};
    atomic_bool may_end = false;
    request lead = asking(3, 7, NULL), waits = asking(3, 0, NULL), far = asking(3, 0, &future);
    rd_stats before;
    rd_loading_numbers(&l, NULL, &before);
    lead.until = &may_end;
    begin(&lead);
    wait_for_loads(&l, 1);
    begin(&waits);
    begin(&far);
    wait_for_joins(&l, before.answers[RD_JOIN] + 2);
    for (int round = 0; round < 2; round++)
        for (int i = 0; i < 4; i++) {
            request late = asking(3, 0, passing[i]);
            near = soon();
            get(&late);
            CHECK(late.fault == RD_TIMED_OUT && late.got == 0);
        }
    CHECK(looked(&l, 3, 0) == 0);
    may_end = true;
    end(&lead);
    end(&waits);
    end(&far);
    CHECK(lead.got == 7 && waits.got == 7 && far.got == 7 && looked(&l, 3, 0) == 7);
    whole();
}

static void test_a_load_that_fails_has_its_error(void) {
    atomic_bool may_end = false;
    request lead = asking(4, 0, NULL), far = asking(4, 1, &future), late = asking(4, 1, &past);
    rd_stats before;
    rd_loading_numbers(&l, NULL, &before);
    lead.until = &may_end;
    begin(&lead);
    wait_for_loads(&l, 1);
    begin(&far);
    wait_for_joins(&l, before.answers[RD_JOIN] + 1);
    get(&late);
    may_end = true;
    end(&lead);
    end(&far);
    CHECK(lead.fault == DOWN && far.fault == DOWN && late.fault == RD_TIMED_OUT);
    whole();
}

static uint64_t own;

static void ask_for_itself(request *r) {
    request again = asking(r->key, 1, &past);
    get(&again);
    own = again.fault;
}

static void test_the_order_of_faults(void) {
    request r = asking(5, 9, &past);
    rd_shared *got;
    r.within = ask_for_itself;
    get(&r);
    CHECK(r.fault == RD_OK && r.got == 9 && own == RD_WAITS_FOR_ITSELF);
    whole();
    rd_loading closed = RD_LOADING_INIT;
    CHECK(rd_loading_get_until(&closed, 1, 0, load, &r, &past, &got) == RD_CLOSED && !got);
}

/* While four threads wait for a load, a thousand others end. None of these wakes one of the four. */
static void test_a_wait_is_woken_by_its_own_load_alone(void) {
    atomic_bool may_end = false;
    request lead = asking(6, 7, NULL), waits[4];
    rd_stats before;
    rd_loading_numbers(&l, NULL, &before);
    lead.until = &may_end;
    woken = 0;
    begin(&lead);
    wait_for_loads(&l, 1);
    for (int i = 0; i < 4; i++) waits[i] = asking(6, 0, NULL), begin(&waits[i]);
    wait_for_joins(&l, before.answers[RD_JOIN] + 4);
    for (uint64_t i = 0; i < 1000; i++) {
        request other = asking(1000 + i, i % 2 ? 1 : 0, NULL);
        get(&other);
        sched_yield();
    }
    CHECK(woken == 0);
    may_end = true;
    end(&lead);
    for (int i = 0; i < 4; i++) {
        end(&waits[i]);
        CHECK(waits[i].got == 7);
    }
    CHECK(woken <= 4);
    whole();
}

int main(void) {
    const rd_setup setup = {.entries = 8, .window = 1, .flights = 4, .bound = 100};
    future = soon();
    future.tv_sec += 1000000;
    CHECK(rd_loading_open(&l, &setup, destroy) == RD_OK);
    test_no_deadline_ends_a_hit_or_a_load();
    test_a_deadline_passes_while_the_load_goes_on();
    test_a_load_that_fails_has_its_error();
    test_the_order_of_faults();
    test_a_wait_is_woken_by_its_own_load_alone();
    CHECK(rd_loading_close(&l) == RD_OK && live == 0);
    puts("deadline calls: ok");
    return 0;
}
