/* rd_loading_listen of rookdresser_loading.h: what the listener gets, and that it may use the cache, block, and close it. */
#include "values.h"

static rd_loading l = RD_LOADING_INIT;

/* What the listener got, in its order. */
typedef struct told {
    uint64_t key;
    int number;
    enum rd_cause cause;
} told;

static told got[64];
static int count;

static void keep(void *context, uint64_t key, rd_shared *value, enum rd_cause cause) {
    CHECK(context == &l && count < 64);
    got[count++] = (told){key, number_of(value), cause};
}

static bool is_told(int i, uint64_t key, int number, enum rd_cause cause) {
    return got[i].key == key && got[i].number == number && got[i].cause == cause;
}

static void put(uint64_t key, int number, uint64_t now) { CHECK(rd_loading_put(&l, key, new_value(number), 1, now) == RD_OK); }

static request asking(uint64_t key, int number, uint64_t now) {
    request r = {.of = &l, .key = key, .number = number, .now = now};
    return r;
}

static void open_with(uint32_t entries, rd_loading_listener *listener, void *context) {
    const rd_setup setup = {.entries = entries, .window = 1, .flights = 4, .bound = 100, .after_write = 100, .refresh = 50};
    count = 0;
    CHECK(rd_loading_open(&l, &setup, destroy) == RD_OK);
    rd_loading_listen(&l, listener, context);
}

static void close_all(void) { CHECK(rd_loading_close(&l) == RD_OK && live == 0 && !l.loads); }

static void test_each_cause(void) {
    open_with(2, keep, &l);
    put(1, 10, 0);
    put(1, 11, 0);
    CHECK(count == 1 && is_told(0, 1, 10, RD_REPLACED));
    CHECK(rd_loading_drop(&l, 1, 0) == RD_OK && count == 2 && is_told(1, 1, 11, RD_EXPLICIT));
    put(2, 20, 0);
    CHECK(looked(&l, 2, 200) == 0 && count == 3 && is_told(2, 2, 20, RD_EXPIRED));
    put(3, 30, 200);
    put(4, 40, 200);
    put(5, 50, 200);
    CHECK(count == 4 && got[3].cause == RD_SIZE && (uint64_t)got[3].number == 10 * got[3].key);
    CHECK(rd_loading_clear(&l, 200) == RD_OK && count == 6 && got[4].cause == RD_EXPLICIT && got[5].cause == RD_EXPLICIT);
    put(6, 60, 200);
    close_all();
    CHECK(count == 7 && is_told(6, 6, 60, RD_EXPLICIT));
}

static void drop_it(request *r) { CHECK(rd_loading_drop(r->of, r->key, r->now) == RD_OK); }

static void test_a_value_that_was_never_stored_is_no_entry(void) {
    open_with(8, keep, &l);
    CHECK(rd_loading_put(&l, 1, new_value(10), 101, 0) == RD_TOO_HEAVY && count == 0);
    request changed = asking(2, 20, 0);
    changed.within = drop_it;
    get(&changed);
    CHECK(changed.got == 20 && count == 0 && looked(&l, 2, 0) == 0);
    rd_loading_listen(&l, NULL, NULL);
    put(3, 30, 0);
    put(3, 31, 0);
    rd_loading_listen(&l, keep, &l);
    CHECK(count == 0);
    close_all();
    CHECK(count == 1 && is_told(0, 3, 31, RD_EXPLICIT));
}

/* The order of a sweep is that of the library's notices. What left by a look-up comes before what left by its landing. */
static void test_the_order_of_one_call(void) {
    const rd_setup setup = {.entries = 8, .window = 1, .flights = 4, .bound = 100, .after_write = 100, .refresh = 50};
    rd_cache twin = RD_CACHE_INIT;
    rd_answer answer;
    rd_notice notice;
    open_with(8, keep, &l);
    CHECK(rd_open(&setup, &twin) == RD_OK);
    for (uint64_t k = 1; k <= 5; k++) {
        put(k, (int)k, 0);
        CHECK(rd_put(&twin, k, (rd_token){k, 1}, 0, &answer) == RD_OK);
    }
    CHECK(rd_loading_clean(&l, 200) == RD_OK && rd_clean(&twin, 200, &answer) == RD_OK && count == 5 && answer.notices == 5);
    for (int i = 0; i < 5; i++) CHECK(rd_get_notice(&twin, (uint64_t)i, &notice) == RD_OK && is_told(i, notice.key, (int)notice.token, RD_EXPIRED));
    CHECK(rd_close(&twin) == RD_OK);
    close_all();

    open_with(1, keep, &l);
    put(1, 10, 0);
    request r = asking(1, 11, 200);
    get(&r);
    CHECK(r.got == 11 && count == 1 && is_told(0, 1, 10, RD_EXPIRED));
    put(2, 20, 200);
    CHECK(count == 2 && got[1].cause == RD_SIZE);
    close_all();
}

static void put_another(request *r) { put(r->key + 1, 90, r->now); }

static void test_a_look_up_comes_before_its_landing(void) {
    open_with(1, keep, &l);
    put(1, 10, 0);
    request r = asking(1, 11, 200);
    r.within = put_another;
    get(&r);
    CHECK(r.got == 11 && count == 2 && is_told(0, 1, 10, RD_EXPIRED) && got[1].cause == RD_SIZE && got[1].number != 10);
    close_all();
}

/* A listener that uses the cache in each way, also for the key that left. */
static void use_it(void *context, uint64_t key, rd_shared *value, enum rd_cause cause) {
    rd_numbers n;
    request same = asking(key, 70, 0), other = asking(key + 1, 71, 0);
    keep(&l, key, value, cause);
    CHECK(rd_loading_numbers(&l, &n, NULL) == RD_OK);
    if (count > 3) return;
    CHECK(looked(&l, key, 0) == 0);
    get(&same);
    get(&other);
    CHECK(same.got == 70 && other.fault == RD_OK && looked(&l, key, 0) == 70);
    CHECK(rd_loading_drop(&l, key, 0) == RD_OK && rd_loading_forget(&l, key, 0) == RD_OK);
    if (number_of(value) == 10) *(rd_shared **)context = rd_loading_share(value);
}

static void test_a_listener_may_use_the_cache(void) {
    rd_shared *kept = NULL;
    open_with(8, use_it, &kept);
    put(1, 10, 0);
    CHECK(rd_loading_drop(&l, 1, 0) == RD_OK);
    /* 10 was dropped. The listener dropped 70, whose listener dropped another 70, whose listener dropped a last one. */
    CHECK(count == 4 && is_told(0, 1, 10, RD_EXPLICIT) && is_told(1, 1, 70, RD_EXPLICIT) && is_told(2, 1, 70, RD_EXPLICIT));
    CHECK(is_told(3, 1, 70, RD_EXPLICIT) && kept && number_of(kept) == 10);
    rd_loading_listen(&l, keep, &l);
    rd_loading_release(&l, kept);
    close_all();
}

static void close_it(void *context, uint64_t key, rd_shared *value, enum rd_cause cause) {
    uint64_t *fault = context;
    keep(&l, key, value, cause);
    if (count == 1) *fault = rd_loading_close(&l);
}

static void test_a_listener_may_close_the_cache(void) {
    uint64_t fault = RD_CLOSED;
    open_with(8, close_it, &fault);
    put(1, 10, 0);
    put(2, 20, 0);
    CHECK(rd_loading_drop(&l, 1, 0) == RD_OK && fault == RD_OK && count == 2 && is_told(1, 2, 20, RD_EXPLICIT));
    CHECK(live == 0 && rd_loading_close(&l) == RD_CLOSED);
}

static atomic_bool has_begun, may_end;

static void block(void *context, uint64_t key, rd_shared *value, enum rd_cause cause) {
    (void)context, (void)key, (void)value, (void)cause;
    has_begun = true;
    wait_for(&may_end);
}

static void wait_for_one_join(request *r) { wait_for_joins(r->of, 1); }

/* Its own call waits for it alone: the thread that shared the load has its value, and other calls go on. */
static void test_a_listener_may_block(void) {
    rd_loading fresh = RD_LOADING_INIT;
    l = fresh;
    has_begun = may_end = false;
    open_with(8, block, NULL);
    put(1, 10, 0);
    request leads = asking(1, 11, 200), joins = asking(1, 12, 200);
    leads.within = wait_for_one_join;
    begin(&leads);
    wait_for_loads(&l, 1);
    begin(&joins);
    end(&joins);
    CHECK(joins.got == 11);
    wait_for(&has_begun);
    put(2, 20, 200);
    CHECK(looked(&l, 1, 200) == 11 && looked(&l, 2, 200) == 20);
    rd_loading_listen(&l, NULL, NULL);
    may_end = true;
    end(&leads);
    CHECK(leads.got == 11);
    close_all();
}

/* A thread that joins a load first tells what left by its look-up. Its listener gets another key, whose load waits until the joined load
 * has asked for that key. So the joined load waits for the listener, and not for the thread's wait, which hasn't begun. */
static atomic_bool is_in_listener;

static void load_while_it_is_asked_for(request *r) {
    is_in_listener = true;
    wait_for_joins(r->of, 2);
}

static void get_another(void *context, uint64_t key, rd_shared *value, enum rd_cause cause) {
    request other = asking(2, 20, 200);
    (void)context, (void)value;
    CHECK(key == 1 && cause == RD_EXPIRED);
    other.within = load_while_it_is_asked_for;
    get(&other);
    CHECK(other.got == 20);
}

static void ask_for_the_other(request *r) {
    request other = asking(2, 21, 200);
    wait_for(&is_in_listener);
    get(&other);
    CHECK(other.fault == RD_OK && other.got == 20);
    rd_loading_listen(r->of, NULL, NULL);
}

static void test_a_listener_of_a_thread_that_joins_may_load(void) {
    rd_loading fresh = RD_LOADING_INIT;
    l = fresh;
    open_with(8, get_another, NULL);
    put(1, 10, 0);
    request refreshes = asking(1, 11, 60), joins = asking(1, 12, 200);
    refreshes.within = ask_for_the_other;
    begin(&refreshes);
    wait_for_loads(&l, 1);
    get(&joins);
    end(&refreshes);
    CHECK(refreshes.got == 11 && joins.fault == RD_OK && joins.got == 11);
    close_all();
}

int main(void) {
    test_each_cause();
    test_a_value_that_was_never_stored_is_no_entry();
    test_the_order_of_one_call();
    test_a_look_up_comes_before_its_landing();
    test_a_listener_may_use_the_cache();
    test_a_listener_may_close_the_cache();
    test_a_listener_may_block();
    test_a_listener_of_a_thread_that_joins_may_load();
    puts("listener calls: ok");
    return 0;
}
