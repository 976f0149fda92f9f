/* The adviser of rookdresser.h and the follower of rookdresser_adaptive.h: each fault, the window after streams for which the rule of
 * crates/wt_adviser/README.md names it, and refused memory: link with -Wl,--wrap=malloc,--wrap=realloc. */
#include "rookdresser_adaptive.h"
#include "rookdresser_seeded.h"
#include <stdio.h>
#include <stdlib.h>
#define ENTRIES 512
#define CHECK(x)                                                                                             \
    do {                                                                                                     \
        if (!(x)) {                                                                                          \
            printf("line %d: %s\n", __LINE__, #x);                                                           \
            exit(1);                                                                                         \
        }                                                                                                    \
    } while (0)

static long refuse_in = -1;

void *__real_malloc(size_t n);
void *__real_realloc(void *p, size_t n);
static bool is_refused(void) { return refuse_in >= 0 && refuse_in-- == 0; }
void *__wrap_malloc(size_t n) { return is_refused() ? NULL : __real_malloc(n); }
void *__wrap_realloc(void *p, size_t n) { return is_refused() ? NULL : __real_realloc(p, n); }

static rd_cache cache = RD_CACHE_INIT;
static rd_follower follower = RD_FOLLOWER_INIT;

static void open_both(uint64_t after_write) {
    rd_setup setup = {.entries = ENTRIES, .flights = 1, .bound = 1 << 20, .after_write = after_write};
    CHECK(rd_open_follower(&setup, &follower) == RD_OK && setup.window == 51 && follower.window == 51 && follower.wanted == 51);
    CHECK(rd_open(&setup, &cache) == RD_OK);
}

static void close_both(void) {
    CHECK(rd_close_follower(&follower) == RD_OK && follower.window == 0 && rd_close(&cache) == RD_OK);
}

static void test_an_adviser(void) {
    rd_adviser adviser = RD_ADVISER_INIT;
    const uint64_t keys[] = {1, 2, 3};
    uint32_t window = 77;
    CHECK(rd_advise(&adviser, keys, 3, &window) == RD_CLOSED && window == 77 && rd_close_adviser(&adviser) == RD_CLOSED);
    CHECK(rd_open_adviser(63, &adviser) == RD_BAD_SETUP && rd_open_adviser(4194305, &adviser) == RD_BAD_SETUP && !adviser.is_open);
    CHECK(rd_open_adviser(4194304, &adviser) == RD_OK && rd_advise(&adviser, keys, 0, &window) == RD_OK && window == 419430);
    CHECK(rd_close_adviser(&adviser) == RD_OK && !adviser.is_open);
    CHECK(rd_open_adviser(64, &adviser) == RD_OK && rd_open_adviser(63, &adviser) == RD_OPEN_ALREADY && adviser.is_open);
    CHECK(rd_advise(&adviser, keys, 3, &window) == RD_OK && window == 6);
    CHECK(rd_close_adviser(&adviser) == RD_OK && rd_close_adviser(&adviser) == RD_CLOSED);
}

static void test_each_fault(void) {
    rd_setup setup = {.entries = 63, .window = 77};
    CHECK(rd_follow(&follower, &cache, 1) == RD_CLOSED && rd_close_follower(&follower) == RD_CLOSED);
    CHECK(rd_open_follower(&setup, &follower) == RD_BAD_SETUP);
    setup.entries = 4194305;
    CHECK(rd_open_follower(&setup, &follower) == RD_BAD_SETUP);
    CHECK(setup.window == 77 && follower.window == 0 && !follower.adviser.is_open);
    open_both(0);
    CHECK(rd_open_follower(&setup, &follower) == RD_OPEN_ALREADY && setup.window == 77 && follower.window == 51);
    CHECK(rd_close(&cache) == RD_OK && rd_follow(&follower, &cache, 1) == RD_OK);
    follower.window = 100;
    CHECK(rd_follow(&follower, &cache, 1) == RD_CLOSED && follower.window == 100);
    CHECK(rd_close_follower(&follower) == RD_OK && rd_follow(&follower, &cache, 1) == RD_CLOSED);
}

static uint64_t stored, left; /* how many entries were stored, and how many are told to have left */

static void read_notices(const rd_answer *a) {
    rd_notice n;
    for (uint64_t i = 0; i < a->notices; i++) CHECK(rd_get_notice(&cache, i, &n) == RD_OK && n.token == n.key);
    left += a->notices;
}

/* Looks a key up, follows, and stores what isn't there. The notices of each call are read before the next. */
static void read_through(uint64_t key, uint64_t now) {
    rd_answer a;
    CHECK(rd_look(&cache, key, now, &a) == RD_OK);
    read_notices(&a);
    CHECK(rd_follow(&follower, &cache, key) == RD_OK);
    if (a.kind == RD_HIT) return;
    CHECK(rd_put(&cache, key, (rd_token){key, 1}, now, &a) == RD_OK);
    read_notices(&a);
    stored++;
}

/* 512 keys in turn, and between them others that never come again. 64 of them are of the sample, for which a small cache has 64
 * entries: with a window of one it holds 63 of them, with one of six 58, with one of 25 39, and none if it is all window. */
static void popular(uint64_t n) {
    for (uint64_t i = 0; i < n; i++) {
        read_through(i % 512, 0);
        read_through(1000000 + i, 0);
    }
}

/* Each key a second time once 360 look-ups of others were made, and never again. Of these some 45 are of the sample: more than the
 * window of 25 of a small cache holds, and fewer than its entries. */
static void fading(uint64_t n) {
    for (uint64_t i = 0; i < n; i++) {
        read_through(2000000 + i, 0);
        read_through(2000000 + i - 180, 0);
    }
}

static void test_the_window_follows_the_stream(void) {
    open_both(0);
    for (int turn = 0; turn < 2; turn++) {
        popular(10000);
        CHECK(follower.window == 5 && follower.wanted == 5);
        fading(10000);
        CHECK(follower.window == 512 && follower.wanted == 512);
    }
    close_both();
}

/* The border is moved by four entries for each key, and a step of the cache for each, until it is where it is wanted. */
static void test_four_slides_for_each_key(void) {
    const uint64_t keys[] = {1, 2, 3};
    rd_numbers n;
    open_both(0);
    follower.window = 11; /* it really is 51: so the border ends at 91 */
    CHECK(rd_follow(&follower, &cache, 1) == RD_OK && follower.window == 15);
    CHECK(rd_follow_many(&follower, &cache, keys, 3) == RD_OK && follower.window == 27);
    CHECK(rd_follow_many(&follower, &cache, keys, 0) == RD_OK && follower.window == 27);
    for (int i = 0; i < 30; i++) CHECK(rd_follow(&follower, &cache, 1) == RD_OK);
    CHECK(follower.window == 51 && rd_get_numbers(&cache, &n) == RD_OK && n.step == 40 && n.latest == 0);
    /* A follower that takes the border for another one stops where the cache's ends. */
    follower.window = 600;
    for (int i = 0; i < 200; i++) CHECK(rd_follow(&follower, &cache, 1) == RD_OK);
    CHECK(follower.window == 510);
    close_both();
}

/* Entries expire and are evicted while the border moves: each is told once. */
static void test_no_notice_is_lost(void) {
    rd_numbers n;
    open_both(700);
    stored = left = 0;
    for (uint64_t i = 0; i < 50000; i++) read_through(i / 5000 % 2 ? i / 2 - i % 2 * 180 + 1000 : i % 480, i);
    CHECK(rd_get_numbers(&cache, &n) == RD_OK && n.entries == stored - left && n.evicted == left && left > 1000);
    CHECK(n.step > n.lookups + stored);
    close_both();
}

/* The adviser and the cache are opened by number; with names, the adviser gets a hash of each. */
static void test_names(void) {
    const uint64_t seed[2] = {1, 2};
    rd_setup setup = {.entries = ENTRIES, .flights = 1, .bound = 1 << 20};
    rd_name alice = rd_name_of("alice", 5);
    rd_answer a;
    CHECK(rd_open_follower(&setup, &follower) == RD_OK && rd_open_names(&setup, &cache) == RD_OK);
    CHECK(rd_look_name(&cache, &alice, 0, &a) == RD_OK);
    follower.window = 50;
    CHECK(rd_follow(&follower, &cache, rd_seeded(seed, "alice", 5)) == RD_OK && follower.window == 51);
    close_both();
}

static void test_memory_refused_at_opening(void) {
    long refused = 0;
    for (;; refused++) {
        rd_setup setup = {.entries = ENTRIES, .window = 77};
        refuse_in = refused;
        uint64_t fault = rd_open_follower(&setup, &follower);
        refuse_in = -1;
        if (!fault) break;
        CHECK(fault == RD_OUT_OF_MEMORY && !follower.adviser.is_open && setup.window == 77 && follower.window == 0);
    }
    CHECK(refused > 5 && rd_close_follower(&follower) == RD_OK);
}

/* A slide that is refused memory isn't made, and a later call makes it. Not every allocation is one without which a slide is refused. */
static void test_memory_refused_to_slides(void) {
    rd_numbers before, after;
    long refused = 0;
    open_both(0);
    popular(300);
    for (uint32_t i = 0; i < 40; i++) {
        follower.window = 51 - 8;
        CHECK(rd_get_numbers(&cache, &before) == RD_OK);
        refuse_in = i % 8;
        uint64_t fault = rd_follow(&follower, &cache, 1); /* 1 isn't of the sample */
        refuse_in = -1;
        uint32_t moved = follower.window - (51 - 8);
        CHECK(fault ? fault == RD_OUT_OF_MEMORY && moved < 4 : moved == 4);
        refused += fault == RD_OUT_OF_MEMORY;
        CHECK(rd_get_numbers(&cache, &after) == RD_OK && after.step == before.step + moved);
        CHECK(after.entries == before.entries && after.weight == before.weight);
        CHECK(rd_follow(&follower, &cache, 1) == RD_OK && follower.window == 51 - 8 + moved + 4);
        /* Back to where the border was. */
        rd_answer a;
        for (uint32_t j = 0; j < moved + 4; j++) CHECK(rd_slide(&cache, false, 0, &a) == RD_OK && a.number == 1);
    }
    CHECK(refused >= 10);
    follower.window = 51;
    popular(2000);
    CHECK(follower.window == 5);
    close_both();
}

/* Without memory for the adviser the border moves all the same. The cache is empty, so no slide takes memory. In the end the windows are
 * those of the rule. */
static void test_memory_refused_to_an_adviser(void) {
    long refused = 0;
    open_both(0);
    for (uint64_t i = 0; i < 200; i++) {
        rd_answer a;
        follower.window = 47;
        refuse_in = (long)(i % 3);
        uint64_t fault = rd_follow(&follower, &cache, i / 2 - 180 * (i % 2) + 1000);
        refuse_in = -1;
        CHECK((fault == RD_OK || fault == RD_OUT_OF_MEMORY) && follower.window == 51);
        refused += fault == RD_OUT_OF_MEMORY;
        for (int j = 0; j < 4; j++) CHECK(rd_slide(&cache, false, 0, &a) == RD_OK && a.number == 1);
    }
    fading(10000);
    CHECK(refused > 10 && follower.window == 512);
    close_both();
}

int main(void) {
    test_an_adviser();
    test_each_fault();
    test_the_window_follows_the_stream();
    test_four_slides_for_each_key();
    test_no_notice_is_lost();
    test_names();
    test_memory_refused_at_opening();
    test_memory_refused_to_slides();
    test_memory_refused_to_an_adviser();
    puts("adaptive calls: ok");
    return 0;
}
