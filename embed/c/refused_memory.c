/* Each allocation fails in turn: link with -Wl,--wrap=malloc,--wrap=realloc. A refused call returns 1, has
 * kind 0 and changes nothing: the numbers are the same, and the call made again succeeds and answers what the
 * twin answers. */
#include "keys.h"
#include "rookdresser_shared.h"
#include <string.h>
#define CHECK(x)                                                                                             \
    do {                                                                                                     \
        if (!(x)) {                                                                                          \
            printf("op %ld line %d: %s\n", i, __LINE__, #x);                                                 \
            return 1;                                                                                        \
        }                                                                                                    \
    } while (0)
void *__real_malloc(size_t n);
void *__real_realloc(void *p, size_t n);
static long fail_in = -1;
static long failed;
void *__wrap_malloc(size_t n) {
    if (fail_in >= 0 && fail_in-- == 0) {
        failed++;
        return 0;
    }
    return __real_malloc(n);
}
void *__wrap_realloc(void *p, size_t n) {
    if (fail_in >= 0 && fail_in-- == 0) {
        failed++;
        return 0;
    }
    return __real_realloc(p, n);
}
static uint64_t rng = 1234567;
static uint64_t next(void) {
    rng ^= rng << 13;
    rng ^= rng >> 7;
    rng ^= rng << 17;
    return rng;
}
static uint64_t op(rd_cache *c, unsigned what, uint64_t k, uint64_t id, rd_token v, uint64_t now,
                   rd_answer *a) {
    if (what >= 100) return rd_slide(c, what % 2, now, a);
    if (what < 30) return LOOK(c, GIVEN(k), now, a);
    if (what < 60) return SEEK(c, GIVEN(k), now, a);
    if (what < 75) return LAND_KEEP(c, id, GIVEN(k), v, now, a);
    if (what < 95) return PUT(c, GIVEN(k), v, now, a);
    if (what < 98) return DROP(c, GIVEN(k), now, a);
    return rd_clean(c, now, a);
}
/* The same, by the calls that hand their first notice back where there is one. */
static uint64_t op_with_notice(rd_cache *c, unsigned what, uint64_t k, uint64_t id, rd_token v, uint64_t now,
                               rd_answer *a, any_notice *first) {
    if (60 <= what && what < 75) return LAND_KEEP_WITH_NOTICE(c, id, GIVEN(k), v, now, a, first);
    if (75 <= what && what < 95) return PUT_WITH_NOTICE(c, GIVEN(k), v, now, a, first);
    if (95 <= what && what < 98) return DROP_WITH_NOTICE(c, GIVEN(k), now, a, first);
    return op(c, what, k, id, v, now, a);
}
/* A caller whose put is refused memory has no place for it: it is told how many calls stand before, all of them another caller's. */
static int a_refused_call_has_no_place(void) {
    const rd_setup setup = {.entries = 64, .window = 4, .flights = 4, .bound = 900};
    rd_caller mine = RD_CALLER_INIT, theirs = RD_CALLER_INIT;
    const rd_token one = {1, 1};
    rd_answer answer;
    uint64_t place = 77;
    long i = 0;
    CHECK(CALL(rd_shared_open, rd_shared_open_names)(&setup, &mine) == RD_OK && rd_shared_another(&mine, &theirs) == RD_OK);
    for (; i < 40; i++) CHECK(CALL(rd_shared_put, rd_shared_put_name)(&mine, GIVEN((uint64_t)i), one, 0, &answer) == RD_OK);
    CHECK(rd_shared_get_place(&theirs, &place) == RD_OK && place == 0);
    fail_in = 0;
    CHECK(CALL(rd_shared_put, rd_shared_put_name)(&theirs, GIVEN(99), one, 0, &answer) == RD_OUT_OF_MEMORY && fail_in == -1);
    CHECK(rd_shared_get_place(&theirs, &place) == RD_OK && place == 40);
    CHECK(CALL(rd_shared_look, rd_shared_look_name)(&theirs, GIVEN(99), 0, &answer) == RD_OK && answer.kind == RD_ABSENT);
    CHECK(rd_shared_get_place(&theirs, &place) == RD_OK && place == 41);
    return rd_shared_close(&mine) || rd_shared_close(&theirs);
}
int main(void) {
    if (a_refused_call_has_no_place()) return 1;
    failed = 0;
    rd_setup setup = {
        .entries = 32, .window = 4, .flights = 8, .bound = 300, .after_write = 2000, .refresh = 500};
    rd_cache c = RD_CACHE_INIT, twin = RD_CACHE_INIT;
    long i = -1, refused = 0, slides = 0;
    for (fail_in = 0;;) {
        long at = fail_in;
        uint64_t f = OPEN(&setup, &c);
        if (f == 0) {
            fail_in = -1;
            break;
        }
        CHECK(f == 1 && !c.is_open);
        fail_in = at + 1;
    }
    CHECK(OPEN(&setup, &twin) == 0);
    long opens = failed;
    uint64_t now = 0, id = 1;
    for (i = 0; i < 300000; i++) {
        now += next() % 3;
        unsigned what = next() % 110;
        uint64_t k = next() % 60;
        rd_token v = {i, next() % 30};
        uint64_t l = id > 8 ? id - next() % 8 : id;
        rd_answer a, b;
        rd_numbers s, t;
        memset(&a, 0, sizeof a);
        memset(&b, 0, sizeof b);
        rd_get_numbers(&c, &s);
        for (long at = 0;; at++) {
            fail_in = at;
            any_notice first, untouched;
            memset(&first, 77, sizeof first);
            memset(&untouched, 77, sizeof untouched);
            uint64_t f = op_with_notice(&c, what, k, l, v, now, &a, &first);
            fail_in = -1;
            if (a.kind != RD_NO_MEMORY) {
                uint64_t g = op(&twin, what, k, l, v, now, &b);
                CHECK(f == g && !memcmp(&a, &b, sizeof a));
                break;
            }
            refused++;
            CHECK(what < 95 || what >= 100); /* a drop and a clean take no memory */
            slides += what >= 100;
            CHECK(f == 1 && a.number == 1 && a.notices == 0);
            CHECK(!memcmp(&first, &untouched, sizeof first));
            rd_get_numbers(&c, &t);
            CHECK(!memcmp(&s, &t, sizeof s));
        }
        if (a.kind == RD_LEAD || a.kind == RD_HIT_LEAD) id = a.number;
        rd_get_numbers(&c, &s);
        rd_get_numbers(&twin, &t);
        CHECK(!memcmp(&s, &t, sizeof s));
    }
    printf("%ld operations, %ld allocations refused (%ld at opening), %ld calls refused, %ld of them slides\n", i, failed,
           opens, refused, slides);
    return slides == 0 || rd_close(&c) || rd_close(&twin);
}
