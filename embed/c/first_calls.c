/* The first rows: put 1, look 1, and each fault. */
#include "rookdresser.h"
#include <stdio.h>
#include <stdlib.h>
#define CHECK(x)                                                                                             \
    do {                                                                                                     \
        if (!(x)) {                                                                                          \
            printf("line %d: %s\n", __LINE__, #x);                                                           \
            return 1;                                                                                        \
        }                                                                                                    \
    } while (0)

/* The border goes from one end to the other and back, a step each time. No entry leaves, and the list of notices is emptied. */
static int slides(void) {
    rd_setup setup = {.entries = 4, .window = 1, .flights = 2, .bound = 100};
    rd_cache cache = RD_CACHE_INIT;
    rd_answer a;
    rd_notice n;
    rd_numbers t;
    uint32_t window = 77, wanted = 1;
    CHECK(rd_get_window(&cache, &window) == RD_CLOSED && window == 77);
    CHECK(rd_open(&setup, &cache) == 0 && rd_get_window(&cache, &window) == 0 && window == 1);
    for (uint64_t key = 1; key <= 4; key++) CHECK(rd_put(&cache, key, (rd_token){key, 1}, 10, &a) == 0 && a.notices == 0);
    static const struct {
        bool wider;
        uint64_t moved;
    } rows[] = {{false, 0}, {true, 1}, {true, 1}, {true, 1}, {true, 0}, {false, 1}, {false, 1}, {false, 1}, {false, 0}};
    for (uint64_t i = 0; i < sizeof rows / sizeof *rows; i++) {
        CHECK(rd_put(&cache, 4, (rd_token){4, 1}, 10, &a) == 0 && a.notices == 1);
        CHECK(rd_slide(&cache, rows[i].wider, 10, &a) == 0 && a.kind == RD_SLID && a.number == rows[i].moved);
        CHECK(a.notices == 0 && a.token == 0 && a.weight == 0 && rd_get_notice(&cache, 0, &n) == RD_NO_SUCH_NOTICE);
        CHECK(rd_get_numbers(&cache, &t) == 0 && t.entries == 4 && t.evicted == 0 && t.step == 6 + 2 * i);
        if (rows[i].moved) wanted = rows[i].wider ? wanted + 1 : wanted - 1;
        CHECK(rd_get_window(&cache, &window) == 0 && window == wanted);
    }
    /* a later moment counts, an earlier one as the latest */
    CHECK(rd_slide(&cache, true, 12, &a) == 0 && rd_slide(&cache, true, 0, &a) == 0);
    CHECK(rd_get_numbers(&cache, &t) == 0 && t.latest == 12 && rd_close(&cache) == 0);
    /* the window of the only entry */
    setup.entries = 1;
    CHECK(rd_open(&setup, &cache) == 0 && rd_slide(&cache, true, 0, &a) == 0 && a.kind == RD_SLID && a.number == 0);
    CHECK(rd_slide(&cache, false, 0, &a) == 0 && a.kind == RD_SLID && a.number == 0 && rd_close(&cache) == 0);
    return 0;
}

int main(void) {
    rd_setup setup = {
        .entries = 4, .window = 1, .flights = 2, .bound = 100, .after_write = 100, .refresh = 50};
    rd_cache cache = RD_CACHE_INIT;
    rd_answer a;
    rd_notice n;
    rd_looked looks[] = {{1, 0, {77, 0, 0, 0, 0}}, {2, 0, {77, 0, 0, 0, 0}}};
    uint64_t made = 77;
    CHECK(rd_look(&cache, 1, 0, &a) == RD_CLOSED);
    CHECK(rd_look_many(&cache, looks, 2, &made) == RD_CLOSED && looks[0].answer.kind == 77 && made == 77);
    n.token = 77;
    CHECK(rd_put_with_notice(&cache, 1, (rd_token){7, 2}, 0, &a, &n) == RD_CLOSED && n.token == 77);
    CHECK(rd_land_keep_with_notice(&cache, 1, 1, (rd_token){7, 2}, 0, &a, &n) == RD_CLOSED && n.token == 77);
    CHECK(rd_drop_key_with_notice(&cache, 1, 0, &a, &n) == RD_CLOSED && n.token == 77);
    a.kind = 77;
    CHECK(rd_slide(&cache, true, 0, &a) == RD_CLOSED && a.kind == 77);
    CHECK(rd_peek(&cache, 1, 0, &a) == RD_CLOSED && a.kind == 77);
    CHECK(rd_close(&cache) == RD_CLOSED);
    CHECK(rd_is_this_version() && rd_version() == RD_VERSION);
    CHECK(rd_check(&setup) == 0);
    CHECK(rd_open(&setup, &cache) == 0 && cache.is_open);
    CHECK(rd_open(&setup, &cache) == RD_OPEN_ALREADY);
    /* 0 P 1, 0 L 1 */
    CHECK(rd_put(&cache, 1, (rd_token){7, 2}, 0, &a) == 0 && a.kind == RD_STORED && a.notices == 0);
    CHECK(rd_look(&cache, 1, 0, &a) == 0 && a.kind == RD_HIT && a.token == 7 && a.weight == 2);
    CHECK(rd_look(&cache, 2, 0, &a) == 0 && a.kind == RD_ABSENT);
    CHECK(rd_look_many(&cache, looks, 2, &made) == 0 && made == 2);
    CHECK(looks[0].answer.kind == RD_HIT && looks[0].answer.token == 7 && looks[1].answer.kind == RD_ABSENT);
    CHECK(rd_look_many(&cache, looks, 0, &made) == 0 && made == 0);
    /* a load that two share */
    CHECK(rd_seek(&cache, 3, 1, &a) == 0 && a.kind == RD_LEAD && a.number == 1);
    CHECK(rd_seek(&cache, 3, 2, &a) == 0 && a.kind == RD_JOIN && a.number == 1);
    CHECK(rd_land_keep(&cache, 1, 3, (rd_token){9, 3}, 9, &a) == 0 && a.kind == RD_KEPT && a.number == 2);
    CHECK(rd_land_keep(&cache, 1, 3, (rd_token){9, 3}, 9, &a) == 0 && a.kind == RD_GONE);
    CHECK(rd_look(&cache, 3, 10, &a) == 0 && a.kind == RD_HIT && a.token == 9);
    /* too heavy, replaced, refreshed, expired */
    CHECK(rd_put(&cache, 3, (rd_token){10, 101}, 20, &a) == RD_TOO_HEAVY && a.kind == RD_REFUSED &&
          a.number == 3);
    CHECK(rd_put(&cache, 3, (rd_token){10, 4}, 20, &a) == 0 && a.notices == 1);
    CHECK(rd_get_notice(&cache, 0, &n) == 0 && n.key == 3 && n.token == 9 && n.weight == 3 &&
          n.cause == RD_REPLACED);
    CHECK(rd_get_notice(&cache, 1, &n) == RD_NO_SUCH_NOTICE && n.token == 9);
    /* what a peek tells, at this moment and once the entry has expired; the notice is still there */
    CHECK(rd_peek(&cache, 3, 119, &a) == 0 && a.kind == RD_HIT && a.token == 10 && a.weight == 4 && a.notices == 0);
    CHECK(rd_peek(&cache, 3, 120, &a) == 0 && a.kind == RD_ABSENT && a.token == 0 && a.weight == 0);
    CHECK(rd_get_notice(&cache, 0, &n) == 0 && n.key == 3 && n.token == 9);
    CHECK(rd_seek(&cache, 3, 71, &a) == 0 && a.kind == RD_HIT_LEAD && a.token == 10 && a.number == 2);
    CHECK(rd_land_failed(&cache, 2, 3, 72, &a) == 0 && a.kind == RD_FAILED && a.number == 1);
    CHECK(rd_seek(&cache, 50, 72, &a) == 0 && a.kind == RD_LEAD);
    CHECK(rd_seek(&cache, 51, 72, &a) == 0 && a.kind == RD_LEAD);
    CHECK(rd_seek(&cache, 52, 72, &a) == RD_TOO_MANY_FLIGHTS && a.kind == RD_REFUSED && a.number == 4);
    CHECK(rd_forget(&cache, 50, 72, &a) == 0 && a.kind == RD_FORGOT && a.number == 1);
    CHECK(rd_land_loose(&cache, 3, 50, 72, &a) == 0 && a.kind == RD_LOOSE);
    CHECK(rd_land_loose(&cache, 4, 51, 72, &a) == 0 && a.kind == RD_LOOSE);
    CHECK(rd_clean(&cache, 200, &a) == 0 && a.kind == RD_CLEANED && a.notices == 2);
    CHECK(rd_get_notice(&cache, 1, &n) == 0 && n.cause == RD_EXPIRED);
    n.token = 77;
    CHECK(rd_put_with_notice(&cache, 1, (rd_token){1, 1}, 200, &a, &n) == 0 && a.notices == 0 && n.token == 77);
    CHECK(rd_put_with_notice(&cache, 1, (rd_token){2, 1}, 200, &a, &n) == 0 && a.notices == 1 && n.token == 1 &&
          n.key == 1 && n.weight == 1 && n.cause == RD_REPLACED);
    CHECK(rd_seek(&cache, 2, 200, &a) == 0 && a.kind == RD_LEAD);
    CHECK(rd_land_keep_with_notice(&cache, a.number, 2, (rd_token){3, 100}, 200, &a, &n) == 0 && a.kind == RD_KEPT);
    CHECK(a.notices == 1 && n.cause == RD_SIZE);
    CHECK(rd_put(&cache, 1, (rd_token){1, 0}, 200, &a) == 0);
    CHECK(rd_drop_key_with_notice(&cache, 1, 200, &a, &n) == 0 && a.kind == RD_DROPPED && n.token == 1 &&
          n.cause == RD_EXPLICIT);
    CHECK(rd_clear(&cache, 200, &a) == 0);
    CHECK(rd_put(&cache, 1, (rd_token){1, 1}, 200, &a) == 0);
    CHECK(rd_drop_key(&cache, 1, 200, &a) == 0 && a.kind == RD_DROPPED && a.number == 1 && a.notices == 1);
    CHECK(rd_clear(&cache, 200, &a) == 0 && a.kind == RD_CLEARED && a.notices == 0);
    rd_numbers t;
    /* two loads were stored and two were not; one failed, and one landing came too late */
    CHECK(rd_get_numbers(&cache, &t) == 0 && t.loads == 4 && t.failed == 1);
    printf("lookups %llu hits %llu misses %llu loads %llu failed %llu evicted %llu entries %llu weight %llu "
           "step %llu latest %llu flights %llu\n",
           (unsigned long long)t.lookups, (unsigned long long)t.hits, (unsigned long long)t.misses,
           (unsigned long long)t.loads, (unsigned long long)t.failed, (unsigned long long)t.evicted,
           (unsigned long long)t.entries, (unsigned long long)t.weight, (unsigned long long)t.step,
           (unsigned long long)t.latest, (unsigned long long)t.flights);
    CHECK(rd_close(&cache) == 0 && !cache.is_open);
    /* the greatest cache and the least, and the greatest token, which weighs nothing */
    for (uint32_t entries = 65536;; entries = 1) {
        rd_setup other = {.entries = entries, .window = 1, .flights = 1, .bound = 1};
        CHECK(rd_open(&other, &cache) == 0);
        CHECK(rd_put(&cache, 1, (rd_token){UINT64_MAX, 0}, 0, &a) == 0 && a.notices == 0);
        CHECK(rd_look(&cache, 1, 0, &a) == 0 && a.kind == RD_HIT && a.token == UINT64_MAX && a.weight == 0);
        CHECK(rd_drop_key(&cache, 1, 0, &a) == 0 && a.number == 1 && a.notices == 1);
        CHECK(rd_get_notice(&cache, 0, &n) == 0 && n.token == UINT64_MAX && n.weight == 0);
        CHECK(rd_close(&cache) == 0);
        if (entries == 1)
            break;
    }
    /* a refresh that isn't below after_write: the entry has expired before it is due */
    rd_setup late = {.entries = 4, .window = 1, .flights = 2, .bound = 100, .after_write = 5, .refresh = 5};
    CHECK(rd_check(&late) == 0 && rd_open(&late, &cache) == 0 && rd_put(&cache, 1, (rd_token){7, 2}, 0, &a) == 0);
    CHECK(rd_seek(&cache, 1, 4, &a) == 0 && a.kind == RD_HIT && rd_seek(&cache, 1, 5, &a) == 0 && a.kind == RD_LEAD);
    CHECK(rd_close(&cache) == 0);
    if (slides()) return 1;
    setup.window = 5;
    CHECK(rd_check(&setup) == 2 && rd_open(&setup, &cache) == RD_BAD_SETUP && !cache.is_open);
    setup.window = 1;
    setup.flights = 0xffffffffu;
    CHECK(rd_check(&setup) == 3 && rd_open(&setup, &cache) == RD_BAD_SETUP);
    puts("first rows: ok");
    return 0;
}
