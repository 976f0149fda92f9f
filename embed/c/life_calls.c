/* Entries with a life of their own: 200,000 random calls beside an array of deadlines, of a cache for one thread and of one that threads
 * share, and each rule once by hand. */
#include "rookdresser_shared.h"
#include "keys.h"
#define CHECK(x)                                                                                             \
    do {                                                                                                     \
        if (!(x)) {                                                                                          \
            printf("line %d: %s\n", __LINE__, #x);                                                           \
            exit(1);                                                                                         \
        }                                                                                                    \
    } while (0)
#define PUT_FOR CALL(rd_put_for, rd_put_name_for)
#define LAND_FOR CALL(rd_land_for, rd_land_name_for)
#define SHARED_OPEN CALL(rd_shared_open, rd_shared_open_names)
#define SHARED_LOOK CALL(rd_shared_look, rd_shared_look_name)
#define SHARED_SEEK CALL(rd_shared_seek, rd_shared_seek_name)
#define SHARED_PUT CALL(rd_shared_put, rd_shared_put_name)
#define SHARED_PUT_FOR CALL(rd_shared_put_for, rd_shared_put_name_for)
#define SHARED_LAND_FOR CALL(rd_shared_land_for, rd_shared_land_name_for)
enum { KEYS = 100, WRITE = 300, TURNS = 100000 };

static rd_cache cache = RD_CACHE_INIT;
static rd_caller caller = RD_CALLER_INIT;
static bool is_shared;
static rd_answer answer;

/* The calls, of the cache that is tested. */
static uint64_t look(uint64_t key, uint64_t now) {
    return is_shared ? SHARED_LOOK(&caller, GIVEN(key), now, &answer) : LOOK(&cache, GIVEN(key), now, &answer);
}

static uint64_t seek(uint64_t key, uint64_t now) {
    return is_shared ? SHARED_SEEK(&caller, GIVEN(key), now, &answer) : SEEK(&cache, GIVEN(key), now, &answer);
}

/* Each store of the library for one thread writes its first notice. */
static void told(uint64_t fault, const any_notice *first) {
    rd_notice notice, got = {0, 0, 0, 0};
    CHECK(fault == RD_OK);
    if (is_shared || !answer.notices) return;
    notice = by_number(*first);
    CHECK(get_notice(&cache, 0, &got) == RD_OK && got.key == notice.key && got.token == notice.token && got.cause == notice.cause);
}

static void put(uint64_t key, uint64_t token, uint32_t life, uint64_t now) {
    any_notice first;
    const rd_token value = {token, 1};
    told(is_shared ? life ? SHARED_PUT_FOR(&caller, GIVEN(key), value, life, now, &answer) : SHARED_PUT(&caller, GIVEN(key), value, now, &answer)
                   : PUT_FOR(&cache, GIVEN(key), value, life, now, &answer, &first), &first);
    CHECK(answer.kind == RD_STORED);
}

static void land(uint64_t id, uint64_t key, uint64_t token, uint32_t life, uint64_t now) {
    any_notice first;
    const rd_token value = {token, 1};
    told(is_shared ? SHARED_LAND_FOR(&caller, id, GIVEN(key), value, life, now, &answer)
                   : LAND_FOR(&cache, id, GIVEN(key), value, life, now, &answer, &first), &first);
    CHECK(answer.kind == RD_KEPT);
}

static void opened(const rd_setup *setup) {
    CHECK((is_shared ? SHARED_OPEN(setup, &caller) : OPEN(setup, &cache)) == RD_OK);
}

static void closed(void) {
    CHECK((is_shared ? rd_shared_close(&caller) : rd_close(&cache)) == RD_OK);
}

static bool is_there(uint64_t key, uint64_t now) {
    CHECK(look(key, now) == RD_OK);
    return answer.kind == RD_HIT;
}

static void test_by_hand(void) {
    const rd_setup setup = {.entries = 8, .window = 1, .flights = 4, .bound = 100, .refresh = 20};
    opened(&setup);
    /* A short life beside none; a use lengthens none. */
    put(1, 11, 5, 100);
    put(2, 12, 0, 100);
    CHECK(is_there(1, 102) && is_there(1, 104) && is_there(2, 104));
    CHECK(!is_there(1, 105) && is_there(2, 105));
    /* A replacement that lengthens a life, one that shortens it, and one without. */
    put(3, 13, 5, 105);
    put(3, 14, 50, 107);
    CHECK(is_there(3, 120));
    put(3, 15, 5, 120);
    CHECK(is_there(3, 124) && !is_there(3, 125));
    put(3, 16, 5, 125);
    put(3, 17, 0, 125);
    CHECK(is_there(3, 1000));
    /* A load gives a life, and a refresh another one; one that fails keeps the old. */
    CHECK(seek(4, 1000) == RD_OK && answer.kind == RD_LEAD);
    land(answer.number, 4, 18, 30, 1000);
    CHECK(seek(4, 1020) == RD_OK && answer.kind == RD_HIT_LEAD);
    land(answer.number, 4, 19, 9, 1020);
    CHECK(is_there(4, 1028) && !is_there(4, 1029));
    put(5, 20, 30, 1029);
    CHECK(seek(5, 1049) == RD_OK && answer.kind == RD_HIT_LEAD);
    CHECK((is_shared ? CALL(rd_shared_land_failed, rd_shared_land_failed_name)(&caller, answer.number, GIVEN(5), 1049, &answer)
                     : LAND_FAILED(&cache, answer.number, GIVEN(5), 1049, &answer)) == RD_OK);
    CHECK(is_there(5, 1058) && !is_there(5, 1059));
    /* The longest life. */
    put(6, 21, UINT32_MAX, 2000);
    CHECK(is_there(6, 1999 + (uint64_t)UINT32_MAX) && !is_there(6, 2000 + (uint64_t)UINT32_MAX));
    closed();
}

static void test_beside_deadlines(void) {
    const rd_setup setup = {.entries = 2 * KEYS, .window = 1, .flights = 4, .bound = 1000, .after_write = WRITE};
    static struct { uint64_t token, until; } model[KEYS];
    uint64_t now = 0, hits = 0;
    unsigned seed = 70;
    for (int i = 0; i < KEYS; i++) model[i].until = 0;
    opened(&setup);
    for (uint64_t turn = 1; turn <= TURNS; turn++) {
        now += turn % 7 == 0;
        uint64_t key = (uint64_t)rand_r(&seed) % KEYS;
        uint32_t life = rand_r(&seed) % 2 ? (uint32_t)rand_r(&seed) % (2 * WRITE) : 0;
        bool there = now < model[key].until;
        int what = rand_r(&seed) % 4;
        if (what > 1) {
            CHECK(is_there(key, now) == there && (!there || answer.token == model[key].token));
            hits += there;
            continue;
        }
        if (what == 1) {
            CHECK(seek(key, now) == RD_OK && answer.kind == (there ? RD_HIT : RD_LEAD));
            CHECK(!there || answer.token == model[key].token);
            if (there) continue;
            land(answer.number, key, turn, life, now);
        } else {
            put(key, turn, life, now);
        }
        model[key].token = turn;
        model[key].until = now + (life && life < WRITE ? life : WRITE);
    }
    CHECK(hits > TURNS / 10);
    closed();
}

int main(void) {
    for (int i = 0; i < 2; i++) {
        is_shared = i;
        test_by_hand();
        test_beside_deadlines();
    }
    puts("life calls: ok");
    return 0;
}
