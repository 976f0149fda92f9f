/* Names for keys: the first rows, names of every length, and what is refused. */
#include "rookdresser.h"
#include <stdio.h>
#define CHECK(x)                                                                                             \
    do {                                                                                                     \
        if (!(x)) {                                                                                          \
            printf("line %d: %s\n", __LINE__, #x);                                                           \
            return 1;                                                                                        \
        }                                                                                                    \
    } while (0)

static const rd_setup setup = {.entries = 32, .window = 4, .flights = 2, .bound = 100};

/* Each call by name, on a cache that is to refuse it; answers the number that all of them returned, or 0. */
static uint64_t refused(rd_cache *cache, const rd_name *key) {
    rd_answer a = {77, 77, 77, 77, 77};
    rd_name_notice n = {.token = 77, .weight = 77, .cause = 77};
    uint64_t told[] = {rd_look_name(cache, key, 0, &a),
                       rd_peek_name(cache, key, 0, &a),
                       rd_seek_name(cache, key, 0, &a),
                       rd_land_keep_name(cache, 1, key, (rd_token){1, 1}, 0, &a),
                       rd_land_loose_name(cache, 1, key, 0, &a),
                       rd_land_failed_name(cache, 1, key, 0, &a),
                       rd_put_name(cache, key, (rd_token){1, 1}, 0, &a),
                       rd_drop_key_name(cache, key, 0, &a),
                       rd_drop_name(cache, key, 0, &a),
                       rd_forget_name(cache, key, 0, &a),
                       rd_land_keep_name_with_notice(cache, 1, key, (rd_token){1, 1}, 0, &a, &n),
                       rd_put_name_with_notice(cache, key, (rd_token){1, 1}, 0, &a, &n),
                       rd_drop_key_name_with_notice(cache, key, 0, &a, &n)};
    for (size_t i = 0; i < sizeof told / sizeof *told; i++)
        if (told[i] != told[0]) return 0;
    return n.token == 77 && n.weight == 77 && n.cause == 77 && a.kind == 77 && a.weight == 77 && a.token == 77 && a.number == 77 && a.notices == 77 ? told[0] : 0;
}

static int first_rows(rd_cache *cache) {
    rd_answer a;
    rd_name_notice n;
    rd_name alice = rd_name_of("alice", 5), bob = rd_name_of("bob", 3);
    CHECK(rd_put_name(cache, &alice, (rd_token){7, 2}, 0, &a) == 0 && a.kind == RD_STORED && a.notices == 0);
    CHECK(rd_look_name(cache, &alice, 0, &a) == 0 && a.kind == RD_HIT && a.token == 7 && a.weight == 2);
    CHECK(rd_look_name(cache, &bob, 0, &a) == 0 && a.kind == RD_ABSENT);
    CHECK(rd_peek_name(cache, &alice, 0, &a) == 0 && a.kind == RD_HIT && a.token == 7 && a.weight == 2);
    CHECK(rd_peek_name(cache, &bob, 0, &a) == 0 && a.kind == RD_ABSENT);
    CHECK(rd_seek_name(cache, &bob, 1, &a) == 0 && a.kind == RD_LEAD && a.number == 1);
    CHECK(rd_seek_name(cache, &bob, 1, &a) == 0 && a.kind == RD_JOIN && a.number == 1);
    CHECK(rd_land_keep_name(cache, 1, &alice, (rd_token){8, 1}, 1, &a) == 0 && a.kind == RD_GONE);
    CHECK(rd_land_keep_name(cache, 1, &bob, (rd_token){8, 1}, 1, &a) == 0 && a.kind == RD_KEPT && a.number == 2);
    n.token = 77;
    CHECK(rd_put_name_with_notice(cache, &alice, (rd_token){6, 1}, 2, &a, &n) == 0 && a.notices == 1);
    CHECK(n.token == 7 && n.weight == 2 && n.cause == RD_REPLACED && n.key.length == 5);
    /* A name that is too long makes no call, so the notice of the call before isn't handed back either. */
    rd_name longer = rd_name_of("abcdefghijklmnopqrstuvwxyz", 25);
    CHECK(refused(cache, &longer) == RD_NAME_TOO_LONG);
    CHECK(rd_put_name(cache, &alice, (rd_token){7, 2}, 2, &a) == 0 && a.notices == 1);
    CHECK(rd_put_name(cache, &alice, (rd_token){9, 1}, 2, &a) == 0 && a.notices == 1);
    CHECK(rd_get_notice_name(cache, 0, &n) == 0 && n.token == 7 && n.weight == 2 && n.cause == RD_REPLACED);
    CHECK(n.key.length == 5 && !memcmp(n.key.bytes, "alice\0\0\0\0\0\0\0\0\0\0\0\0\0\0\0\0\0\0\0", 24));
    CHECK(rd_get_notice_name(cache, 1, &n) == RD_NO_SUCH_NOTICE && n.token == 7);
    CHECK(rd_drop_key_name(cache, &alice, 3, &a) == 0 && a.kind == RD_DROPPED && a.number == 1 && a.notices == 1);
    CHECK(rd_put_name(cache, &alice, (rd_token){9, 1}, 3, &a) == 0 && a.kind == RD_STORED);
    CHECK(rd_drop_name(cache, &alice, 3, &a) == 0 && a.kind == RD_DROPPED && a.number == 1 && a.notices == 1);
    CHECK(rd_clear(cache, 3, &a) == 0 && a.kind == RD_CLEARED && a.notices == 1);
    CHECK(rd_get_notice_name(cache, 0, &n) == 0 && n.token == 8 && n.cause == RD_EXPLICIT && n.key.length == 3);
    return 0;
}

/* The empty name and 24 more, each a start of the next; what stands behind the length says nothing. */
static int every_length(rd_cache *cache) {
    rd_answer a;
    for (uint64_t i = 0; i <= 24; i++) {
        rd_name key = rd_name_of("abcdefghijklmnopqrstuvwxyz", i);
        CHECK(rd_put_name(cache, &key, (rd_token){i, 1}, 4, &a) == 0 && a.kind == RD_STORED && a.notices == 0);
    }
    for (uint64_t i = 0; i <= 24; i++) {
        rd_name key = {"abcdefghijklmnopqrstuvwx", i};
        CHECK(rd_look_name(cache, &key, 4, &a) == 0 && a.kind == RD_HIT && a.token == i);
    }
    rd_name zeros = {{0}, 1};
    CHECK(rd_look_name(cache, &zeros, 4, &a) == 0 && a.kind == RD_ABSENT);
    rd_numbers t;
    CHECK(rd_get_numbers(cache, &t) == 0 && t.entries == 25 && t.hits == 26 && t.misses == 4 && t.lookups == 30);
    CHECK(rd_clean(cache, 4, &a) == 0 && a.kind == RD_CLEANED && a.notices == 0);
    CHECK(rd_slide(cache, false, 4, &a) == 0 && a.kind == RD_SLID && a.number == 1 && a.notices == 0);
    uint32_t window;
    CHECK(rd_get_window(cache, &window) == 0 && window == 3);
    return 0;
}

int main(void) {
    rd_cache names = RD_CACHE_INIT, numbers = RD_CACHE_INIT;
    rd_name alice = rd_name_of("alice", 5), longer = rd_name_of("abcdefghijklmnopqrstuvwxyz", 25), far = {{0}, ~0ull};
    rd_name_notice n = {.token = 77};
    rd_notice of_number = {.token = 77};
    rd_answer a = {.kind = 77};
    rd_looked look = {1, 0, a};
    uint64_t made = 77;
    CHECK(refused(&names, &alice) == RD_CLOSED && rd_get_notice_name(&names, 0, &n) == RD_CLOSED);
    CHECK(refused(&names, &longer) == RD_NAME_TOO_LONG);
    CHECK(rd_open_names(&(rd_setup){.entries = 0}, &names) == RD_BAD_SETUP && !names.is_open);
    CHECK(rd_open_names(&setup, &names) == 0 && names.is_open);
    CHECK(rd_open_names(&setup, &names) == RD_OPEN_ALREADY && rd_open(&setup, &names) == RD_OPEN_ALREADY);
    CHECK(rd_open(&setup, &numbers) == 0 && rd_open_names(&setup, &numbers) == RD_OPEN_ALREADY);
    CHECK(refused(&names, &longer) == RD_NAME_TOO_LONG && refused(&names, &far) == RD_NAME_TOO_LONG);
    CHECK(refused(&numbers, &longer) == RD_NAME_TOO_LONG && refused(&numbers, &alice) == RD_OTHER_KEYS);
    CHECK(rd_look(&names, 1, 0, &a) == RD_OTHER_KEYS && rd_seek(&names, 1, 0, &a) == RD_OTHER_KEYS);
    CHECK(rd_put(&names, 1, (rd_token){1, 1}, 0, &a) == RD_OTHER_KEYS && rd_forget(&names, 1, 0, &a) == RD_OTHER_KEYS);
    CHECK(rd_land_keep(&names, 1, 1, (rd_token){1, 1}, 0, &a) == RD_OTHER_KEYS);
    CHECK(rd_land_loose(&names, 1, 1, 0, &a) == RD_OTHER_KEYS && rd_land_failed(&names, 1, 1, 0, &a) == RD_OTHER_KEYS);
    CHECK(rd_drop_key(&names, 1, 0, &a) == RD_OTHER_KEYS && rd_peek(&names, 1, 0, &a) == RD_OTHER_KEYS);
    CHECK(rd_put_with_notice(&names, 1, (rd_token){1, 1}, 0, &a, &of_number) == RD_OTHER_KEYS);
    CHECK(rd_land_keep_with_notice(&names, 1, 1, (rd_token){1, 1}, 0, &a, &of_number) == RD_OTHER_KEYS);
    CHECK(rd_drop_key_with_notice(&names, 1, 0, &a, &of_number) == RD_OTHER_KEYS && a.kind == 77);
    CHECK(rd_look_many(&names, &look, 1, &made) == RD_OTHER_KEYS && look.answer.kind == 77 && made == 77);
    CHECK(rd_get_notice(&names, 0, &of_number) == RD_OTHER_KEYS && of_number.token == 77);
    CHECK(rd_get_notice_name(&numbers, 0, &n) == RD_OTHER_KEYS && n.token == 77);
    rd_numbers t;
    CHECK(rd_get_numbers(&names, &t) == 0 && t.step == 0 && rd_get_numbers(&numbers, &t) == 0 && t.step == 0);
    if (first_rows(&names) || every_length(&names)) return 1;
    CHECK(rd_close(&names) == 0 && !names.is_open && rd_close(&names) == RD_CLOSED && rd_close(&numbers) == 0);
    puts("names: ok");
    return 0;
}
