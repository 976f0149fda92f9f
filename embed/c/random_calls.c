/* A million random operations beside a plain model of what must hold: the model keeps the tokens by key, in
 * step with the notices, and compares each hit, each number and each notice with it. Half of the puts, landings
 * and drops hand their first notice back, which is compared with the one that is told. Slides move the border
 * between its ends, where it stays, and no entry leaves by one. A peek before each look tells what the look does,
 * and leaves all numbers. */
#include "keys.h"
#define KEYS 512
#define CHECK(x)                                                                                             \
    do {                                                                                                     \
        if (!(x)) {                                                                                          \
            printf("op %ld line %d: %s\n", i, __LINE__, #x);                                                 \
            return 1;                                                                                        \
        }                                                                                                    \
    } while (0)
static uint64_t rng = 88172645463325252ull;
static uint64_t next(void) {
    rng ^= rng << 13;
    rng ^= rng >> 7;
    rng ^= rng << 17;
    return rng;
}
static uint64_t held[KEYS];
static uint32_t weigh[KEYS];
static bool in[KEYS];
static uint64_t load_of[KEYS], load_left[64];
static uint64_t sharers[64];
static uint64_t key_of[64];
static int loads;

int main(int argc, char **argv) {
    long n = argc > 1 ? atol(argv[1]) : 1000000, i;
    rd_setup setup = {.entries = 40,
                      .window = 8,
                      .flights = 16,
                      .bound = 900,
                      .after_write = 5000,
                      .after_access = 3000,
                      .refresh = 700};
    rd_cache cache = RD_CACHE_INIT;
    if (OPEN(&setup, &cache)) return 1;
    uint64_t now = 0, latest = 0, token = 1, hits = 0, left = 0, entries = 0, weight = 0, refused = 0,
             evicted = 0, misses = 0, handed_back = 0, steps = 0, ends = 0;
    uint32_t window = setup.window;
    for (i = 0; i < n; i++) {
        now += next() % 4;
        uint64_t k = next() % KEYS;
        if (next() % 4) k %= 80;
        unsigned what = next() % 104;
        rd_answer a = {99, 99, 99, 99, 99};
        uint64_t f;
        rd_token v = {token, (uint32_t)(next() % 40)};
        if (next() % 500 == 0) v.weight = 5000;
        bool stores = false, hands_back = false;
        any_notice first;
        memset(&first, 77, sizeof first);
        if (what >= 100) {
            bool wider = next() % 2, moves = wider ? window < 40 : window > 1;
            f = rd_slide(&cache, wider, now, &a);
            CHECK(f == 0 && a.kind == RD_SLID && a.number == moves && a.notices == 0 && a.token == 0 && a.weight == 0);
            if (moves) window += wider ? 1u : -1u;
            ends += !moves;
        } else if (what < 45) {
            rd_answer seen = {99, 99, 99, 99, 99};
            rd_numbers s, t;
            CHECK(rd_get_numbers(&cache, &s) == 0 && PEEK(&cache, GIVEN(k), now, &seen) == 0);
            CHECK(rd_get_numbers(&cache, &t) == 0 && !memcmp(&s, &t, sizeof s));
            f = LOOK(&cache, GIVEN(k), now, &a);
            CHECK(f == 0 && seen.kind == a.kind && seen.token == a.token && seen.weight == a.weight);
            CHECK(seen.number == 0 && seen.notices == 0);
        } else if (what < 70) {
            f = SEEK(&cache, GIVEN(k), now, &a);
            CHECK(f == 0 || f == RD_TOO_MANY_FLIGHTS);
            if (f) {
                refused++;
                CHECK(loads == 16 && a.kind == RD_REFUSED && a.number == f);
            }
            if (a.kind == RD_LEAD || a.kind == RD_HIT_LEAD) {
                CHECK(loads < 16);
                load_left[loads] = a.number;
                key_of[loads] = k;
                sharers[loads] = 1;
                load_of[k] = a.number;
                loads++;
            }
            if (a.kind == RD_JOIN) {
                int j = 0;
                while (j < loads && load_left[j] != a.number)
                    j++;
                CHECK(j < loads && key_of[j] == k);
                sharers[j]++;
            }
        } else if (what < 85 && loads) {
            int j = next() % loads;
            k = key_of[j];
            if (what < 80) {
                hands_back = next() % 2;
                f = hands_back ? LAND_KEEP_WITH_NOTICE(&cache, load_left[j], GIVEN(k), v, now, &a, &first)
                               : LAND_KEEP(&cache, load_left[j], GIVEN(k), v, now, &a);
                stores = a.kind == RD_KEPT;
                CHECK(a.kind == RD_KEPT || a.kind == RD_LOOSE);
                if (stores) token++;
            } else if (what < 83) {
                f = LAND_FAILED(&cache, load_left[j], GIVEN(k), now, &a);
                CHECK(a.kind == RD_FAILED);
            } else {
                f = LAND_LOOSE(&cache, load_left[j], GIVEN(k), now, &a);
                CHECK(a.kind == RD_LOOSE);
            }
            CHECK(f == 0 && a.number == sharers[j]);
            loads--;
            load_left[j] = load_left[loads];
            key_of[j] = key_of[loads];
            sharers[j] = sharers[loads];
        } else if (what < 96) {
            hands_back = next() % 2;
            f = hands_back ? PUT_WITH_NOTICE(&cache, GIVEN(k), v, now, &a, &first)
                           : PUT(&cache, GIVEN(k), v, now, &a);
            if (v.weight > 900) {
                CHECK(f == RD_TOO_HEAVY && a.kind == RD_REFUSED);
                refused++;
            } else {
                CHECK(f == 0 && a.kind == RD_STORED);
                stores = true;
                token++;
            }
        } else if (what < 98) {
            hands_back = next() % 2;
            f = hands_back ? DROP_WITH_NOTICE(&cache, GIVEN(k), now, &a, &first)
                           : DROP(&cache, GIVEN(k), now, &a);
            CHECK(f == 0 && a.kind == RD_DROPPED);
        } else if (what < 99) {
            f = FORGET(&cache, GIVEN(k), now, &a);
            CHECK(f == 0);
        } else if (next() % 50 == 0) {
            f = rd_clear(&cache, now, &a);
            CHECK(f == 0);
        } else {
            f = rd_clean(&cache, now, &a);
            CHECK(f == 0);
        }
        if (a.kind == RD_HIT || a.kind == RD_HIT_LEAD) {
            hits++;
            CHECK(in[k] && held[k] == a.token && weigh[k] == a.weight);
        }
        if (a.kind == RD_ABSENT || a.kind == RD_LEAD || a.kind == RD_JOIN) misses++;
        if (hands_back && !f && a.notices) {
            rd_notice told;
            CHECK(get_notice(&cache, 0, &told) == 0);
            rd_notice handed = by_number(first);
            CHECK(!memcmp(&handed, &told, sizeof told));
            handed_back++;
        } else {
            any_notice untouched;
            memset(&untouched, 77, sizeof untouched);
            CHECK(!memcmp(&first, &untouched, sizeof first));
        }
        /* a store's own key: first what leaves under it, then the new one, which may leave too */
        for (uint64_t j = 0; j < (f ? 0 : a.notices); j++) {
            rd_notice m;
            CHECK(get_notice(&cache, j, &m) == 0);
            CHECK(m.key < KEYS);
            if (stores && m.key == k && m.token == v.token) {
                stores = false;
                evicted++;
                CHECK(m.cause == RD_SIZE);
                left++;
                continue;
            }
            CHECK(in[m.key] && held[m.key] == m.token && weigh[m.key] == m.weight);
            in[m.key] = false;
            entries--;
            weight -= m.weight;
            left++;
            evicted += m.cause >= RD_EXPIRED;
        }
        if (stores) {
            CHECK(!in[k]);
            in[k] = true;
            held[k] = v.token;
            weigh[k] = v.weight;
            entries++;
            weight += v.weight;
        }
        if ((a.kind == RD_ABSENT || a.kind == RD_LEAD || a.kind == RD_JOIN || a.kind == RD_DROPPED))
            CHECK(!in[k]);
        if (f == 0) latest = now, steps++; /* a refused call changes nothing, the moment included */
        rd_numbers t;
        CHECK(rd_get_numbers(&cache, &t) == 0);
        CHECK(t.entries == entries && t.weight == weight && t.entries <= 40 && t.weight <= 900 &&
              t.hits == hits && t.misses == misses && t.evicted == evicted && t.flights == (uint64_t)loads &&
              t.latest == latest && t.step == steps);
    }
    printf("%ld operations: hits %llu misses %llu left %llu refused %llu entries %llu weight %llu\n", n,
           (unsigned long long)hits, (unsigned long long)misses, (unsigned long long)left,
           (unsigned long long)refused, (unsigned long long)entries, (unsigned long long)weight);
    return handed_back == 0 || ends == 0 || rd_close(&cache) != 0;
}
