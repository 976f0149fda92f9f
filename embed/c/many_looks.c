/* rd_look_many beside a twin on which rd_look makes the same look-ups: the same answers and numbers. It stops after a
 * look-up that tells a notice, and after one that is refused memory: link with -Wl,--wrap=malloc,--wrap=realloc. */
#include "rookdresser.h"
#include <stdio.h>
#include <stdlib.h>
#define MOST 40
#define CHECK(x)                                                                                             \
    do {                                                                                                     \
        if (!(x)) {                                                                                          \
            printf("batch %ld line %d: %s\n", i, __LINE__, #x);                                              \
            return 1;                                                                                        \
        }                                                                                                    \
    } while (0)
void *__real_malloc(size_t n);
void *__real_realloc(void *p, size_t n);
static long fail_in = -1;
static bool fails(void) { return fail_in >= 0 && fail_in-- == 0; }
void *__wrap_malloc(size_t n) { return fails() ? 0 : __real_malloc(n); }
void *__wrap_realloc(void *p, size_t n) { return fails() ? 0 : __real_realloc(p, n); }

static uint64_t rng = 362436069;
static uint64_t next(void) {
    rng ^= rng << 13;
    rng ^= rng >> 7;
    rng ^= rng << 17;
    return rng;
}

/* Whether the two have the same numbers. */
static bool agree(rd_cache *cache, rd_cache *twin) {
    rd_numbers s, t;
    return rd_get_numbers(cache, &s) == 0 && rd_get_numbers(twin, &t) == 0 && !memcmp(&s, &t, sizeof s);
}

int main(void) {
    rd_setup setup = {.entries = 64, .window = 8, .flights = 1, .bound = 1000, .after_write = 400};
    rd_cache cache = RD_CACHE_INIT, twin = RD_CACHE_INIT;
    long i = -1, cut_short = 0, refused = 0, whole = 0;
    CHECK(rd_open(&setup, &cache) == 0 && rd_open(&setup, &twin) == 0);
    uint64_t now = 0;
    for (i = 0; i < 100000; i++) {
        rd_answer a, b;
        now += next() % 20;
        uint64_t key = next() % 100;
        CHECK(rd_put(&cache, key, (rd_token){(uint64_t)i, 1}, now, &a) == 0);
        CHECK(rd_put(&twin, key, (rd_token){(uint64_t)i, 1}, now, &b) == 0);
        uint64_t n = next() % (MOST + 1), made = 77, faults = 0;
        rd_looked looks[MOST], asked[MOST];
        memset(looks, 77, sizeof looks);
        for (uint64_t j = 0; j < n; j++) {
            looks[j].key = next() % 100;
            looks[j].now = now + j;
        }
        memcpy(asked, looks, sizeof looks);
        if (next() % 4 == 0) fail_in = (long)(next() % 8);
        uint64_t fault = rd_look_many(&cache, looks, n, &made);
        fail_in = -1;
        CHECK(made <= n);
        for (uint64_t j = 0; j < made; j++) {
            bool is_last = j + 1 == made;
            CHECK(looks[j].key == asked[j].key && looks[j].now == asked[j].now);
            if (is_last && fault) {
                /* It was refused memory, so the twin doesn't make it. */
                CHECK(fault == RD_OUT_OF_MEMORY && looks[j].answer.kind == RD_NO_MEMORY && looks[j].answer.number == fault);
                CHECK(looks[j].answer.notices == 0);
                faults++;
                continue;
            }
            CHECK(rd_look(&twin, asked[j].key, asked[j].now, &b) == 0 && !memcmp(&looks[j].answer, &b, sizeof b));
            CHECK(is_last || b.notices == 0);
        }
        bool has_notice = made > 0 && looks[made - 1].answer.notices > 0;
        CHECK(made == n || has_notice || faults == 1);
        CHECK(!memcmp(looks + made, asked + made, (MOST - made) * sizeof *looks));
        for (uint64_t j = 0; has_notice && j < looks[made - 1].answer.notices; j++) {
            rd_notice told, same;
            CHECK(rd_get_notice(&cache, j, &told) == 0 && rd_get_notice(&twin, j, &same) == 0);
            CHECK(!memcmp(&told, &same, sizeof told) && told.cause == RD_EXPIRED);
        }
        CHECK(agree(&cache, &twin));
        whole += made == n && n > 0;
        cut_short += has_notice;
        refused += (long)faults;
    }
    printf("%ld batches: %ld whole, %ld that ended with a notice, %ld that were refused memory\n", i, whole, cut_short,
           refused);
    CHECK(whole > 1000 && cut_short > 1000 && refused > 100);
    return rd_close(&cache) || rd_close(&twin);
}
