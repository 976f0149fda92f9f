/* The counts of rookdresser_stats.h: each after calls whose answers are known, and beside the numbers of the library. */
#include "rookdresser_stats.h"
#include <stdio.h>
#include <stdlib.h>
#define CHECK(x)                                                                                             \
    do {                                                                                                     \
        if (!(x)) {                                                                                          \
            printf("line %d: %s\n", __LINE__, #x);                                                           \
            exit(1);                                                                                         \
        }                                                                                                    \
    } while (0)

static rd_cache cache = RD_CACHE_INIT;
static rd_stats stats;
static rd_answer a;

/* Counts a call with its notices, and checks what it returned and answered. */
static void counted(uint64_t fault, uint64_t wanted, uint32_t kind) {
    rd_notice n;
    CHECK(rd_count(&stats, fault, &a) == wanted);
    if (fault) return;
    CHECK(a.kind == kind);
    for (uint64_t i = 0; i < a.notices; i++) {
        CHECK(rd_get_notice(&cache, i, &n) == RD_OK);
        rd_count_left(&stats, n.cause);
    }
}

int main(void) {
    rd_setup setup = {.entries = 2, .window = 1, .flights = 1, .bound = 9, .after_write = 100, .refresh = 50};
    rd_numbers n;
    counted(rd_look(&cache, 1, 0, &a), RD_CLOSED, 0);
    CHECK(rd_open(&setup, &cache) == RD_OK);
    counted(rd_look(&cache, 1, 0, &a), RD_OK, RD_ABSENT);
    counted(rd_seek(&cache, 1, 0, &a), RD_OK, RD_LEAD);
    counted(rd_seek(&cache, 1, 0, &a), RD_OK, RD_JOIN);
    counted(rd_seek(&cache, 2, 0, &a), RD_TOO_MANY_FLIGHTS, 0);
    counted(rd_land_keep(&cache, 1, 1, (rd_token){7, 1}, 0, &a), RD_OK, RD_KEPT);
    counted(rd_look(&cache, 1, 0, &a), RD_OK, RD_HIT);
    /* A refresh that fails, one that is replaced meanwhile, and a value that is replaced. */
    counted(rd_seek(&cache, 1, 60, &a), RD_OK, RD_HIT_LEAD);
    counted(rd_land_failed(&cache, 2, 1, 60, &a), RD_OK, RD_FAILED);
    counted(rd_seek(&cache, 1, 60, &a), RD_OK, RD_HIT_LEAD);
    counted(rd_put(&cache, 1, (rd_token){8, 1}, 60, &a), RD_OK, RD_STORED);
    counted(rd_land_keep(&cache, 3, 1, (rd_token){9, 1}, 60, &a), RD_OK, RD_LOOSE);
    counted(rd_put(&cache, 1, (rd_token){8, 10}, 60, &a), RD_TOO_HEAVY, 0);
    /* Of three entries one is evicted, two expire; one is dropped. */
    counted(rd_put(&cache, 2, (rd_token){2, 1}, 60, &a), RD_OK, RD_STORED);
    counted(rd_put(&cache, 3, (rd_token){3, 1}, 60, &a), RD_OK, RD_STORED);
    counted(rd_clean(&cache, 160, &a), RD_OK, RD_CLEANED);
    counted(rd_put(&cache, 4, (rd_token){4, 1}, 160, &a), RD_OK, RD_STORED);
    CHECK(rd_held(&stats) == 1);
    counted(rd_drop_key(&cache, 4, 160, &a), RD_OK, RD_DROPPED);
    counted(rd_slide(&cache, true, 160, &a), RD_OK, RD_SLID);

    CHECK(rd_hits(&stats) == 3 && rd_misses(&stats) == 3 && stats.answers[RD_JOIN] == 1);
    CHECK(rd_loads(&stats) == 2 && stats.answers[RD_LOOSE] == 1 && stats.answers[RD_FAILED] == 1);
    CHECK(stats.answers[RD_HIT_LEAD] == 2 && stats.answers[RD_SLID] == 1 && stats.left[0] == 0);
    CHECK(stats.left[RD_EXPLICIT] == 1 && stats.left[RD_REPLACED] == 1 && stats.left[RD_EXPIRED] == 2 && stats.left[RD_SIZE] == 1);
    CHECK(rd_evicted(&stats) == 3 && rd_held(&stats) == 0);
    CHECK(stats.refused[RD_TOO_MANY_FLIGHTS] == 1 && stats.refused[RD_TOO_HEAVY] == 1 && stats.misused == 1);
    CHECK(rd_get_numbers(&cache, &n) == RD_OK);
    CHECK(n.hits == 3 && n.misses == 3 && n.loads == 2 && n.failed == 1 && n.evicted == 3 && n.entries == 0);
    CHECK(rd_close(&cache) == RD_OK);
    puts("counted calls: ok");
    return 0;
}
