/* README.md's cache whose window follows the look-ups: each of 50,000 pages is read twice, once 300 others were read in between. */
#include "rookdresser_adaptive.h"
#include <stdio.h>
#include <stdlib.h>

static char *text_of(uint64_t page) {
    char *text = malloc(32);
    if (text) snprintf(text, 32, "page %llu", (unsigned long long)page);
    return text;
}

/* Frees the texts of the entries that left by the latest call. */
static void free_left(rd_cache *cache, const rd_answer *answer) {
    rd_notice notice;
    for (uint64_t i = 0; i < answer->notices; i++)
        if (rd_get_notice(cache, i, &notice) == RD_OK) free((char *)(uintptr_t)notice.token);
}

int main(void) {
    rd_cache cache = RD_CACHE_INIT;
    rd_answer answer;
    uint64_t now_ms = 0, hits = 0;
    rd_setup setup = {.entries = 1000, .flights = 64, .bound = 1 << 20};
    rd_follower follower = RD_FOLLOWER_INIT;
    if (rd_open_follower(&setup, &follower)) return 1; /* it sets setup.window */
    if (rd_open(&setup, &cache)) return 1;
    for (uint64_t i = 0; i < 100000; i++) {
        uint64_t page = i % 2 ? i / 2 : i / 2 + 300;
        if (rd_look(&cache, page, now_ms, &answer)) return 1;
        free_left(&cache, &answer);
        rd_follow(&follower, &cache, page); /* may empty the list of notices, which have been read */
        if (answer.kind == RD_HIT) {
            hits++;
            continue;
        }
        char *text = text_of(page);
        if (!text || rd_put(&cache, page, (rd_token){(uintptr_t)text, 1}, now_ms, &answer)) return 1;
        free_left(&cache, &answer);
    }
    printf("%llu hits, a window of %u\n", (unsigned long long)hits, follower.window);
    if (rd_clear(&cache, now_ms, &answer)) return 1;
    free_left(&cache, &answer);
    return rd_close_follower(&follower) || rd_close(&cache);
}
