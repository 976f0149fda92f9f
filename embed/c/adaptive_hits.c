/* adaptive_hits ENTRIES < KEYS: looks up keys, one a line, in a cache whose window follows them, and stores what isn't there. Prints the
 * hits, the sum of how many entries the window could hold at each look-up, how often the adviser wanted another window, and the steps.
 * same_windows.py compares them with the rule. */
#include "rookdresser_adaptive.h"
#include <inttypes.h>
#include <stdio.h>
#include <stdlib.h>

int main(int argc, char **argv) {
    if (argc != 2) return 2;
    rd_setup setup = {.entries = (uint32_t)atoi(argv[1]), .flights = 1, .bound = 1 << 20};
    rd_follower follower = RD_FOLLOWER_INIT;
    rd_cache cache = RD_CACHE_INIT;
    rd_answer answer;
    rd_numbers n;
    uint64_t key, windows = 0, choices = 0, slid = 0;
    if (rd_open_follower(&setup, &follower) || rd_open(&setup, &cache)) return 1;
    while (scanf("%" SCNu64, &key) == 1) {
        if (rd_seek(&cache, key, 0, &answer)) return 1;
        if (answer.kind == RD_LEAD && rd_land_keep(&cache, answer.number, key, (rd_token){key, 1}, 0, &answer)) return 1;
        uint32_t window = follower.window, wanted = follower.wanted;
        windows += window;
        if (rd_follow(&follower, &cache, key)) return 1;
        choices += follower.wanted != wanted;
        slid += follower.window < window ? window - follower.window : follower.window - window;
    }
    if (rd_get_numbers(&cache, &n) || n.step != n.lookups + n.loads + slid) return 1;
    printf("%" PRIu64 " %" PRIu64 " %" PRIu64 "\n", n.hits, windows, choices);
    return rd_close_follower(&follower) || rd_close(&cache);
}
