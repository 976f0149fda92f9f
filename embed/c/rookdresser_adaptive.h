/* A window that follows the stream of look-ups: an adviser of rookdresser.h is shown each key that is looked up, and moves the border
 * between window and main of one cache towards what it wants, by up to four entries for a look-up.
 *
 *     rd_setup setup = {.entries = 1000, .flights = 64, .bound = 1 << 20};
 *     rd_follower follower = RD_FOLLOWER_INIT;
 *     if (rd_open_follower(&setup, &follower)) return 1;                 it sets setup.window
 *     if (rd_open(&setup, &cache)) return 1;
 *     rd_look(&cache, key, now, &answer);                                then read its notices, and
 *     rd_follow(&follower, &cache, key);
 *     rd_close_follower(&follower);
 *
 * Call rd_follow after each rd_look and each rd_seek, whether it hit or not, and after no other call. It makes steps of the cache,
 * which rd_numbers.step counts, at the cache's latest moment. A slide empties the cache's list of notices, as each step does: so read
 * the notices of the look-up first. The keys are numbers; for a cache of names, pass a hash of the name, as rookdresser_seeded.h makes
 * one. No other code may make slides of that cache. A follower and its cache have one call at a time, by the rules of rookdresser.h.
 */
#ifndef ROOKDRESSER_ADAPTIVE_H
#define ROOKDRESSER_ADAPTIVE_H
#include "rookdresser.h"

enum { RD_SLIDES = 4 };

/* What follows a cache's look-ups. If all its bytes are zero, it is closed. */
typedef struct rd_follower {
    rd_adviser adviser;
    uint32_t window; /* how many entries the cache's window may hold now */
    uint32_t wanted; /* how many the adviser wants it to hold */
} rd_follower;
#define RD_FOLLOWER_INIT {RD_ADVISER_INIT, 0, 0}

/* Opens a follower for a cache of setup's entries, and sets setup's window to what it wants at first: 10 hundredths of them. Open the
 * cache with this setup then. Faults, in this order: RD_OPEN_ALREADY; RD_BAD_SETUP if the entries are fewer than 64 or more than
 * 4,194,304, though rd_open takes at most 65,536; RD_OUT_OF_MEMORY. A fault leaves both as they were. O(entries). */
static inline uint64_t rd_open_follower(rd_setup *setup, rd_follower *follower) {
    const uint64_t none = 0;
    uint64_t fault = rd_open_adviser(setup->entries, &follower->adviser);
    if (fault) return fault;
    rd_advise(&follower->adviser, &none, 0, &follower->wanted);
    setup->window = follower->window = follower->wanted;
    return RD_OK;
}

/* Shows the adviser the look-ups of n keys, in their order, and moves the border towards what it wants then, by up to four entries for
 * each key. keys isn't null even if n is 0.
 *
 * RD_CLOSED if the follower is closed, and nothing happens, or if the cache is closed and its border should move. RD_OUT_OF_MEMORY if
 * an allocation failed, of the adviser or of a slide: a later call goes on from there, so a program need not look at it.
 * RD_STEPS_SPENT as each step. Expected O(n), and O(entries / 64) more if the adviser's counts are halved. */
static inline uint64_t rd_follow_many(rd_follower *follower, rd_cache *cache, const uint64_t *keys, size_t n) {
    uint64_t fault = rd_advise(&follower->adviser, keys, n, &follower->wanted);
    if (fault == RD_CLOSED) return fault;
    for (size_t left = RD_SLIDES * n; left > 0 && follower->window != follower->wanted; left--) {
        bool wider = follower->window < follower->wanted;
        rd_answer slid;
        uint64_t refused = rd_slide(cache, wider, 0, &slid);
        if (refused) return refused;
        if (!slid.number) break;
        follower->window = wider ? follower->window + 1 : follower->window - 1;
    }
    return fault;
}

/* The same of one look-up. */
static inline uint64_t rd_follow(rd_follower *follower, rd_cache *cache, uint64_t key) { return rd_follow_many(follower, cache, &key, 1); }

/* Closes the follower and frees its memory. The cache keeps the window that it has. Returns RD_CLOSED if it is closed already. */
static inline uint64_t rd_close_follower(rd_follower *follower) {
    follower->window = follower->wanted = 0;
    return rd_close_adviser(&follower->adviser);
}
#endif
