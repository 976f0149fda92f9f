/* Counts for an operator, from the answers and the notices of one cache. Count while you hold the cache's lock: right after each call
 * its answer, and each notice. README.md compares each count with Guava's CacheStats; counted_calls.c has an example of each call. */
#ifndef ROOKDRESSER_STATS_H
#define ROOKDRESSER_STATS_H
#include "rookdresser.h"

typedef struct rd_stats {
    uint64_t answers[RD_SLID + 1];        /* by rd_kind */
    uint64_t left[RD_SIZE + 1];           /* entries that left, by rd_cause */
    uint64_t refused[RD_STEPS_SPENT + 1]; /* refused calls, by rd_fault up to RD_STEPS_SPENT */
    uint64_t misused;                     /* calls that were refused as RD_CLOSED or by a later rd_fault */
    uint64_t beside;                      /* rookdresser_loading.h alone: misses that loaded beside the cache, at the limit of open loads */
    uint64_t given_up;                    /* the same: loads that ended before their load returned */
    uint64_t late;                        /* the same: values that these brought later, which were destroyed */
} rd_stats;

/* Counts the fault and the answer of a call, and returns the fault. So you can write rd_count(&stats, rd_look(..), &answer). */
static inline uint64_t rd_count(rd_stats *stats, uint64_t fault, const rd_answer *answer) {
    if (fault == RD_OK)
        stats->answers[answer->kind]++;
    else if (fault <= RD_STEPS_SPENT)
        stats->refused[fault]++;
    else
        stats->misused++;
    return fault;
}

/* Counts an entry that left. */
static inline void rd_count_left(rd_stats *stats, uint32_t cause) {
    stats->left[cause]++;
}

/* Look-ups that found the key. */
static inline uint64_t rd_hits(const rd_stats *s) {
    return s->answers[RD_HIT] + s->answers[RD_HIT_LEAD];
}

/* Look-ups that didn't. */
static inline uint64_t rd_misses(const rd_stats *s) {
    return s->answers[RD_ABSENT] + s->answers[RD_JOIN] + s->answers[RD_LEAD];
}

/* Landings with a value. */
static inline uint64_t rd_loads(const rd_stats *s) {
    return s->answers[RD_KEPT] + s->answers[RD_LOOSE];
}

/* Entries that expired or were evicted. */
static inline uint64_t rd_evicted(const rd_stats *s) {
    return s->left[RD_EXPIRED] + s->left[RD_SIZE];
}

/* Entries that are held now: those that were stored, less those that left. */
static inline uint64_t rd_held(const rd_stats *s) {
    return s->answers[RD_STORED] + s->answers[RD_KEPT] - s->left[RD_EXPLICIT] - s->left[RD_REPLACED] - rd_evicted(s);
}
#endif
