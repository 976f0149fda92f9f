/* Inside rookdresser_loading.h and rookdresser_waiting.h: the loads of a cache that are open, and the waits for them.
 *
 *     loads -> a load -> a load -> ..        a load is on the stack of the thread that makes it, until it is removed
 *                |         |
 *              a wait    a wait -> ..        a wait is on the stack of the thread that waits, until it is over or given up
 *
 * One lock guards all of it. A wait has a condition of its own, so no other load's end wakes it, and it needs nothing of the load's
 * thread once it is over. A wait that would never end, since the load waits for this very thread, is refused. */
#ifndef ROOKDRESSER_FLIGHTS_H
#define ROOKDRESSER_FLIGHTS_H
#include "rookdresser.h"
#include <pthread.h>
#include <time.h>

typedef struct rd_flight {
    uint64_t id;
    pthread_t thread;
    bool is_handed_on; /* no thread makes it yet */
    rd_token value; /* with the error, once the load has returned */
    uint64_t error;
    bool is_over;    /* its value or its error has been handed to each wait */
    uint64_t joined; /* how many waits have begun */
    struct rd_wait *waits;
    struct rd_flight *next;
} rd_flight;

typedef struct rd_wait {
    rd_flight *of; /* is there until the wait is over */
    pthread_t thread;
    pthread_cond_t ended;
    bool blocks;  /* its thread sleeps. Until then it may run callbacks, so the load doesn't wait for it */
    bool is_over; /* from then on it has the value or the error */
    rd_token value;
    uint64_t error;
    struct rd_wait *next;
} rd_wait;

/* Lock is held: returns the load of this id, or null. */
static inline rd_flight *rd_flight_of(rd_flight *loads, uint64_t id) {
    while (loads && loads->id != id) loads = loads->next;
    return loads;
}

/* Lock is held: begins a load that this thread makes. */
static inline void rd_flight_begin(rd_flight **loads, rd_flight *of, uint64_t id) {
    const rd_flight begun = {id, pthread_self(), false, {0, 0}, RD_OK, false, 0, 0, *loads};
    *of = begun;
    *loads = of;
}

/* Lock is held: returns the load for which the thread sleeps, or null. */
static inline const rd_flight *rd_blocks_for(const rd_flight *loads, pthread_t thread) {
    for (; loads; loads = loads->next)
        for (const rd_wait *wait = loads->waits; wait; wait = wait->next)
            if (wait->blocks && pthread_equal(wait->thread, thread)) return loads;
    return 0;
}

/* Lock is held: whether the load waits for this thread, since the thread makes it, or a load for which the load's thread sleeps. */
static inline bool rd_flight_waits_for(const rd_flight *loads, const rd_flight *of, pthread_t thread) {
    while (of && !of->is_handed_on && !pthread_equal(of->thread, thread)) of = rd_blocks_for(loads, of->thread);
    return of && !of->is_handed_on;
}

/* Lock is held: hands the wait the end of its load. */
static inline void rd_wait_over(rd_wait *wait) {
    wait->value = wait->of->value;
    wait->error = wait->of->error;
    wait->is_over = true;
}

/* Lock is held: begins a wait of this thread. A deadline is a time of CLOCK_MONOTONIC. */
static inline void rd_wait_begin(rd_wait *wait, rd_flight *of, bool has_deadline) {
#ifdef CLOCK_MONOTONIC
    pthread_condattr_t clock;
    pthread_condattr_init(&clock);
    if (has_deadline) pthread_condattr_setclock(&clock, CLOCK_MONOTONIC);
    pthread_cond_init(&wait->ended, &clock);
    pthread_condattr_destroy(&clock);
#else
    (void)has_deadline;
    pthread_cond_init(&wait->ended, 0);
#endif
    wait->of = of;
    wait->thread = pthread_self();
    wait->blocks = wait->is_over = false;
    wait->value.token = wait->value.weight = 0;
    wait->error = RD_OK;
    of->joined++;
    if (of->is_over) {
        rd_wait_over(wait);
        return;
    }
    wait->next = of->waits;
    of->waits = wait;
}

/* Lock is held: ends what rd_wait_begin began. One that isn't over is given up. */
static inline void rd_wait_end(rd_wait *wait) {
    if (!wait->is_over) {
        rd_wait **at = &wait->of->waits;
        while (*at != wait) at = &(*at)->next;
        *at = wait->next;
    }
    pthread_cond_destroy(&wait->ended);
}

/* Lock is held: sleeps until the wait is over or the deadline has passed, and ends it. Returns RD_WAITS_FOR_ITSELF and doesn't sleep if
 * the load waits for this thread; RD_TIMED_OUT; or the load's RD_OK or error, and then the wait has its value. A null deadline never
 * passes. */
static inline uint64_t rd_wait_sleep(rd_wait *wait, const rd_flight *loads, pthread_mutex_t *lock, const struct timespec *deadline) {
    uint64_t fault = RD_OK;
    int late = 0;
    if (!wait->is_over && rd_flight_waits_for(loads, wait->of, wait->thread)) {
        fault = RD_WAITS_FOR_ITSELF;
    } else {
        wait->blocks = true;
        while (!wait->is_over && !late)
            late = deadline ? pthread_cond_timedwait(&wait->ended, lock, deadline) : pthread_cond_wait(&wait->ended, lock);
        fault = wait->is_over ? wait->error : (uint64_t)RD_TIMED_OUT;
    }
    rd_wait_end(wait);
    return fault;
}

/* Lock is held: the load is over. Hands its value or its error to each wait, and returns how many there were. The thread of a wait runs
 * once the lock is given back, so the caller takes the shares of the value until then. */
static inline long rd_flight_tell(rd_flight *of) {
    long waits = 0;
    of->is_over = true;
    for (rd_wait *wait = of->waits, *next; wait; wait = next, waits++) {
        next = wait->next;
        rd_wait_over(wait);
        pthread_cond_signal(&wait->ended);
    }
    of->waits = 0;
    return waits;
}

/* Lock is held: removes a load that is over. */
static inline void rd_flight_remove(rd_flight **loads, const rd_flight *of) {
    while (*loads != of) loads = &(*loads)->next;
    *loads = of->next;
}
#endif
