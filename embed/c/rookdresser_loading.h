/* A loading cache for threads: a cache of rookdresser.h behind one lock, with one load for all callers that ask for a key meanwhile.
 * It has no shards: all calls of a cache take the same lock, each for one step. If its window follows the look-ups, a look and a get
 * also show them to its adviser under that lock, and make up to four slides.
 *
 *     typedef struct page { rd_shared shared; char text[100]; } page;     a value begins with its count of shares
 *     rd_loading pages = RD_LOADING_INIT;
 *     rd_loading_open(&pages, &setup, free_page);                         free_page(&page->shared) frees a page
 *     rd_loading_get(&pages, key, now_ms, load_page, context, &shared);   the page, of which the caller now has a share
 *     rd_loading_release(&pages, shared);
 *
 * Keys are numbers, or names if you define ROOKDRESSER_LOADING_NAMES before you include this header. Your load, your listener and your
 * destroy run with no lock held. They may use the cache, take long or block: no call waits for them but the one that made them run, and
 * those for the key that is loaded. They have to return: they must neither longjmp out nor be cancelled. Each call returns an rd_fault;
 * the two gets may also return an error. After rd_loading_close all calls return RD_CLOSED. The header takes no memory of its own but for
 * jobs. It
 * was written by hand; it is tested with the address, undefined-behaviour and thread sanitizers, and not proved. It needs pthreads and
 * the __atomic functions of gcc or clang.
 */
#ifndef ROOKDRESSER_LOADING_H
#define ROOKDRESSER_LOADING_H
#include <stdlib.h>
#include "rookdresser_adaptive.h"
#include "rookdresser_flights.h"
#include "rookdresser_stats.h"

#ifdef ROOKDRESSER_LOADING_NAMES
#include "rookdresser_seeded.h"
typedef rd_name rd_loading_key;
typedef rd_name_notice rd_loading_notice;
#define RD_LOADING_OPEN rd_open_names
#define RD_LOADING_NOTICE rd_get_notice_name
#define RD_LOADING_CALL(call, cache, ...) call##_name(cache, __VA_ARGS__)
#define RD_LOADING_PUT rd_put_name_for
#define RD_LOADING_LAND rd_land_name_for
#define RD_LOADING_DROP rd_drop_key_name_with_notice
#define RD_LOADING_KEY(key) (&(key))
#define RD_LOADING_SAME(a, b) ((a).length == (b).length && !memcmp((a).bytes, (b).bytes, sizeof(a).bytes))
static inline uint64_t rd_loading_number(rd_name key) {
    const uint64_t seed[2] = {0, 0};
    return rd_seeded(seed, key.bytes, key.length);
}
#else
typedef uint64_t rd_loading_key;
typedef rd_notice rd_loading_notice;
#define RD_LOADING_OPEN rd_open
#define RD_LOADING_NOTICE rd_get_notice
#define RD_LOADING_CALL(call, cache, ...) call(cache, __VA_ARGS__)
#define RD_LOADING_PUT rd_put_for
#define RD_LOADING_LAND rd_land_for
#define RD_LOADING_DROP rd_drop_key_with_notice
#define RD_LOADING_KEY(key) (key)
#define RD_LOADING_SAME(a, b) ((a) == (b))
static inline uint64_t rd_loading_number(uint64_t key) { return key; }
#endif

/* Of what a load of rd_loading_get runs through: in one piece it makes fewer instructions. */
#define RD_LOADING_INLINE static inline __attribute__((always_inline))

/* The beginning of each value. The cache has a share of each value that it holds, and a caller has one of each value that it got. */
typedef struct rd_shared {
    long shares;
    struct rd_shared *next; /* once its entry has left, the next of those that left by one call */
    rd_loading_key key;     /* then, too, the entry's key, and why it left */
    uint32_t cause;         /* an rd_cause */
} rd_shared;

enum { RD_LOADING_ERRORS = RD_WAITS_FOR_ITSELF + 1 };

/* Loads a key. Returns RD_OK and writes a new value and its weight, or returns an error of yours, a number from RD_LOADING_ERRORS
 * on, and writes no value. */
typedef uint64_t rd_load(void *context, rd_loading_key key, rd_shared **value, uint32_t *weight);

/* The same, for rd_loading_get_for: it may also write the value's life, which is 0 before, for none. */
typedef uint64_t rd_load_for(void *context, rd_loading_key key, rd_shared **value, uint32_t *weight, uint32_t *life);

/* Gets an entry that left, with its value, which is whole until the listener returns. */
typedef void rd_loading_listener(void *context, rd_loading_key key, rd_shared *value, enum rd_cause cause);

/* A load of an entry that is due, which another thread is to make: rd_loading_make does, and rd_loading_cancel gives it up. */
typedef struct rd_loading_job rd_loading_job;

/* Takes a job for another thread and returns true; or returns false, and then the caller of the get makes the load. */
typedef bool rd_loading_hand_on(void *context, rd_loading_job *job);

typedef struct rd_loading {
    pthread_mutex_t lock; /* of all that follows */
    rd_cache cache;
    rd_stats stats;
    rd_flight *loads;
    void (*destroy)(rd_shared *value);
    rd_loading_listener *listener; /* null if there is none */
    void *context;                 /* the listener's */
    rd_follower follower;          /* closed if the window is fixed */
    bool refuses_at_limit;
    uint64_t load_timeout; /* how many milliseconds a load may take; 0: any */
    uint64_t overdue_at;   /* no open load is overdue before */
    rd_loading_hand_on *hand_on; /* null if callers make the loads of due entries */
    void *hand_on_context;
} rd_loading;
#define RD_LOADING_INIT {PTHREAD_MUTEX_INITIALIZER, RD_CACHE_INIT, {{0}, {0}, {0}, 0, 0, 0, 0}, 0, 0, 0, 0, RD_FOLLOWER_INIT, false, 0, 0, 0, 0}

/* Opens an empty cache, as rd_open does. The cache calls destroy for each value once nobody has a share of it. */
static inline uint64_t rd_loading_open(rd_loading *l, const rd_setup *setup, void (*destroy)(rd_shared *value)) {
    pthread_mutex_lock(&l->lock);
    uint64_t fault = RD_LOADING_OPEN(setup, &l->cache);
    if (!fault) l->destroy = destroy;
    pthread_mutex_unlock(&l->lock);
    return fault;
}

/* Opens an empty cache whose window follows the look-ups; the setup's window doesn't count. Faults, in this order: RD_OPEN_ALREADY;
 * RD_BAD_SETUP, also for fewer than 64 entries; RD_OUT_OF_MEMORY. A fault leaves the cache as it was. If memory is refused later to
 * the adviser or to a slide, no call fails, and a later one goes on. */
static inline uint64_t rd_loading_open_adaptive(rd_loading *l, const rd_setup *setup, void (*destroy)(rd_shared *value)) {
    rd_setup adapted = *setup;
    pthread_mutex_lock(&l->lock);
    uint64_t fault = l->cache.is_open ? (uint64_t)RD_OPEN_ALREADY : rd_open_follower(&adapted, &l->follower);
    if (!fault) {
        fault = RD_LOADING_OPEN(&adapted, &l->cache);
        if (fault) rd_close_follower(&l->follower);
    }
    if (!fault) l->destroy = destroy;
    pthread_mutex_unlock(&l->lock);
    return fault;
}

/* Has the listener get each entry that leaves from now on, once: one that is dropped, cleared, closed over, replaced, expired or evicted.
 * A value that was never stored is no entry, as that of a put that was refused. Null ends it. You may call it before the cache is open;
 * a close changes nothing of it.
 *
 * The listener runs with no lock held, in the thread whose call removed the entry: after a load of that call has landed, and before the
 * call returns or sleeps. It may use the cache, take long or block; only its own call waits for it. Afterwards the cache gives up its
 * share of the value, unless rd_loading_share took another. Entries that one call removed come in the order of their notices. Not
 * promised: the order of entries that the calls of several threads removed. A call that is at work as you change the listener may call
 * the one before. Takes the lock, and no memory. O(1). */
static inline void rd_loading_listen(rd_loading *l, rd_loading_listener *listener, void *context) {
    pthread_mutex_lock(&l->lock);
    l->listener = listener;
    l->context = context;
    pthread_mutex_unlock(&l->lock);
}

/* Says what a miss does while as many loads are open as flights allows. By default its thread loads beside the cache: it gets its own value,
 * with the only share, which isn't stored, and no other thread shares its load. So a thousand threads that then miss one key load it a
 * thousand times. With true it gets RD_TOO_MANY_FLIGHTS, which spares the source. A thread that asks for a key whose load is open waits for
 * it all the same. Not promised: that a load beside the cache that asks for its own key is refused. Takes the lock, and no memory. O(1). */
static inline void rd_loading_refuse_at_limit(rd_loading *l, bool refuses) {
    pthread_mutex_lock(&l->lock);
    l->refuses_at_limit = refuses;
    pthread_mutex_unlock(&l->lock);
}

/* Has each load given up that has been open for so many milliseconds, by the moments of the calls; 0, the default: none is. Each get looks for
 * such loads, as rd_loading_give_up does. It holds for the loads that are open, too. Takes the lock, and no memory. O(1). */
static inline void rd_loading_load_timeout(rd_loading *l, uint64_t milliseconds) {
    pthread_mutex_lock(&l->lock);
    l->load_timeout = milliseconds;
    l->overdue_at = 0;
    pthread_mutex_unlock(&l->lock);
}

/* Returns how many entries the window may hold now, of a cache whose window follows the look-ups; 0 of another one. */
static inline uint32_t rd_loading_window(rd_loading *l) {
    pthread_mutex_lock(&l->lock);
    uint32_t window = l->follower.window;
    pthread_mutex_unlock(&l->lock);
    return window;
}

static inline uint64_t rd_loading_token(rd_shared *value) { return (uint64_t)(uintptr_t)value; }
static inline rd_shared *rd_loading_value(uint64_t token) { return (rd_shared *)(uintptr_t)token; }

/* Takes another share of a value of which the caller has one, and returns the value. Without a value it does nothing. */
static inline rd_shared *rd_loading_share(rd_shared *value) {
    if (value) __atomic_add_fetch(&value->shares, 1, __ATOMIC_RELAXED);
    return value;
}

/* Gives up a share. Without a value it does nothing. */
static inline void rd_loading_release(rd_loading *l, rd_shared *value) {
    if (value && __atomic_sub_fetch(&value->shares, 1, __ATOMIC_ACQ_REL) == 0) l->destroy(value);
}

/* Counts a call. Returns its fault, with what left by it put before `left`, in the order of its notices, of which `first` is the first one,
 * or null if the call doesn't write it. The lock is held. */
static inline uint64_t rd_loading_made(rd_loading *l, uint64_t fault, const rd_answer *answer, const rd_loading_notice *first,
                                       rd_shared **left) {
    rd_loading_notice notice;
    if (rd_count(&l->stats, fault, answer)) return fault;
    for (uint64_t i = answer->notices; i-- > 0;) {
        if (first && i == 0)
            notice = *first;
        else
            RD_LOADING_NOTICE(&l->cache, i, &notice);
        rd_count_left(&l->stats, notice.cause);
        rd_shared *value = rd_loading_value(notice.token);
        value->key = notice.key;
        value->cause = notice.cause;
        value->next = *left;
        *left = value;
    }
    return fault;
}

/* Has the window follow a look-up or a seek of a key that the library has taken. Its notices have been read. The lock is held. */
static inline void rd_loading_follow(rd_loading *l, uint64_t fault, rd_loading_key key) {
    if (fault < RD_CLOSED && l->follower.adviser.is_open) rd_follow(&l->follower, &l->cache, rd_loading_number(key));
}

/* Gives the lock back. Then the listener gets what left, and the cache's share of it is given up. */
static inline void rd_loading_tell(rd_loading *l, rd_shared *left) {
    rd_loading_listener *listener = l->listener;
    void *context = l->context;
    pthread_mutex_unlock(&l->lock);
    while (left) {
        rd_shared *next = left->next;
        if (listener) listener(context, left->key, left, (enum rd_cause)left->cause);
        rd_loading_release(l, left);
        left = next;
    }
}

/* Gives the lock back, and lets go of what left, which most calls have none of. */
static inline void rd_loading_leave(rd_loading *l, rd_shared *left) {
    if (left)
        rd_loading_tell(l, left);
    else
        pthread_mutex_unlock(&l->lock);
}

/* Returns the life, for the calls below, of an entry that is to expire in so many milliseconds: 0 counts as 1, and more than 2^32 - 1,
 * which are 49 days, count as no life. */
static inline uint32_t rd_loading_life(uint64_t ms) { return ms > UINT32_MAX ? 0 : ms ? (uint32_t)ms : 1; }

/* Stores a new value, of which the cache then has the only share. The entry expires `life` ms after now, or earlier by the setup's
 * durations; a life of 0 is none. No use lengthens it, and the next store of the key gives its entry another life, or none. A value that
 * is refused is destroyed. */
static inline uint64_t rd_loading_put_for(rd_loading *l, rd_loading_key key, rd_shared *value, uint32_t weight, uint32_t life, uint64_t now) {
    const rd_token token = {rd_loading_token(value), weight};
    rd_answer answer;
    rd_loading_notice first;
    rd_shared *left = 0;
    value->shares = 1;
    pthread_mutex_lock(&l->lock);
    uint64_t fault = RD_LOADING_PUT(&l->cache, RD_LOADING_KEY(key), token, life, now, &answer, &first);
    fault = rd_loading_made(l, fault, &answer, &first, &left);
    rd_loading_leave(l, left);
    if (fault) rd_loading_release(l, value);
    return fault;
}

/* The same without a life. */
static inline uint64_t rd_loading_put(rd_loading *l, rd_loading_key key, rd_shared *value, uint32_t weight, uint64_t now) {
    return rd_loading_put_for(l, key, value, weight, 0, now);
}

/* Writes the value under the key, with a share for the caller, or null. It never loads. */
static inline uint64_t rd_loading_look(rd_loading *l, rd_loading_key key, uint64_t now, rd_shared **value) {
    rd_answer answer;
    rd_shared *left = 0;
    *value = 0;
    pthread_mutex_lock(&l->lock);
    uint64_t fault = RD_LOADING_CALL(rd_look, &l->cache, RD_LOADING_KEY(key), now, &answer);
    if (!rd_loading_made(l, fault, &answer, 0, &left) && answer.kind == RD_HIT)
        *value = rd_loading_share(rd_loading_value(answer.token));
    rd_loading_follow(l, fault, key);
    rd_loading_leave(l, left);
    return fault;
}

/* Waits for a load, once the lock is given back for what left. The lock is held, and given back. Whether the load waits for this thread
 * is looked at as the thread is about to sleep: a listener or a destroy may make loads before. */
static inline uint64_t rd_loading_join(rd_loading *l, rd_flight *of, const struct timespec *deadline, rd_shared *left, rd_shared **value) {
    rd_wait wait;
    rd_wait_begin(&wait, of, deadline != 0);
    if (left) {
        rd_loading_leave(l, left);
        pthread_mutex_lock(&l->lock);
    }
    uint64_t fault = rd_wait_sleep(&wait, l->loads, &l->lock, deadline);
    pthread_mutex_unlock(&l->lock);
    if (!fault) *value = rd_loading_value(wait.value.token);
    return fault;
}

/* Closes a load. A value of which memory is refused isn't stored. The lock is held. */
RD_LOADING_INLINE void rd_loading_land(rd_loading *l, const rd_flight *of, rd_loading_key key, uint32_t life, uint64_t now, rd_shared **left) {
    rd_answer answer;
    rd_loading_notice first;
    uint64_t fault;
    if (of->error) {
        fault = RD_LOADING_CALL(rd_land_failed, &l->cache, of->id, RD_LOADING_KEY(key), now, &answer);
        rd_loading_made(l, fault, &answer, 0, left);
        return;
    }
    rd_shared *value = rd_loading_share(rd_loading_value(of->value.token));
    fault = RD_LOADING_LAND(&l->cache, of->id, RD_LOADING_KEY(key), of->value, life, now, &answer, &first);
    if (rd_loading_made(l, fault, &answer, &first, left) == RD_OUT_OF_MEMORY) {
        fault = RD_LOADING_CALL(rd_land_loose, &l->cache, of->id, RD_LOADING_KEY(key), now, &answer);
        rd_loading_made(l, fault, &answer, 0, left);
    }
    if (fault || answer.kind != RD_KEPT) rd_loading_release(l, value);
}

/* The moment from which on a load is overdue that was begun now. */
static inline uint64_t rd_loading_overdue_at(const rd_loading *l, uint64_t now) {
    return l->load_timeout && now < UINT64_MAX - l->load_timeout ? now + l->load_timeout : UINT64_MAX;
}

/* A load that a thread has to make. */
typedef struct rd_loading_task {
    uint64_t id; /* the library's, of a load that it knows */
    rd_loading_key key;
    uint64_t now;
    rd_load *load;         /* or null: then the other one */
    rd_load_for *load_for;
    void *context;
    rd_shared *old; /* the value of an entry that was due, with a share, or none */
} rd_loading_task;

/* An open load, with what ends it. */
typedef struct rd_loading_flight {
    rd_flight of; /* the first, so that each load of the list is one of these */
    const rd_loading_task *task;
} rd_loading_flight;

/* Runs the load. Writes its value, of which the caller then has the only share, or returns its error. */
static inline uint64_t rd_loading_run(const rd_loading_task *task, rd_token *loaded, uint32_t *life) {
    rd_shared *value = 0;
    loaded->weight = 1;
    const uint64_t error = task->load ? task->load(task->context, task->key, &value, &loaded->weight)
                                      : task->load_for(task->context, task->key, &value, &loaded->weight, life);
    if (error) return error;
    value->shares = 1;
    loaded->token = rd_loading_token(value);
    return RD_OK;
}

/* Writes what a caller gets whose load failed: the old value, if the entry was due; else it returns the error. */
static inline uint64_t rd_loading_failed(const rd_loading_task *task, uint64_t error, rd_shared **value) {
    *value = task->old;
    return task->old ? (uint64_t)RD_OK : error;
}

/* The load was given up before it returned: its value is destroyed. The lock is held, and given back. */
static inline uint64_t rd_loading_late(rd_loading *l, const rd_loading_task *task, uint64_t why, uint64_t error, rd_token loaded,
                                       rd_shared *left, rd_shared **value) {
    if (!error) l->stats.late++;
    rd_loading_leave(l, left);
    if (!error) rd_loading_release(l, rd_loading_value(loaded.token));
    return rd_loading_failed(task, error ? error : why, value);
}

/* Opens a load. The lock is held. */
static inline void rd_loading_begin(rd_loading *l, rd_loading_flight *flight, const rd_loading_task *task) {
    const uint64_t overdue_at = rd_loading_overdue_at(l, task->now);
    flight->task = task;
    rd_flight_begin(&l->loads, &flight->of, task->id);
    if (overdue_at < l->overdue_at) l->overdue_at = overdue_at;
}

/* Makes an open load in this thread. The lock is held, and given back. */
RD_LOADING_INLINE uint64_t rd_loading_finish(rd_loading *l, rd_loading_flight *flight, rd_shared *left, rd_shared **value) {
    const rd_loading_task *task = flight->task;
    rd_flight *of = &flight->of;
    rd_token loaded = {0, 0};
    uint32_t life = 0;
    rd_shared *landed = 0, **end = &left; /* what left by the landing comes behind what left by the look-up */
    pthread_mutex_unlock(&l->lock);
    const uint64_t error = rd_loading_run(task, &loaded, &life);
    pthread_mutex_lock(&l->lock);
    if (of->is_over) return rd_loading_late(l, task, of->error, error, loaded, left, value);
    of->error = error;
    of->value = loaded;
    rd_loading_land(l, of, task->key, life, task->now, &landed);
    while (*end) end = &(*end)->next;
    *end = landed;
    long waits = rd_flight_tell(of);
    rd_flight_remove(&l->loads, of);
    if (!error) __atomic_add_fetch(&rd_loading_value(loaded.token)->shares, waits, __ATOMIC_RELAXED);
    rd_loading_leave(l, left);
    if (error) return rd_loading_failed(task, error, value);
    *value = rd_loading_value(loaded.token);
    rd_loading_release(l, task->old);
    return RD_OK;
}

/* Makes a load. The lock is held, and given back. */
RD_LOADING_INLINE uint64_t rd_loading_lead(rd_loading *l, const rd_loading_task *task, rd_shared *left, rd_shared **value) {
    rd_loading_flight flight;
    rd_loading_begin(l, &flight, task);
    return rd_loading_finish(l, &flight, left, value);
}

/* Ends an open load with an error, before it has returned. The lock is held. */
static inline void rd_loading_end(rd_loading *l, rd_flight *of, uint64_t error, rd_shared **left) {
    const rd_loading_task *task = ((rd_loading_flight *)of)->task;
    rd_answer answer;
    uint64_t fault = RD_LOADING_CALL(rd_land_failed, &l->cache, of->id, RD_LOADING_KEY(task->key), task->now, &answer);
    rd_loading_made(l, fault, &answer, 0, left);
    l->stats.given_up++;
    of->error = error;
    rd_flight_tell(of);
}

/* Gives up each load that is overdue. The lock is held. */
static inline void rd_loading_end_overdue(rd_loading *l, uint64_t now, rd_shared **left) {
    l->overdue_at = UINT64_MAX;
    for (rd_flight **at = &l->loads; *at;) {
        rd_flight *of = *at;
        const uint64_t overdue_at = rd_loading_overdue_at(l, ((rd_loading_flight *)of)->task->now);
        if (now >= overdue_at) {
            *at = of->next;
            rd_loading_end(l, of, RD_TIMED_OUT, left);
        } else {
            if (overdue_at < l->overdue_at) l->overdue_at = overdue_at;
            at = &of->next;
        }
    }
}

/* Gives up each open load that has been open for longer than rd_loading_load_timeout allows, at the moment now: its place is free, all threads
 * that wait for it get RD_TIMED_OUT, and the next get of its key loads anew. The load itself goes on, since no thread can be stopped: once it
 * returns, its value is destroyed, and its caller gets RD_TIMED_OUT too, or the old value if the entry was due. Each rd_loading_get does this
 * first. Threads wait without a clock, so if nobody else calls, a timer of yours may call it. Takes the lock; no memory; O(1) if no load
 * is overdue, else O(open loads). */
static inline void rd_loading_give_up(rd_loading *l, uint64_t now) {
    rd_shared *left = 0;
    pthread_mutex_lock(&l->lock);
    if (l->load_timeout && now >= l->overdue_at) rd_loading_end_overdue(l, now, &left);
    rd_loading_leave(l, left);
}

/* Gives up the open loads of the key in the same way, with an error of yours, from RD_LOADING_ERRORS on, or RD_TIMED_OUT. Returns how many
 * there were. Takes the lock; no memory; O(open loads). */
static inline uint64_t rd_loading_abandon(rd_loading *l, rd_loading_key key, uint64_t error) {
    rd_shared *left = 0;
    uint64_t ended = 0;
    pthread_mutex_lock(&l->lock);
    for (rd_flight **at = &l->loads; *at;) {
        rd_flight *of = *at;
        if (RD_LOADING_SAME(((rd_loading_flight *)of)->task->key, key)) {
            *at = of->next;
            rd_loading_end(l, of, error, &left);
            ended++;
        } else {
            at = &of->next;
        }
    }
    rd_loading_leave(l, left);
    return ended;
}

struct rd_loading_job {
    rd_loading *of;
    rd_loading_task task;
    rd_loading_flight flight;
};

/* Has each due entry loaded by another thread: its caller gets the old value at once. hand_on gets a job, and hands it to a thread, which
 * makes it by rd_loading_make; each job is made or cancelled once, while the cache may be closed, but is there. hand_on runs with no lock
 * held; it may use the cache, and may make the job itself. If it returns false, or if memory is refused for a job, the caller makes the load
 * and gets the new value. The context that was given to the get has to be there until the job is made. Null ends it: callers make the loads.
 * Takes the lock, and no memory. O(1). */
static inline void rd_loading_refresh_with(rd_loading *l, rd_loading_hand_on *hand_on, void *context) {
    pthread_mutex_lock(&l->lock);
    l->hand_on = hand_on;
    l->hand_on_context = context;
    pthread_mutex_unlock(&l->lock);
}

/* Makes a job's load in this thread, unless it was given up before, and frees the job. Writes the new value, or else the old one. */
static inline void rd_loading_make_here(rd_loading_job *job, rd_shared **value) {
    rd_loading *l = job->of;
    rd_flight *of = &job->flight.of;
    *value = job->task.old;
    pthread_mutex_lock(&l->lock);
    of->thread = pthread_self();
    of->is_handed_on = false;
    if (of->is_over)
        pthread_mutex_unlock(&l->lock);
    else
        rd_loading_finish(l, &job->flight, 0, value);
    free(job);
}

/* Makes a job's load in this thread, unless it was given up before, and frees the job. If the load fails, the old value stays until it
 * expires, and the next get of the key finds it due again. */
static inline void rd_loading_make(rd_loading_job *job) {
    rd_loading *l = job->of;
    rd_shared *value;
    rd_loading_make_here(job, &value);
    rd_loading_release(l, value);
}

/* Gives a job up, and frees it: who waits for its load gets the error, one of yours or RD_TIMED_OUT. */
static inline void rd_loading_cancel(rd_loading_job *job, uint64_t error) {
    rd_loading *l = job->of;
    rd_flight *of = &job->flight.of;
    rd_shared *left = 0;
    pthread_mutex_lock(&l->lock);
    if (!of->is_over) {
        rd_flight_remove(&l->loads, of);
        rd_loading_end(l, of, error, &left);
    }
    rd_loading_leave(l, left);
    rd_loading_release(l, job->task.old);
    free(job);
}

/* Inside rd_loading_get: an entry is due, of whose value this caller has a share. The lock is held, and given back. */
static inline uint64_t rd_loading_hand(rd_loading *l, const rd_loading_task *task, rd_shared *left, rd_shared **value) {
    rd_loading_hand_on *hand_on = l->hand_on;
    void *context = l->hand_on_context;
    rd_loading_job *job = hand_on ? (rd_loading_job *)malloc(sizeof *job) : 0;
    if (!job) return rd_loading_lead(l, task, left, value);
    job->of = l;
    job->task = *task;
    rd_loading_share(task->old); /* for the job */
    rd_loading_begin(l, &job->flight, &job->task);
    job->flight.of.is_handed_on = true;
    rd_loading_leave(l, left);
    *value = task->old;
    if (hand_on(context, job)) return RD_OK;
    rd_loading_release(l, task->old);
    rd_loading_make_here(job, value);
    return RD_OK;
}

/* An open load, as rd_loading_loads tells of it. */
typedef struct rd_loading_open_load {
    rd_loading_key key;
    uint64_t age;     /* for how many milliseconds, by the moments of the calls */
    uint64_t waiting; /* how many threads wait for it, besides the one that makes it */
    pthread_t thread; /* that makes it; of a job that no thread makes yet, the one whose get handed it on */
    bool is_job;      /* it is a job that no thread makes yet */
    bool is_refresh;  /* of an entry that is there */
} rd_loading_open_load;

/* Writes the open loads, the latest first, as many as there is room for, and returns how many there are. If a source hangs, its keys are
 * among them. Takes the lock; no memory; O(open loads and waits). */
static inline uint64_t rd_loading_loads(rd_loading *l, uint64_t now, rd_loading_open_load *loads, uint64_t room) {
    uint64_t count = 0;
    pthread_mutex_lock(&l->lock);
    for (const rd_flight *of = l->loads; of; of = of->next, count++) {
        const rd_loading_task *task = ((const rd_loading_flight *)of)->task;
        if (count >= room) continue;
        loads[count].key = task->key;
        loads[count].age = now > task->now ? now - task->now : 0;
        loads[count].waiting = 0;
        for (const rd_wait *wait = of->waits; wait; wait = wait->next) loads[count].waiting++;
        loads[count].thread = of->thread;
        loads[count].is_job = of->is_handed_on;
        loads[count].is_refresh = task->old != 0;
    }
    pthread_mutex_unlock(&l->lock);
    return count;
}

/* Inside rd_loading_get: the library has refused a seek. A miss at the limit of open loads is looked up, so that it counts as any other, and
 * loaded beside the cache. The lock is held, and given back. */
static inline uint64_t rd_loading_refused(rd_loading *l, uint64_t fault, const rd_loading_task *task, rd_shared *left, rd_shared **value) {
    rd_answer answer;
    rd_token loaded = {0, 0};
    uint32_t life = 0;
    const bool is_beside = fault == RD_TOO_MANY_FLIGHTS && !l->refuses_at_limit;
    if (is_beside) fault = RD_LOADING_CALL(rd_look, &l->cache, RD_LOADING_KEY(task->key), task->now, &answer);
    rd_loading_made(l, fault, &answer, 0, &left);
    rd_loading_follow(l, fault, task->key);
    if (!fault) l->stats.beside++;
    rd_loading_leave(l, left);
    if (!fault) fault = rd_loading_run(task, &loaded, &life);
    if (!fault) *value = rd_loading_value(loaded.token);
    return fault;
}

/* Inside rd_loading_get: looks the key up, and loads it or waits for its load. */
static inline uint64_t rd_loading_ask(rd_loading *l, rd_loading_key key, uint64_t now, rd_load *load, rd_load_for *load_for, void *context,
                                      const struct timespec *deadline, rd_shared **value) {
    rd_answer answer;
    rd_shared *left = 0, *held = 0;
    *value = 0;
    pthread_mutex_lock(&l->lock);
    if (l->load_timeout && now >= l->overdue_at) rd_loading_end_overdue(l, now, &left);
    uint64_t fault = RD_LOADING_CALL(rd_seek, &l->cache, RD_LOADING_KEY(key), now, &answer);
    if (fault) {
        const rd_loading_task task = {0, key, now, load, load_for, context, 0};
        return rd_loading_refused(l, fault, &task, left, value);
    }
    rd_loading_made(l, fault, &answer, 0, &left);
    rd_loading_follow(l, fault, key);
    if (answer.kind == RD_JOIN) return rd_loading_join(l, rd_flight_of(l->loads, answer.number), deadline, left, value);
    if (answer.kind != RD_LEAD) held = rd_loading_share(rd_loading_value(answer.token));
    if (answer.kind != RD_HIT) {
        const rd_loading_task task = {answer.number, key, now, load, load_for, context, held};
        return held ? rd_loading_hand(l, &task, left, value) : rd_loading_lead(l, &task, left, value);
    }
    rd_loading_leave(l, left);
    *value = held;
    return RD_OK;
}

/* Writes the key's value, with a share for the caller. If there is none, or it is due for another load, this thread loads it, and all
 * threads that ask meanwhile share the load. While an entry that is due is loaded, the others get the old value; if the load fails,
 * this thread gets it too. The value's age counts from now. With an error or a fault it writes null.
 *
 * Faults, in this order: those of rd_seek, or of rd_seek_name, of which RD_TOO_MANY_FLIGHTS comes only with rd_loading_refuse_at_limit; the
 * error with which the load was given up; RD_WAITS_FOR_ITSELF if a load asks for its own key, or for a key of this
 * cache whose load waits for this thread; the error of the load. Takes the lock for the look-up and for the landing, and waits with no
 * lock held. Not promised: that a load ends, nor that a circle is found that leads through another cache or through threads that a
 * load starts. */
static inline uint64_t rd_loading_get(rd_loading *l, rd_loading_key key, uint64_t now, rd_load *load, void *context, rd_shared **value) {
    return rd_loading_ask(l, key, now, load, 0, context, 0, value);
}

/* The same, and a value that this thread loads has the life that the load writes, as rd_loading_put_for gives one: it begins now, not at
 * the end of the load. */
static inline uint64_t rd_loading_get_for(rd_loading *l, rd_loading_key key, uint64_t now, rd_load_for *load, void *context, rd_shared **value) {
    return rd_loading_ask(l, key, now, 0, load, context, 0, value);
}

#ifdef CLOCK_MONOTONIC
/* The same, but it waits for another thread's load until the deadline at most, an absolute time of CLOCK_MONOTONIC:
 *
 *  - a value that is there is written, whatever the deadline;
 *  - a load that this thread has to make is made, whatever the deadline;
 *  - if another thread's load ends by the deadline, its value is written, or its error returned;
 *  - else it returns RD_TIMED_OUT, and writes null. The load goes on, for the others and for the cache, and the same call may succeed
 *    later. The counts keep the caller among those that shared the load.
 *
 * Faults, in this order: those of rd_loading_get before the load's error; RD_TIMED_OUT; the error of the load. A deadline that has passed
 * ends the wait at once, and so does one whose tv_nsec isn't from 0 to 999,999,999. RD_WAITS_FOR_ITSELF comes also if a wait of the
 * circle has a deadline. Not promised: how soon after the deadline the call returns. <time.h> hides CLOCK_MONOTONIC, and so this call,
 * if the compiler is asked for strict C, as by -std=c11: write -std=gnu11, or define _POSIX_C_SOURCE as 200809L. */
static inline uint64_t rd_loading_get_until(rd_loading *l, rd_loading_key key, uint64_t now, rd_load *load, void *context,
                                            const struct timespec *deadline, rd_shared **value) {
    return rd_loading_ask(l, key, now, load, 0, context, deadline, value);
}

/* The same as rd_loading_get_for, with a deadline. */
static inline uint64_t rd_loading_get_for_until(rd_loading *l, rd_loading_key key, uint64_t now, rd_load_for *load, void *context,
                                                const struct timespec *deadline, rd_shared **value) {
    return rd_loading_ask(l, key, now, 0, load, context, deadline, value);
}
#endif

/* Removes the key's entry. An open load of the key will store nothing. */
static inline uint64_t rd_loading_drop(rd_loading *l, rd_loading_key key, uint64_t now) {
    rd_answer answer;
    rd_loading_notice first;
    rd_shared *left = 0;
    pthread_mutex_lock(&l->lock);
    uint64_t fault = RD_LOADING_DROP(&l->cache, RD_LOADING_KEY(key), now, &answer, &first);
    fault = rd_loading_made(l, fault, &answer, &first, &left);
    rd_loading_leave(l, left);
    return fault;
}

/* Lets no other thread join an open load of the key, which will store nothing. */
static inline uint64_t rd_loading_forget(rd_loading *l, rd_loading_key key, uint64_t now) {
    rd_answer answer;
    rd_shared *left = 0;
    pthread_mutex_lock(&l->lock);
    uint64_t fault = RD_LOADING_CALL(rd_forget, &l->cache, RD_LOADING_KEY(key), now, &answer);
    fault = rd_loading_made(l, fault, &answer, 0, &left);
    rd_loading_leave(l, left);
    return fault;
}

static inline uint64_t rd_loading_sweep(rd_loading *l, uint64_t (*call)(rd_cache *, uint64_t, rd_answer *), uint64_t now, bool closes) {
    rd_answer answer;
    rd_shared *left = 0;
    pthread_mutex_lock(&l->lock);
    uint64_t fault = rd_loading_made(l, call(&l->cache, now, &answer), &answer, 0, &left);
    if (closes && !fault) {
        fault = rd_close(&l->cache);
        rd_close_follower(&l->follower);
    }
    rd_loading_leave(l, left);
    return fault;
}

/* Removes every entry. The open loads will store nothing. */
static inline uint64_t rd_loading_clear(rd_loading *l, uint64_t now) { return rd_loading_sweep(l, rd_clear, now, false); }

/* Removes every expired entry. */
static inline uint64_t rd_loading_clean(rd_loading *l, uint64_t now) { return rd_loading_sweep(l, rd_clean, now, false); }

/* Closes the cache, which may be in use: all entries leave, and open loads return their values without storing them. Once no thread
 * is in a call of the cache, you may open it again or give up its memory. The counts go on. */
static inline uint64_t rd_loading_close(rd_loading *l) { return rd_loading_sweep(l, rd_clear, 0, true); }

/* Writes the library's numbers and the counts of rookdresser_stats.h, both of one moment. Either pointer may be null. */
static inline uint64_t rd_loading_numbers(rd_loading *l, rd_numbers *numbers, rd_stats *stats) {
    uint64_t fault = RD_OK;
    pthread_mutex_lock(&l->lock);
    if (numbers) fault = rd_get_numbers(&l->cache, numbers);
    if (stats) *stats = l->stats;
    pthread_mutex_unlock(&l->lock);
    return fault;
}
#endif
