/* Waiting for a cache of rookdresser_shared.h, and one load for all threads that ask for a key meanwhile.
 *
 *     static rd_gate gate = RD_GATE_INIT;                                    one for each cache, used by all its threads
 *     uint64_t fault;
 *     RD_WAITING(&gate, fault, rd_shared_put(&mine, key, value, now_ms, &answer));    the same call, and fault is never RD_BUSY
 *     rd_shared_get(&gate, &mine, key, now_ms, load_page, book, &value, &answer);     looks up, or loads, or waits for a load
 *
 * A call that is busy asks again a few times, and then sleeps until another call of the gate ends, a millisecond at most. None of
 * this is in the proof: it decides only when to call again. That a call gets its turn is tested, and not promised. On Linux threads
 * sleep at a futex, elsewhere at a condition of pthreads. It needs the __atomic functions of gcc or clang, and pthreads; strict C,
 * as by -std=c11, is enough.
 */
#ifndef ROOKDRESSER_WAITING_H
#define ROOKDRESSER_WAITING_H
#include "rookdresser_flights.h"
#include "rookdresser_shared.h"
#ifdef __linux__
#include <linux/futex.h>
#include <sys/syscall.h>
#include <unistd.h>
#ifndef __cplusplus
long syscall(long number, ...); /* <unistd.h> hides it in strict C */
#endif
#endif

/* What the threads of a cache wait at. */
typedef struct rd_gate {
    uint32_t turn;     /* moves when a call ends while others sleep */
    uint32_t sleepers; /* how many calls sleep, or are about to */
    pthread_mutex_t lock; /* of all that follows */
    pthread_cond_t moved; /* a load has begun or was abandoned, or a thread has joined one that is over; not on Linux: or a call has ended */
    rd_flight *loads;
    uint64_t abandoned; /* the largest id of a load that its thread couldn't land; 0 if there is none */
} rd_gate;
#define RD_GATE_INIT {0, 0, PTHREAD_MUTEX_INITIALIZER, PTHREAD_COND_INITIALIZER, 0, 0}

enum { RD_TRIES = 64, RD_PAUSES = 16, RD_NAP_NS = 1000000 };

/* A call's wait for its turn. */
typedef struct rd_turn {
    uint32_t tries, at;
    bool is_counted;
} rd_turn;

static inline void rd_pause(void) {
#if defined(__x86_64__) || defined(__i386__)
    __builtin_ia32_pause();
#endif
}

/* Inside RD_WAITING: sleeps until the turn has moved from `at`, or a millisecond has passed. */
static inline void rd_sleep(rd_gate *gate, uint32_t at) {
#ifdef __linux__
    const struct timespec nap = {0, RD_NAP_NS};
    syscall(SYS_futex, &gate->turn, FUTEX_WAIT_PRIVATE, at, &nap, (void *)0, 0);
#else
    struct timespec until;
    clock_gettime(CLOCK_REALTIME, &until);
    until.tv_nsec += RD_NAP_NS;
    until.tv_sec += until.tv_nsec / 1000000000;
    until.tv_nsec %= 1000000000;
    pthread_mutex_lock(&gate->lock);
    if (__atomic_load_n(&gate->turn, __ATOMIC_SEQ_CST) == at) pthread_cond_timedwait(&gate->moved, &gate->lock, &until);
    pthread_mutex_unlock(&gate->lock);
#endif
}

/* Inside RD_WAITING, between a call that was busy and the next try: pauses, and from the 64th try on sleeps. A call counts itself, and
 * asks once more, before it first sleeps. So the call at work either sees the count when it ends, or has ended before that try. */
static inline void rd_wait_turn(rd_gate *gate, rd_turn *turn) {
    if (turn->tries < RD_TRIES) {
        turn->tries++;
        for (int i = 0; i < RD_PAUSES; i++) rd_pause();
    } else if (!turn->is_counted) {
        turn->is_counted = true;
        __atomic_add_fetch(&gate->sleepers, 1, __ATOMIC_SEQ_CST);
    } else {
        rd_sleep(gate, turn->at);
    }
    turn->at = __atomic_load_n(&gate->turn, __ATOMIC_SEQ_CST);
}

/* Inside RD_WAITING: wakes one of those that sleep. */
static inline void rd_wake(rd_gate *gate) {
    __atomic_add_fetch(&gate->turn, 1, __ATOMIC_SEQ_CST);
#ifdef __linux__
    syscall(SYS_futex, &gate->turn, FUTEX_WAKE_PRIVATE, 1, (void *)0, (void *)0, 0);
#else
    pthread_mutex_lock(&gate->lock);
    pthread_cond_broadcast(&gate->moved);
    pthread_mutex_unlock(&gate->lock);
#endif
}

/* Makes the call until it isn't busy, sets fault to what it returns, and wakes one of those that sleep. */
#define RD_WAITING(gate, fault, call)                                                             \
    do {                                                                                          \
        (fault) = (call);                                                                         \
        if ((fault) == RD_BUSY) {                                                                 \
            rd_turn rd_its_turn = {0, 0, false};                                                  \
            do rd_wait_turn((gate), &rd_its_turn);                                                \
            while (((fault) = (call)) == RD_BUSY);                                                \
            if (rd_its_turn.is_counted) __atomic_sub_fetch(&(gate)->sleepers, 1, __ATOMIC_SEQ_CST); \
        }                                                                                         \
        if (__atomic_load_n(&(gate)->sleepers, __ATOMIC_SEQ_CST)) rd_wake(gate);                  \
    } while (0)

/* Loads a key: writes the value and returns RD_OK, or returns an error of yours above 1000. It may get other keys of the cache, and has
 * to return: it must neither longjmp out nor be cancelled. If it closes its own caller, its value isn't stored: see rd_shared_get. */
typedef uint64_t rd_load_token(void *context, uint64_t key, rd_token *value);

/* Inside rd_shared_get: begins a load that the library has opened for this thread. */
static inline void rd_gate_begin(rd_gate *gate, rd_flight *of, uint64_t id) {
    pthread_mutex_lock(&gate->lock);
    rd_flight_begin(&gate->loads, of, id);
    pthread_cond_broadcast(&gate->moved);
    pthread_mutex_unlock(&gate->lock);
}

/* Inside rd_shared_get: ends a load. If it was landed, so many threads joined it, and the last of them may still be on its way here. Else
 * nobody knows how many did: one that comes later finds the load abandoned. */
static inline void rd_gate_end(rd_gate *gate, rd_flight *of, bool is_landed, uint64_t joins) {
    pthread_mutex_lock(&gate->lock);
    rd_flight_tell(of);
    while (is_landed && of->joined < joins) pthread_cond_wait(&gate->moved, &gate->lock);
    rd_flight_remove(&gate->loads, of);
    if (!is_landed && gate->abandoned < of->id) {
        gate->abandoned = of->id;
        pthread_cond_broadcast(&gate->moved);
    }
    pthread_mutex_unlock(&gate->lock);
}

/* Inside rd_shared_get: waits for a load that the library has joined this thread to, and sets fault to RD_OK, with its value, to its
 * error or to RD_WAITS_FOR_ITSELF. Returns false if the load was abandoned, or perhaps isn't here yet. */
static inline bool rd_gate_join(rd_gate *gate, uint64_t id, rd_token *value, uint64_t *fault) {
    rd_flight *of;
    rd_wait wait;
    pthread_mutex_lock(&gate->lock);
    while (!(of = rd_flight_of(gate->loads, id)) && id > gate->abandoned) pthread_cond_wait(&gate->moved, &gate->lock);
    const bool is_there = of != 0;
    if (is_there) {
        rd_wait_begin(&wait, of, false);
        if (wait.is_over) pthread_cond_broadcast(&gate->moved);
        *fault = rd_wait_sleep(&wait, gate->loads, &gate->lock, 0);
        if (!*fault) *value = wait.value;
    }
    pthread_mutex_unlock(&gate->lock);
    return is_there;
}

/* Inside rd_shared_get: loads a value under an id, lands it, and hands it to the threads that joined. If there is no memory to store
 * it, it lands as loose, which takes none. */
static inline uint64_t rd_make_load(rd_gate *gate, rd_caller *caller, uint64_t id, uint64_t key, uint64_t now, rd_load_token *load,
                                    void *context, rd_token *value, rd_answer *answer) {
    rd_flight of;
    uint64_t landed;
    rd_gate_begin(gate, &of, id);
    of.error = load(context, key, value);
    if (of.error) {
        RD_WAITING(gate, landed, rd_shared_land_failed(caller, id, key, now, answer));
    } else {
        of.value = *value;
        RD_WAITING(gate, landed, rd_shared_land_keep(caller, id, key, *value, now, answer));
        if (landed == RD_OUT_OF_MEMORY) RD_WAITING(gate, landed, rd_shared_land_loose(caller, id, key, now, answer));
    }
    /* The answer's number is how many shared the load, this thread among them. */
    rd_gate_end(gate, &of, landed == RD_OK && answer->kind != RD_GONE, answer->number - 1);
    return of.error ? of.error : landed;
}

/* Inside rd_shared_get: waits for the load, or closes it as failed if it was abandoned. If its thread turns out to land it first, or
 * another one to have closed it, this thread looks for it once more. Returns false if the key has to be sought again. */
static inline bool rd_join_or_close(rd_gate *gate, rd_caller *caller, uint64_t id, uint64_t key, uint64_t now, rd_token *value,
                                    uint64_t *fault) {
    rd_answer closed;
    if (rd_gate_join(gate, id, value, fault)) return true;
    RD_WAITING(gate, *fault, rd_shared_land_failed(caller, id, key, now, &closed));
    return *fault || (closed.kind == RD_GONE && rd_gate_join(gate, id, value, fault));
}

/* Writes the value of the key: one that is held, or one that this thread loads, or one that another thread is loading, for which it
 * waits. Returns RD_OK, a fault, or the error of the load, which all that share it get; an entry that is due keeps its old value if
 * its load fails. Afterwards the answer and the notices are those of the latest call: the landing if this thread loaded. All seeks of
 * a cache have to be made by this function, with one gate, since a load waits until each thread that joined it has come for its outcome.
 *
 * RD_WAITS_FOR_ITSELF if a load asks for its own key, or for a key of this cache whose load waits for this thread, over however many
 * other threads. Not promised: that a load ends, nor that a circle is found that leads through another cache or through threads that a
 * load starts.
 *
 * If a load's caller was closed meanwhile, its value can't be landed. The thread that made it returns RD_CLOSED, those that had joined
 * get the value, which isn't stored, and the next that would join closes the load as failed and loads again. Until then it counts as open. */
static inline uint64_t rd_shared_get(rd_gate *gate, rd_caller *caller, uint64_t key, uint64_t now, rd_load_token *load, void *context,
                                     rd_token *value, rd_answer *answer) {
    uint64_t fault, id;
    for (;;) {
        RD_WAITING(gate, fault, rd_shared_seek(caller, key, now, answer));
        if (fault) return fault;
        id = answer->number;
        if (answer->kind != RD_JOIN) break;
        if (rd_join_or_close(gate, caller, id, key, now, value, &fault)) return fault;
    }
    if (answer->kind == RD_LEAD) return rd_make_load(gate, caller, id, key, now, load, context, value, answer);
    value->token = answer->token;
    value->weight = answer->weight;
    if (answer->kind == RD_HIT_LEAD) {
        rd_token newer = *value;
        if (!rd_make_load(gate, caller, id, key, now, load, context, &newer, answer)) *value = newer;
    }
    return RD_OK;
}
#endif
