/* rookdresser_shared: one proved cache that several threads call at once, for C and whatever calls C.
 *
 * Each thread has a handle of its own, a caller. No call waits: if another thread's call is at work, it returns RD_BUSY and
 * nothing has happened, so call again. rookdresser_waiting.h does that, and sleeps meanwhile.
 *
 *     rd_caller mine = RD_CALLER_INIT, theirs = RD_CALLER_INIT;
 *     if (rd_shared_open(&setup, &mine) || rd_shared_another(&mine, &theirs)) return 1;
 *     while (rd_shared_put(&mine, 1, (rd_token){7, 2}, 0, &answer) == RD_BUSY);      in one thread
 *     while (rd_shared_look(&theirs, 1, 0, &answer) == RD_BUSY);                     in another one
 *
 * What is proved, of all threads and whatever they do at once: all callers of a cache agree on one list of calls, its
 * history. A call that returns an answer stands in it, behind every call that its caller had made or met, and its answer and
 * its notices are those that rd_look and the others of rookdresser.h give at this place. A call that is busy or refused memory
 * changes nothing, and isn't in the list. Of one that returns RD_LOST nothing is said. No clause says that the list has no
 * other calls, or that a call isn't always busy, or is made once and not twice; tests show it.
 *
 * The rules of rookdresser.h hold for an rd_caller as for an rd_cache, but that the callers of one cache may be used at the
 * same time. Nothing checks them, unless you define RD_CHECK before you include this header and in each file that does: then a
 * call aborts the program if another thread's call is at work in the same caller.
 *
 *  - A caller has one call at a time. Another thread may use it next, if a lock or that thread's start or join orders the calls.
 *  - Two callers that one call takes are different ones.
 *  - A forked child doesn't use the caches of its parent. If another thread was in a call of one, that call never ends in the
 *    child, which gets RD_BUSY for ever.
 *
 * A token stands for a value of yours. Once another thread's call has a notice that a token left, that thread may free its
 * value, while this one still uses it. So let the token be the value, or count the users of each value yourself.
 */
#ifndef ROOKDRESSER_SHARED_H
#define ROOKDRESSER_SHARED_H
#include "rookdresser.h"
#ifdef __cplusplus
extern "C" {
#endif

/* A caller of a shared cache. If all its bytes are zero, it is closed. */
typedef struct rd_caller {
    void *at;
    bool is_open;
#ifdef RD_CHECK
    uint64_t in_use; /* behind what the library knows of */
#endif
} rd_caller;
#ifdef RD_CHECK
#define RD_CALLER_INIT {0, false, 0}
#else
#define RD_CALLER_INIT {0, false}
#endif

/* Opens an empty cache whose keys are numbers, and its first caller. Faults, in this order: RD_OPEN_ALREADY, RD_BAD_SETUP,
 * RD_OUT_OF_MEMORY. A fault leaves the caller as it was. */
uint64_t rd_shared_open(const rd_setup *setup, rd_caller *caller);

/* The same for a cache whose keys are names. */
uint64_t rd_shared_open_names(const rd_setup *setup, rd_caller *caller);

/* Opens theirs as another caller of the cache of mine, which has met all that mine has. Faults, in this order: RD_OPEN_ALREADY
 * if theirs is open, RD_CLOSED if mine is closed, RD_OUT_OF_MEMORY. A fault leaves both as they were. A caller takes memory
 * for as many notices as the cache may hold entries, 32 bytes each, which are touched only if they are used. Each caller has that
 * room of its own, since two callers may each still hold what a clear of a full cache left, and a clear is refused no memory. */
uint64_t rd_shared_another(rd_caller *mine, rd_caller *theirs);

/* Orders the next calls of mine behind the calls that theirs has made or met. Both are callers of one cache. It does nothing
 * while the program runs: it is where a program says what it relies on. RD_CLOSED if one of them is closed. */
uint64_t rd_shared_meet(rd_caller *mine, rd_caller *theirs);

/* Closes the caller. The last one of a cache closes the cache and frees its memory. RD_CLOSED if it is closed already. */
uint64_t rd_shared_close(rd_caller *caller);

/* Each of the eleven calls below does at its place in the history what its namesake of rookdresser.h does, or is busy. On a
 * closed caller it returns RD_CLOSED and writes nothing; so does a call with a key if the keys are names, by RD_OTHER_KEYS. If
 * it returns RD_BUSY or RD_LOST it writes nothing. All faults are those of rd_fault. */
uint64_t rd_shared_look(rd_caller *caller, uint64_t key, uint64_t now, rd_answer *answer);
uint64_t rd_shared_seek(rd_caller *caller, uint64_t key, uint64_t now, rd_answer *answer);
uint64_t rd_shared_land_keep(rd_caller *caller, uint64_t id, uint64_t key, rd_token value, uint64_t now, rd_answer *answer);
uint64_t rd_shared_land_loose(rd_caller *caller, uint64_t id, uint64_t key, uint64_t now, rd_answer *answer);
uint64_t rd_shared_land_failed(rd_caller *caller, uint64_t id, uint64_t key, uint64_t now, rd_answer *answer);
uint64_t rd_shared_put(rd_caller *caller, uint64_t key, rd_token value, uint64_t now, rd_answer *answer);
uint64_t rd_shared_drop_key(rd_caller *caller, uint64_t key, uint64_t now, rd_answer *answer);
uint64_t rd_shared_forget(rd_caller *caller, uint64_t key, uint64_t now, rd_answer *answer);
uint64_t rd_shared_clear(rd_caller *caller, uint64_t now, rd_answer *answer);
uint64_t rd_shared_clean(rd_caller *caller, uint64_t now, rd_answer *answer);
uint64_t rd_shared_slide(rd_caller *caller, bool wider, uint64_t now, rd_answer *answer);

/* Stores with a life, as rd_put_for and rd_land_for have it: the entry expires `life` ms after it was written; 0 is none. */
uint64_t rd_shared_put_for(rd_caller *caller, uint64_t key, rd_token value, uint32_t life, uint64_t now, rd_answer *answer);
uint64_t rd_shared_land_for(rd_caller *caller, uint64_t id, uint64_t key, rd_token value, uint32_t life, uint64_t now,
                            rd_answer *answer);

/* The ten calls with a key, for a cache of names. Each does the same as its namesake for numbers, or writes nothing and
 * returns RD_NAME_TOO_LONG, RD_CLOSED, or RD_OTHER_KEYS, in this order. */
uint64_t rd_shared_look_name(rd_caller *caller, const rd_name *key, uint64_t now, rd_answer *answer);
uint64_t rd_shared_seek_name(rd_caller *caller, const rd_name *key, uint64_t now, rd_answer *answer);
uint64_t rd_shared_land_keep_name(rd_caller *caller, uint64_t id, const rd_name *key, rd_token value, uint64_t now,
                                  rd_answer *answer);
uint64_t rd_shared_land_loose_name(rd_caller *caller, uint64_t id, const rd_name *key, uint64_t now, rd_answer *answer);
uint64_t rd_shared_land_failed_name(rd_caller *caller, uint64_t id, const rd_name *key, uint64_t now, rd_answer *answer);
uint64_t rd_shared_put_name(rd_caller *caller, const rd_name *key, rd_token value, uint64_t now, rd_answer *answer);
uint64_t rd_shared_drop_key_name(rd_caller *caller, const rd_name *key, uint64_t now, rd_answer *answer);
uint64_t rd_shared_forget_name(rd_caller *caller, const rd_name *key, uint64_t now, rd_answer *answer);
uint64_t rd_shared_put_name_for(rd_caller *caller, const rd_name *key, rd_token value, uint32_t life, uint64_t now,
                                rd_answer *answer);
uint64_t rd_shared_land_name_for(rd_caller *caller, uint64_t id, const rd_name *key, rd_token value, uint32_t life,
                                 uint64_t now, rd_answer *answer);

/* Writes the answer that rd_shared_look would have right behind all calls up to now, RD_HIT or RD_ABSENT, and is no step: it uses
 * no entry, counts nothing and has no place, and the notices of this caller's latest call can still be read. The caller's next calls
 * stand behind all that the peek saw. Takes no memory. RD_BUSY, RD_LOST and the other faults come as of the eleven calls above, and
 * then it writes nothing. */
uint64_t rd_shared_peek(rd_caller *caller, uint64_t key, uint64_t now, rd_answer *answer);

/* The same by name. It is refused as the calls by name are. */
uint64_t rd_shared_peek_name(rd_caller *caller, const rd_name *key, uint64_t now, rd_answer *answer);

/* Writes notice i, from 0, of this caller's latest call that wasn't busy. RD_NO_SUCH_NOTICE if there is none. */
uint64_t rd_shared_get_notice(rd_caller *caller, uint64_t i, rd_notice *notice);

/* The same for a cache of names. Each of the two returns RD_OTHER_KEYS on a cache of the other kind. */
uint64_t rd_shared_get_notice_name(rd_caller *caller, uint64_t i, rd_name_notice *notice);

/* Writes the place of this caller's latest call in the history, from 1; 0 before its first. A call that the cache refused has a
 * place too. One that was refused memory has none: then it writes how many calls, of all callers, stand before it. One that was
 * busy changes nothing here. */
uint64_t rd_shared_get_place(rd_caller *caller, uint64_t *place);

/* Writes the numbers of the cache right behind all calls up to now, all of this one moment, as rd_get_numbers does, whichever keys
 * it has. It is no step: it has no place, and the notices of this caller's latest call can still be read. The caller's next calls
 * stand behind all that the numbers count. Takes no memory. RD_CLOSED, RD_BUSY and RD_LOST come as of the calls above, and then it
 * writes nothing. */
uint64_t rd_shared_get_numbers(rd_caller *caller, rd_numbers *numbers);

#ifdef RD_CHECK
#include <stdio.h>
#include <stdlib.h>
static inline void rd_enter(rd_caller *caller) {
    if (__atomic_exchange_n(&caller->in_use, 1, __ATOMIC_SEQ_CST)) {
        fputs("rookdresser: two threads are in one caller at once\n", stderr);
        abort();
    }
}
static inline uint64_t rd_leave(rd_caller *caller, uint64_t fault) {
    __atomic_store_n(&caller->in_use, 0, __ATOMIC_SEQ_CST);
    return fault;
}
/* A macro isn't expanded again in its own text, so these call the functions. */
#define RD_CHECKED(caller, call) (rd_enter(caller), rd_leave(caller, call))
#define rd_shared_open(setup, c) RD_CHECKED(c, rd_shared_open(setup, c))
#define rd_shared_open_names(setup, c) RD_CHECKED(c, rd_shared_open_names(setup, c))
#define rd_shared_close(c) RD_CHECKED(c, rd_shared_close(c))
#define rd_shared_look(c, key, now, a) RD_CHECKED(c, rd_shared_look(c, key, now, a))
#define rd_shared_seek(c, key, now, a) RD_CHECKED(c, rd_shared_seek(c, key, now, a))
#define rd_shared_land_keep(c, id, key, value, now, a) RD_CHECKED(c, rd_shared_land_keep(c, id, key, value, now, a))
#define rd_shared_land_loose(c, id, key, now, a) RD_CHECKED(c, rd_shared_land_loose(c, id, key, now, a))
#define rd_shared_land_failed(c, id, key, now, a) RD_CHECKED(c, rd_shared_land_failed(c, id, key, now, a))
#define rd_shared_put(c, key, value, now, a) RD_CHECKED(c, rd_shared_put(c, key, value, now, a))
#define rd_shared_put_for(c, key, value, life, now, a) RD_CHECKED(c, rd_shared_put_for(c, key, value, life, now, a))
#define rd_shared_land_for(c, id, key, value, life, now, a) RD_CHECKED(c, rd_shared_land_for(c, id, key, value, life, now, a))
#define rd_shared_drop_key(c, key, now, a) RD_CHECKED(c, rd_shared_drop_key(c, key, now, a))
#define rd_shared_forget(c, key, now, a) RD_CHECKED(c, rd_shared_forget(c, key, now, a))
#define rd_shared_look_name(c, key, now, a) RD_CHECKED(c, rd_shared_look_name(c, key, now, a))
#define rd_shared_seek_name(c, key, now, a) RD_CHECKED(c, rd_shared_seek_name(c, key, now, a))
#define rd_shared_land_keep_name(c, id, key, value, now, a) RD_CHECKED(c, rd_shared_land_keep_name(c, id, key, value, now, a))
#define rd_shared_land_loose_name(c, id, key, now, a) RD_CHECKED(c, rd_shared_land_loose_name(c, id, key, now, a))
#define rd_shared_land_failed_name(c, id, key, now, a) RD_CHECKED(c, rd_shared_land_failed_name(c, id, key, now, a))
#define rd_shared_put_name(c, key, value, now, a) RD_CHECKED(c, rd_shared_put_name(c, key, value, now, a))
#define rd_shared_put_name_for(c, key, value, life, now, a) RD_CHECKED(c, rd_shared_put_name_for(c, key, value, life, now, a))
#define rd_shared_land_name_for(c, id, key, value, life, now, a) RD_CHECKED(c, rd_shared_land_name_for(c, id, key, value, life, now, a))
#define rd_shared_drop_key_name(c, key, now, a) RD_CHECKED(c, rd_shared_drop_key_name(c, key, now, a))
#define rd_shared_forget_name(c, key, now, a) RD_CHECKED(c, rd_shared_forget_name(c, key, now, a))
#define rd_shared_peek(c, key, now, a) RD_CHECKED(c, rd_shared_peek(c, key, now, a))
#define rd_shared_peek_name(c, key, now, a) RD_CHECKED(c, rd_shared_peek_name(c, key, now, a))
#define rd_shared_clear(c, now, a) RD_CHECKED(c, rd_shared_clear(c, now, a))
#define rd_shared_clean(c, now, a) RD_CHECKED(c, rd_shared_clean(c, now, a))
#define rd_shared_slide(c, wider, now, a) RD_CHECKED(c, rd_shared_slide(c, wider, now, a))
#define rd_shared_get_notice(c, i, notice) RD_CHECKED(c, rd_shared_get_notice(c, i, notice))
#define rd_shared_get_notice_name(c, i, notice) RD_CHECKED(c, rd_shared_get_notice_name(c, i, notice))
#define rd_shared_get_place(c, place) RD_CHECKED(c, rd_shared_get_place(c, place))
#define rd_shared_get_numbers(c, numbers) RD_CHECKED(c, rd_shared_get_numbers(c, numbers))
#define rd_shared_another(c, d) (rd_enter(c), rd_enter(d), rd_leave(c, rd_leave(d, rd_shared_another(c, d))))
#define rd_shared_meet(c, d) (rd_enter(c), rd_enter(d), rd_leave(c, rd_leave(d, rd_shared_meet(c, d))))
#endif

/* The library knows nothing of in_use. */
#ifdef RD_HOLDS
#ifdef RD_CHECK
RD_SIZE_IS(rd_caller, 24);
RD_FIELD_IS(rd_caller, in_use, 16, 8);
#else
RD_SIZE_IS(rd_caller, 16);
#endif
RD_FIELD_IS(rd_caller, at, 0, 8);
RD_FIELD_IS(rd_caller, is_open, 8, 1);
#endif

#ifdef __cplusplus
}
#endif
#endif
