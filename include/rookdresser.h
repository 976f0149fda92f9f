/* rookdresser: the proved sequential cache, for C and whatever calls C.
 *
 * Keys are numbers of 64 bits, or names of at most 24 bytes. A cache has one kind of keys: rd_open or rd_open_names
 * decides. A value is a token with a weight, a number that the caller chooses. The caller keeps the real values by their
 * tokens, and frees one when a notice says that its entry left. Moments and durations are milliseconds by the caller's
 * clock; a moment before the latest one counts as the latest.
 *
 *     rd_setup setup = {.entries = 1000, .window = 10, .flights = 64, .bound = 1 << 20};
 *     rd_cache cache = RD_CACHE_INIT;
 *     rd_answer answer;
 *     if (rd_open(&setup, &cache)) return 1;
 *     rd_put(&cache, 1, (rd_token){7, 2}, 0, &answer);     at moment 0, under key 1: token 7, of weight 2
 *     rd_look(&cache, 1, 0, &answer);                      answer.kind is RD_HIT, answer.token 7
 *     rd_close(&cache);
 *
 * The functions are proved for all numbers and names. This header is not proved: its structs, its signatures, rd_name_of and
 * rd_fault_text are written by hand. A tool compares the structs and the signatures with those of the functions. The caller
 * has to keep these rules, which nothing checks:
 *
 *  - No pointer is null. Each points to one whole, aligned, live object of its type. The objects of one call don't overlap.
 *  - An rd_cache begins as RD_CACHE_INIT, and from then on only these functions write it. It may be moved, but not copied
 *    and used twice.
 *  - A cache has one call at a time, also if the call only reads. Another thread may use it next, if a lock or that
 *    thread's start or join orders the calls. Several caches may be used at once.
 *  - malloc, realloc and free belong to one allocator, and malloc aligns to 16.
 *  - No signal handler calls these functions, and no forked child of a process with threads does.
 *
 * The library's hash has no secret: an attacker who chooses keys can choose keys that collide, and so slow it down. If
 * strangers choose your keys, hash them under a secret seed first, as rookdresser_seeded.h does.
 */
#ifndef ROOKDRESSER_H
#define ROOKDRESSER_H
#include <stdbool.h>
#include <stddef.h>
#include <stdint.h>
#include <string.h>
#ifdef __cplusplus
extern "C" {
#endif

/* A cache. If all its bytes are zero, it is closed. */
typedef struct rd_cache {
    void *at;
    bool is_open;
} rd_cache;
#define RD_CACHE_INIT {0, false}

/* A number that identifies a value of the caller, and that value's weight. */
typedef struct rd_token {
    uint64_t token;
    uint32_t weight;
} rd_token;

/* A key of at most 24 bytes, which need not be text: a null byte is an ordinary byte. The bytes from length on are
 * ignored. Each call refuses a name whose length is above 24. */
typedef struct rd_name {
    uint8_t bytes[24];
    uint64_t length;
} rd_name;

/* Makes a name of these bytes. Each call refuses a name of more than 24 bytes. */
static inline rd_name rd_name_of(const void *bytes, size_t length) {
    rd_name name = {{0}, length};
    if (length <= sizeof name.bytes) memcpy(name.bytes, bytes, length);
    return name;
}

/* The settings of a cache. Each duration may be any number. A refresh that isn't below after_write never happens, since the
 * entry has expired by then. An entry that has expired is never returned, but stays until something removes it:
 * docs/GUIDE.md, 'Entries that have expired', says what does. */
typedef struct rd_setup {
    uint32_t entries;      /* at most so many entries: 1 to 65,536 */
    uint32_t window;       /* so many of them in the window: 1 to entries; a hundredth is a good choice if the same keys stay popular */
    uint32_t flights;      /* at most so many open loads: 1 to 4,096 */
    uint64_t bound;        /* the most that all entries may weigh together: 1 to 2^48 */
    uint64_t after_write;  /* an entry expires so many ms after it was written; 0: never */
    uint64_t after_access; /* an entry expires so many ms after it was used; 0: never */
    uint64_t refresh;      /* an entry is due for another load so many ms after it was written; 0: never */
} rd_setup;

/* The result of a function. If it isn't RD_OK, the call changed no entry, load, number or moment of the cache. A call that
 * returns one of the faults from RD_CLOSED on wrote nothing at all; one that returns another fault emptied the list of
 * notices.
 *
 * The functions return a uint64_t. If you write switch ((enum rd_fault)fault) without a default, gcc and clang warn of each
 * fault that has no case (-Wswitch, part of -Wall). An error of a load of yours, a number from RD_LOADING_ERRORS on, is no
 * rd_fault, so test for it first. */
enum rd_fault {
    RD_OK = 0,
    RD_OUT_OF_MEMORY = 1,      /* the same call may succeed later */
    RD_BAD_SETUP = 2,          /* rd_check returns the setting */
    RD_TOO_HEAVY = 3,          /* the value weighs more than bound */
    RD_TOO_MANY_FLIGHTS = 4,   /* as many loads are open as flights allows */
    RD_STEPS_SPENT = 5,        /* 2^60 steps were made */
    RD_CLOSED = 100,
    RD_OPEN_ALREADY = 101,
    RD_NO_SUCH_NOTICE = 102,
    RD_OTHER_KEYS = 103,       /* a call by number on a cache of names, or by name on one of numbers */
    RD_NAME_TOO_LONG = 104,    /* the name has more than 24 bytes */
    /* Of rookdresser_shared.h alone: */
    RD_BUSY = 105,             /* another call is at work: nothing has happened, and the same call may succeed later */
    RD_LOST = 106,             /* the cache is lost, and from now on each call is busy. No code leads here, but no clause
                                  says so: report it */
    /* Not of the library: rookdresser_loading.h makes both, and rookdresser_waiting.h the second one: */
    RD_TIMED_OUT = 999,        /* the deadline has passed, and the load that the call waited for goes on */
    RD_WAITS_FOR_ITSELF = 1000 /* the load waits for this very call, so it would never end */
};

/* Returns what a result means, in a few words for a log, which may change with any version. From RD_LOADING_ERRORS on, a
 * number is the error of a load. For a number that is no fault, the text says so. */
static inline const char *rd_fault_text(uint64_t fault) {
    if (fault > RD_WAITS_FOR_ITSELF) return "the load failed";
    switch ((enum rd_fault)fault) {
    case RD_OK: return "the call did what it should";
    case RD_OUT_OF_MEMORY: return "out of memory";
    case RD_BAD_SETUP: return "a setting is out of its range";
    case RD_TOO_HEAVY: return "the value is heavier than the bound";
    case RD_TOO_MANY_FLIGHTS: return "too many loads are open";
    case RD_STEPS_SPENT: return "2^60 steps were made";
    case RD_CLOSED: return "the cache is closed";
    case RD_OPEN_ALREADY: return "the cache is open already";
    case RD_NO_SUCH_NOTICE: return "there is no such notice";
    case RD_OTHER_KEYS: return "the cache has the other kind of keys";
    case RD_NAME_TOO_LONG: return "the name has more than 24 bytes";
    case RD_BUSY: return "another call is at work in the cache";
    case RD_LOST: return "the cache is lost";
    case RD_TIMED_OUT: return "the load hasn't ended by the deadline";
    case RD_WAITS_FOR_ITSELF: return "the load of the key waits for this very call";
    }
    return "no fault has this number";
}

/* The kind of an answer, with the fields that it sets; the others are 0. */
enum rd_kind {
    RD_NO_MEMORY = 0, /* an allocation failed; number: RD_OUT_OF_MEMORY */
    RD_HIT = 1,       /* token, weight */
    RD_ABSENT = 2,
    RD_HIT_LEAD = 3,  /* token, weight, and number: the load that this caller now has to make */
    RD_JOIN = 4,      /* number: the load that another caller makes */
    RD_LEAD = 5,      /* number: the load that this caller now has to make */
    RD_KEPT = 6,      /* number: how many callers shared the load */
    RD_LOOSE = 7,     /* number: how many callers shared the load */
    RD_FAILED = 8,    /* number: how many callers shared the load */
    RD_GONE = 9,      /* no load of this id and key is open */
    RD_STORED = 10,
    RD_DROPPED = 11,  /* number: 1 if an unexpired entry left, else 0 */
    RD_CLEARED = 12,
    RD_FORGOT = 13,   /* number: 1 if there was a load, else 0 */
    RD_CLEANED = 14,
    RD_REFUSED = 15,  /* number: the fault, which the call also returns */
    RD_SLID = 16      /* number: 1 if the border moved, else 0 */
};

/* The answer of a call. */
typedef struct rd_answer {
    uint32_t kind;    /* an rd_kind */
    uint32_t weight;
    uint64_t token;
    uint64_t number;
    uint64_t notices; /* how many entries left: read their notices by rd_get_notice before the next call */
} rd_answer;

enum rd_cause {
    RD_EXPLICIT = 1, /* dropped or cleared */
    RD_REPLACED = 2, /* another value was stored under its key */
    RD_EXPIRED = 3,
    RD_SIZE = 4      /* evicted */
};

/* An entry that left. Its token belongs to the caller again. */
typedef struct rd_notice {
    uint64_t key;
    uint64_t token;
    uint32_t weight;
    uint32_t cause; /* an rd_cause */
} rd_notice;

/* The same for a cache of names. */
typedef struct rd_name_notice {
    rd_name key; /* zeros follow its bytes */
    uint64_t token;
    uint32_t weight;
    uint32_t cause;
} rd_name_notice;

/* One of the look-ups that rd_look_many makes. */
typedef struct rd_looked {
    uint64_t key;
    uint64_t now;     /* its moment */
    rd_answer answer; /* written by the call */
} rd_looked;

/* The numbers of a cache. Hits and misses always add up to the look-ups, entries and weight are within the setup's entries
 * and bound, flights is within its flights, and no number wraps. */
typedef struct rd_numbers {
    uint64_t lookups; /* rd_look and rd_seek */
    uint64_t hits;    /* those that found the key */
    uint64_t misses;  /* those that didn't */
    uint64_t loads;   /* landings with a value */
    uint64_t failed;  /* landings without one, by rd_land_failed */
    uint64_t evicted; /* entries that left as RD_EXPIRED or RD_SIZE */
    uint64_t entries; /* held now */
    uint64_t weight;  /* of all entries together */
    uint64_t step;    /* calls that weren't refused */
    uint64_t latest;  /* the latest moment */
    uint64_t flights; /* loads that are open now */
} rd_numbers;

/* The version of this header: a million times its first number, a thousand times its second, and its third, so 2000 is 0.2.0. A
 * version that is in work has the number of the release to come. */
#define RD_VERSION 2000

/* Returns the library's version, in the same form. */
uint64_t rd_version(void);

/* Whether the library is of this header's version. If it isn't, make no other call: it may lay out the structs in another way. Ask
 * before your first call, if your program may find another librookdresser.so than it was compiled for. */
static inline bool rd_is_this_version(void) { return rd_version() == RD_VERSION; }

/* Returns 0, or the first setting that is out of its range, in this order: 1 entries, 2 window, 4 bound, 3 flights. It never
 * returns 5 after_write, 6 after_access or 7 refresh: these take every number. */
uint64_t rd_check(const rd_setup *setup);

/* Opens an empty cache whose keys are numbers. Faults, in this order: RD_OPEN_ALREADY, RD_BAD_SETUP, RD_OUT_OF_MEMORY.
 * A fault leaves the cache as it was. */
uint64_t rd_open(const rd_setup *setup, rd_cache *cache);

/* The same for a cache whose keys are names. */
uint64_t rd_open_names(const rd_setup *setup, rd_cache *cache);

/* Closes the cache and frees its memory. All its tokens belong to the caller again, without notices. Returns RD_CLOSED if
 * the cache is closed already. */
uint64_t rd_close(rd_cache *cache);

/* Each of the eleven calls below makes one step at the moment now and writes its answer, or is refused. On a closed cache it
 * returns RD_CLOSED and writes nothing. On a cache of names, a call with a key returns RD_OTHER_KEYS and writes nothing. */

/* Looks the key up: RD_HIT, which is a use, or RD_ABSENT. Only a hit of an entry in probation takes memory: one that came
 * out of the window and hasn't been used since, or that newer uses pushed back. */
uint64_t rd_look(rd_cache *cache, uint64_t key, uint64_t now, rd_answer *answer);

/* Looks the key up, and joins or opens a load if it has to: RD_HIT; RD_HIT_LEAD if the entry is due for another load;
 * RD_JOIN if another caller loads the key; RD_LEAD. A caller that leads makes the load, and lands it by one of the three
 * calls below. RD_TOO_MANY_FLIGHTS if a miss would open more loads than flights allows. Only a load that it opens, or a hit
 * of an entry in probation, takes memory. */
uint64_t rd_seek(rd_cache *cache, uint64_t key, uint64_t now, rd_answer *answer);

/* Closes the load of this id and key with a value. RD_KEPT: the value was stored. RD_LOOSE: it wasn't stored, since the
 * key was put, dropped, forgotten or cleared meanwhile, or the value is heavier than bound. RD_GONE: no such load is open.
 * Only a landing that stores takes memory; if the allocation fails, the load stays open. */
uint64_t rd_land_keep(rd_cache *cache, uint64_t id, uint64_t key, rd_token value, uint64_t now, rd_answer *answer);

/* Closes the load with a value, and doesn't store it: RD_LOOSE or RD_GONE. Takes no memory. */
uint64_t rd_land_loose(rd_cache *cache, uint64_t id, uint64_t key, uint64_t now, rd_answer *answer);

/* Closes the load with a failure: RD_FAILED or RD_GONE. Takes no memory. */
uint64_t rd_land_failed(rd_cache *cache, uint64_t id, uint64_t key, uint64_t now, rd_answer *answer);

/* Stores the value under the key: RD_STORED. Each entry that it replaces or evicts has a notice; the new entry itself may
 * be evicted. RD_TOO_HEAVY if the value is heavier than bound. */
uint64_t rd_put(rd_cache *cache, uint64_t key, rd_token value, uint64_t now, rd_answer *answer);

/* Removes the key's entry: RD_DROPPED. The key's current load will store nothing. Takes no memory. */
uint64_t rd_drop_key(rd_cache *cache, uint64_t key, uint64_t now, rd_answer *answer);

/* Lets no other caller join the key's current load, which will store nothing: RD_FORGOT. Takes no memory. */
uint64_t rd_forget(rd_cache *cache, uint64_t key, uint64_t now, rd_answer *answer);

/* Removes every entry: RD_CLEARED. The open loads will store nothing. Takes no memory. */
uint64_t rd_clear(rd_cache *cache, uint64_t now, rd_answer *answer);

/* Removes every expired entry: RD_CLEANED. Takes no memory. */
uint64_t rd_clean(rd_cache *cache, uint64_t now, rd_answer *answer);

/* Makes the window wider by one entry, or narrower: RD_SLID. A window of all entries can't become wider, nor one of one entry
 * narrower. No entry leaves. Only a slide that moves something takes memory. */
uint64_t rd_slide(rd_cache *cache, bool wider, uint64_t now, rd_answer *answer);

/* The eight calls with a key, for a cache of names. Each does the same as its namesake for numbers, or writes nothing and
 * returns RD_NAME_TOO_LONG, RD_CLOSED, or RD_OTHER_KEYS, in this order. */
uint64_t rd_look_name(rd_cache *cache, const rd_name *key, uint64_t now, rd_answer *answer);
uint64_t rd_seek_name(rd_cache *cache, const rd_name *key, uint64_t now, rd_answer *answer);
uint64_t rd_land_keep_name(rd_cache *cache, uint64_t id, const rd_name *key, rd_token value, uint64_t now,
                           rd_answer *answer);
uint64_t rd_land_loose_name(rd_cache *cache, uint64_t id, const rd_name *key, uint64_t now, rd_answer *answer);
uint64_t rd_land_failed_name(rd_cache *cache, uint64_t id, const rd_name *key, uint64_t now, rd_answer *answer);
uint64_t rd_put_name(rd_cache *cache, const rd_name *key, rd_token value, uint64_t now, rd_answer *answer);
uint64_t rd_drop_key_name(rd_cache *cache, const rd_name *key, uint64_t now, rd_answer *answer);
uint64_t rd_forget_name(rd_cache *cache, const rd_name *key, uint64_t now, rd_answer *answer);

/* Deprecated: the name that rd_drop_key_name had in 0.1, until the next major version. */
uint64_t rd_drop_name(rd_cache *cache, const rd_name *key, uint64_t now, rd_answer *answer);

/* The three calls that most often have notices, each with its first one. Each does the same as its namesake. If an entry
 * left, it also writes the first notice, which is rd_get_notice's number 0; if none left, it doesn't write it. */
uint64_t rd_put_with_notice(rd_cache *cache, uint64_t key, rd_token value, uint64_t now, rd_answer *answer, rd_notice *first);
uint64_t rd_land_keep_with_notice(rd_cache *cache, uint64_t id, uint64_t key, rd_token value, uint64_t now,
                                  rd_answer *answer, rd_notice *first);
uint64_t rd_drop_key_with_notice(rd_cache *cache, uint64_t key, uint64_t now, rd_answer *answer, rd_notice *first);
uint64_t rd_put_name_with_notice(rd_cache *cache, const rd_name *key, rd_token value, uint64_t now, rd_answer *answer,
                                 rd_name_notice *first);
uint64_t rd_land_keep_name_with_notice(rd_cache *cache, uint64_t id, const rd_name *key, rd_token value, uint64_t now,
                                       rd_answer *answer, rd_name_notice *first);
uint64_t rd_drop_key_name_with_notice(rd_cache *cache, const rd_name *key, uint64_t now, rd_answer *answer,
                                      rd_name_notice *first);

/* Stores with a life: the entry expires `life` ms after it was written, or earlier by the setup's durations; a life of 0 is
 * none. The next store of the key gives its entry another life, or none. A load's life begins as it lands. Each writes the
 * first notice as the calls above do. The longest life is 49 days. */
uint64_t rd_put_for(rd_cache *cache, uint64_t key, rd_token value, uint32_t life, uint64_t now, rd_answer *answer,
                    rd_notice *first);
uint64_t rd_land_for(rd_cache *cache, uint64_t id, uint64_t key, rd_token value, uint32_t life, uint64_t now,
                     rd_answer *answer, rd_notice *first);
uint64_t rd_put_name_for(rd_cache *cache, const rd_name *key, rd_token value, uint32_t life, uint64_t now,
                         rd_answer *answer, rd_name_notice *first);
uint64_t rd_land_name_for(rd_cache *cache, uint64_t id, const rd_name *key, rd_token value, uint32_t life, uint64_t now,
                          rd_answer *answer, rd_name_notice *first);

/* Makes n look-ups, one after another, as rd_look does. It stops after a look-up that is refused, and returns its fault. It
 * also stops after a look-up that has a notice, since rd_get_notice reads those of the latest look-up alone. made is set to
 * how many it made, the latest one included; it doesn't write the answers of the others. looks isn't null even if n is 0.
 * A call that returns RD_CLOSED or RD_OTHER_KEYS writes nothing. */
uint64_t rd_look_many(rd_cache *cache, rd_looked *looks, size_t n, uint64_t *made);

/* Writes the answer that rd_look would have, RD_HIT or RD_ABSENT, and is no step: it uses no entry, counts nothing, leaves
 * the latest moment, and the notices of the call before it can still be read. Takes no memory. On a closed cache it returns
 * RD_CLOSED, on a cache of names RD_OTHER_KEYS, and writes nothing. */
uint64_t rd_peek(rd_cache *cache, uint64_t key, uint64_t now, rd_answer *answer);

/* The same by name. It is refused as the calls by name are. */
uint64_t rd_peek_name(rd_cache *cache, const rd_name *key, uint64_t now, rd_answer *answer);

/* Writes notice i, from 0, of the latest of these calls. RD_NO_SUCH_NOTICE if there is none. */
uint64_t rd_get_notice(rd_cache *cache, uint64_t i, rd_notice *notice);

/* The same for a cache of names. Each of the two returns RD_OTHER_KEYS on a cache of the other kind. */
uint64_t rd_get_notice_name(rd_cache *cache, uint64_t i, rd_name_notice *notice);

/* Writes the numbers of the cache. */
uint64_t rd_get_numbers(rd_cache *cache, rd_numbers *numbers);

/* Writes how many entries the window may hold now: as many as the setup has, unless slides moved its border. */
uint64_t rd_get_window(rd_cache *cache, uint32_t *window);

/* An adviser says how many entries the window should hold: of a cache, or of several with one policy together. It keeps four
 * small caches with windows of 1, 10, 40 and 100 hundredths, which look a sample of the keys up, and wants the window of the
 * one that hits most. It takes keys that are numbers; for a cache of names, give it a number for each name, as a hash is. The
 * rules for an rd_cache hold for it too. If all its bytes are zero, it is closed. */
typedef struct rd_adviser {
    void *at;
    bool is_open;
} rd_adviser;
#define RD_ADVISER_INIT {0, false}

/* Opens an adviser for entries entries, 64 to 4,194,304. Faults, in this order: RD_OPEN_ALREADY; RD_BAD_SETUP if entries is
 * out of its range; RD_OUT_OF_MEMORY. A fault leaves the adviser as it was. It keeps at most entries / 16 keys, or 256. */
uint64_t rd_open_adviser(uint32_t entries, rd_adviser *adviser);

/* Shows the adviser the look-ups of n keys, in their order and whether they hit or not, and sets window to how many entries it
 * wants the window to hold: 1 to entries, and 10 hundredths at first. A call of rd_slide then moves the window by one entry.
 * RD_OUT_OF_MEMORY if a small cache was refused memory: it has not seen a key then, but all else is done, so the caller may go
 * on. RD_CLOSED writes nothing. keys isn't null even if n is 0. */
uint64_t rd_advise(rd_adviser *adviser, const uint64_t *keys, size_t n, uint32_t *window);

/* Closes the adviser and frees its memory. Returns RD_CLOSED if it is closed already. */
uint64_t rd_close_adviser(rd_adviser *adviser);

/* The library was compiled for these layouts. With an option or a pragma that packs structs, or in a program of 32 bits, it
 * would read and write other places than the program does, without a word. So the compiler refuses such a program; C before
 * C11 and C++ before C++11 have no check of this kind. RD_FIELD_IS has where a field begins, and its size. */
#if defined __cplusplus && __cplusplus >= 201103L
#define RD_HOLDS(what, text) static_assert(what, text)
#elif defined __STDC_VERSION__ && __STDC_VERSION__ >= 201112L
#define RD_HOLDS(what, text) _Static_assert(what, text)
#endif
#ifdef RD_HOLDS
#define RD_SIZE_IS(type, size) RD_HOLDS(sizeof(type) == size, #type " has another size than in the library")
#define RD_FIELD_IS(type, field, at, size) \
    RD_HOLDS(offsetof(type, field) == at && sizeof(((type *)0)->field) == size, #type "." #field " isn't where the library has it")
RD_SIZE_IS(rd_cache, 16);
RD_FIELD_IS(rd_cache, at, 0, 8);
RD_FIELD_IS(rd_cache, is_open, 8, 1);
RD_SIZE_IS(rd_token, 16);
RD_FIELD_IS(rd_token, token, 0, 8);
RD_FIELD_IS(rd_token, weight, 8, 4);
RD_SIZE_IS(rd_name, 32);
RD_FIELD_IS(rd_name, bytes, 0, 24);
RD_FIELD_IS(rd_name, length, 24, 8);
RD_SIZE_IS(rd_setup, 48);
RD_FIELD_IS(rd_setup, entries, 0, 4);
RD_FIELD_IS(rd_setup, window, 4, 4);
RD_FIELD_IS(rd_setup, flights, 8, 4);
RD_FIELD_IS(rd_setup, bound, 16, 8);
RD_FIELD_IS(rd_setup, after_write, 24, 8);
RD_FIELD_IS(rd_setup, after_access, 32, 8);
RD_FIELD_IS(rd_setup, refresh, 40, 8);
RD_SIZE_IS(rd_answer, 32);
RD_FIELD_IS(rd_answer, kind, 0, 4);
RD_FIELD_IS(rd_answer, weight, 4, 4);
RD_FIELD_IS(rd_answer, token, 8, 8);
RD_FIELD_IS(rd_answer, number, 16, 8);
RD_FIELD_IS(rd_answer, notices, 24, 8);
RD_SIZE_IS(rd_notice, 24);
RD_FIELD_IS(rd_notice, key, 0, 8);
RD_FIELD_IS(rd_notice, token, 8, 8);
RD_FIELD_IS(rd_notice, weight, 16, 4);
RD_FIELD_IS(rd_notice, cause, 20, 4);
RD_SIZE_IS(rd_name_notice, 48);
RD_FIELD_IS(rd_name_notice, key, 0, 32);
RD_FIELD_IS(rd_name_notice, token, 32, 8);
RD_FIELD_IS(rd_name_notice, weight, 40, 4);
RD_FIELD_IS(rd_name_notice, cause, 44, 4);
RD_SIZE_IS(rd_looked, 48);
RD_FIELD_IS(rd_looked, key, 0, 8);
RD_FIELD_IS(rd_looked, now, 8, 8);
RD_FIELD_IS(rd_looked, answer, 16, 32);
RD_SIZE_IS(rd_numbers, 88);
RD_FIELD_IS(rd_numbers, lookups, 0, 8);
RD_FIELD_IS(rd_numbers, hits, 8, 8);
RD_FIELD_IS(rd_numbers, misses, 16, 8);
RD_FIELD_IS(rd_numbers, loads, 24, 8);
RD_FIELD_IS(rd_numbers, failed, 32, 8);
RD_FIELD_IS(rd_numbers, evicted, 40, 8);
RD_FIELD_IS(rd_numbers, entries, 48, 8);
RD_FIELD_IS(rd_numbers, weight, 56, 8);
RD_FIELD_IS(rd_numbers, step, 64, 8);
RD_FIELD_IS(rd_numbers, latest, 72, 8);
RD_FIELD_IS(rd_numbers, flights, 80, 8);
RD_SIZE_IS(rd_adviser, 16);
RD_FIELD_IS(rd_adviser, at, 0, 8);
RD_FIELD_IS(rd_adviser, is_open, 8, 1);
#endif

#ifdef __cplusplus
}
#endif
#endif
