/* shared_calls N: four threads make N calls of all kinds on one shared cache, through rookdresser_waiting.h. Each call's place in the
 * history is told once, none is left out, and they rise for each caller. Then the calls, in the order of their places, are made on
 * an rd_cache: each answer and each notice is the same. Before each third call its thread peeks: what it found is what that cache has
 * at some place between the thread's call before and this one. It also reads the numbers, whose steps never fall. shared_calls N list
 * prints the calls in the order of their places with their replies, as same_history.py reads them. */
#include "keys.h"
#include "rookdresser_waiting.h"
#include <string.h>
#define CHECK(x)                                     \
    do {                                             \
        if (!(x)) {                                  \
            printf("line %d: %s\n", __LINE__, #x);   \
            exit(1);                                 \
        }                                            \
    } while (0)

enum { THREADS = 4, ROUND = 250000, KEYS = 300, LEADS = 16 };
enum { look, seek, keep, loose, failed, put, drop, forget, clear, clean, slide };
static const rd_setup setup = {.entries = 100, .window = 10, .flights = 8, .bound = 500, .after_write = 900, .after_access = 400, .refresh = 300};

/* What a call was asked. */
typedef struct call {
    uint32_t what, key, now, weight;
    uint64_t id, token;
} call;

/* A call that was made: its place, what it returned, and the sum of its notices; and what a peek found right before it. */
typedef struct made {
    call asked;
    uint64_t place, fault, notices;
    rd_answer answer, peeked;
    bool awaits; /* there was a peek, and the rd_cache hasn't had what it found */
} made;

typedef struct worker {
    rd_caller caller;
    pthread_t thread;
    uint64_t rng, last, steps, tokens;
    uint32_t now;
    struct { uint64_t id, key; } leads[LEADS]; /* the loads that it has to land */
    size_t open, count;
    made *calls;
} worker;

static rd_gate gate = RD_GATE_INIT;
static worker workers[THREADS];

static uint64_t below(worker *w, uint64_t limit) {
    w->rng ^= w->rng << 13;
    w->rng ^= w->rng >> 7;
    w->rng ^= w->rng << 17;
    return (w->rng >> 16) % limit;
}

static uint64_t added(uint64_t sum, const rd_notice *n) {
    return ((sum * 31 + n->key) * 31 + n->token) * 31 + n->weight * 8 + n->cause + 1;
}

static void land(worker *w, call *c) {
    size_t i = below(w, w->open);
    uint64_t how = below(w, 10);
    c->what = how < 7 ? keep : how < 8 ? loose : failed;
    c->id = w->leads[i].id;
    c->key = (uint32_t)w->leads[i].key;
    w->leads[i] = w->leads[--w->open];
}

static call next(worker *w) {
    static const uint32_t kinds[] = {look, look, look, seek, seek, seek, seek, put, put, put, drop, forget};
    uint64_t one = below(w, KEYS), other = below(w, KEYS);
    w->now += (uint32_t)below(w, 3);
    call c = {look, (uint32_t)(one < other ? one : other), w->now, (uint32_t)below(w, 12), 0, w->tokens += THREADS};
    if (below(w, 200) == 0) c.weight = 501; /* too heavy */
    if (w->open && (w->open == LEADS || below(w, 3) == 0)) land(w, &c);
    else c.what = below(w, 2000) == 0 ? clear : below(w, 50) == 0 ? clean : below(w, 50) == 0 ? slide : kinds[below(w, 12)];
    return c;
}

static uint64_t make_shared(rd_caller *caller, const call *c, rd_answer *answer) {
    const rd_token value = {c->token, c->weight};
    switch (c->what) {
    case look: return CALL(rd_shared_look, rd_shared_look_name)(caller, GIVEN(c->key), c->now, answer);
    case seek: return CALL(rd_shared_seek, rd_shared_seek_name)(caller, GIVEN(c->key), c->now, answer);
    case keep: return CALL(rd_shared_land_keep, rd_shared_land_keep_name)(caller, c->id, GIVEN(c->key), value, c->now, answer);
    case loose: return CALL(rd_shared_land_loose, rd_shared_land_loose_name)(caller, c->id, GIVEN(c->key), c->now, answer);
    case failed: return CALL(rd_shared_land_failed, rd_shared_land_failed_name)(caller, c->id, GIVEN(c->key), c->now, answer);
    case put: return CALL(rd_shared_put, rd_shared_put_name)(caller, GIVEN(c->key), value, c->now, answer);
    case drop: return CALL(rd_shared_drop_key, rd_shared_drop_key_name)(caller, GIVEN(c->key), c->now, answer);
    case forget: return CALL(rd_shared_forget, rd_shared_forget_name)(caller, GIVEN(c->key), c->now, answer);
    case clear: return rd_shared_clear(caller, c->now, answer);
    case clean: return rd_shared_clean(caller, c->now, answer);
    default: return rd_shared_slide(caller, c->key % 2, c->now, answer);
    }
}

static uint64_t peek_shared(rd_caller *caller, uint64_t key, uint64_t now, rd_answer *answer) {
    return CALL(rd_shared_peek, rd_shared_peek_name)(caller, GIVEN(key), now, answer);
}

static uint64_t make_alone(rd_cache *cache, const call *c, rd_answer *answer) {
    const rd_token value = {c->token, c->weight};
    switch (c->what) {
    case look: return LOOK(cache, GIVEN(c->key), c->now, answer);
    case seek: return SEEK(cache, GIVEN(c->key), c->now, answer);
    case keep: return LAND_KEEP(cache, c->id, GIVEN(c->key), value, c->now, answer);
    case loose: return LAND_LOOSE(cache, c->id, GIVEN(c->key), c->now, answer);
    case failed: return LAND_FAILED(cache, c->id, GIVEN(c->key), c->now, answer);
    case put: return PUT(cache, GIVEN(c->key), value, c->now, answer);
    case drop: return DROP(cache, GIVEN(c->key), c->now, answer);
    case forget: return FORGET(cache, GIVEN(c->key), c->now, answer);
    case clear: return rd_clear(cache, c->now, answer);
    case clean: return rd_clean(cache, c->now, answer);
    default: return rd_slide(cache, c->key % 2, c->now, answer);
    }
}

static uint64_t get_shared_notice(rd_caller *caller, uint64_t i, rd_notice *notice) {
    any_notice told;
    uint64_t fault = CALL(rd_shared_get_notice, rd_shared_get_notice_name)(caller, i, &told);
    if (!fault) *notice = by_number(told);
    return fault;
}

/* A few of the callers' calls are made by a handle that the thread has just opened, and has met its own. */
static void *work(void *given) {
    worker *w = given;
    for (size_t i = 0; i < w->count; i++) {
        made *m = &w->calls[i];
        rd_caller brief = RD_CALLER_INIT;
        m->asked = next(w);
        if (i % 1000 == 999) {
            CHECK(rd_shared_another(&w->caller, &brief) == RD_OK);
            CHECK(rd_shared_meet(&brief, &w->caller) == RD_OK);
        }
        rd_caller *caller = brief.is_open ? &brief : &w->caller;
        m->awaits = i % 3 == 0;
        if (m->awaits) {
            RD_WAITING(&gate, m->fault, peek_shared(caller, m->asked.key, m->asked.now, &m->peeked));
            CHECK(m->fault == RD_OK);
            rd_numbers numbers;
            RD_WAITING(&gate, m->fault, rd_shared_get_numbers(caller, &numbers));
            CHECK(m->fault == RD_OK && numbers.hits + numbers.misses == numbers.lookups && numbers.entries <= setup.entries);
            CHECK(numbers.step >= w->steps);
            w->steps = numbers.step;
        }
        RD_WAITING(&gate, m->fault, make_shared(caller, &m->asked, &m->answer));
        CHECK(rd_shared_get_place(caller, &m->place) == RD_OK);
        CHECK(m->place > w->last);
        w->last = m->place;
        m->notices = 0;
        rd_notice notice;
        for (uint64_t n = 0; n < m->answer.notices; n++) {
            CHECK(get_shared_notice(caller, n, &notice) == RD_OK);
            m->notices = added(m->notices, &notice);
        }
        CHECK(get_shared_notice(caller, m->answer.notices, &notice) == RD_NO_SUCH_NOTICE);
        if (brief.is_open) CHECK(rd_shared_meet(&w->caller, &brief) == RD_OK && rd_shared_close(&brief) == RD_OK);
        if (m->answer.kind == RD_LEAD || m->answer.kind == RD_HIT_LEAD) {
            w->leads[w->open].id = m->answer.number;
            w->leads[w->open++].key = m->asked.key;
        }
    }
    return 0;
}

static void play(rd_cache *cache, const made *m) {
    rd_answer answer;
    rd_notice notice;
    uint64_t notices = 0;
    CHECK(make_alone(cache, &m->asked, &answer) == m->fault);
    for (uint64_t n = 0; n < answer.notices; n++) {
        CHECK(get_notice(cache, n, &notice) == RD_OK);
        notices = added(notices, &notice);
    }
    CHECK(answer.kind == m->answer.kind && answer.weight == m->answer.weight && answer.token == m->answer.token);
    CHECK(answer.number == m->answer.number && answer.notices == m->answer.notices && notices == m->notices);
}

/* Whether the rd_cache has now what the peek found. */
static bool finds(rd_cache *cache, const made *m) {
    rd_answer answer;
    CHECK(PEEK(cache, GIVEN(m->asked.key), m->asked.now, &answer) == RD_OK);
    return answer.kind == m->peeked.kind && answer.token == m->peeked.token && answer.weight == m->peeked.weight && m->peeked.notices == 0;
}

static void print(const made *m) {
    static const char *calls[] = {"look", "seek", "land", "land", "land", "put", "drop", "forget", "clear", "clean", "slide"};
    const call *c = &m->asked;
    const rd_answer *a = &m->answer;
    printf("%u %s", c->now, calls[c->what]);
    if (c->what < clear || c->what == slide) printf(" %u", c->key);
    if (c->what == slide) printf(" %s", c->key % 2 ? "wider" : "narrower");
    if (c->what >= keep && c->what <= failed) printf(" %llu %s", (unsigned long long)c->id, c->what == keep ? "keep" : c->what == loose ? "loose" : "failed");
    if (c->what == keep || c->what == put) printf(" %llu %u", (unsigned long long)c->token, c->weight);
    printf(" = %u %llu %u %llu\n", a->kind, (unsigned long long)a->token, a->weight, (unsigned long long)a->number);
}

/* One round of calls; then all threads have ended, and each place from `before` on is told once. */
static uint64_t round_of(size_t count, uint64_t before, rd_cache *cache, bool lists) {
    static const made *order[ROUND];
    memset(order, 0, sizeof order);
    for (int t = 0; t < THREADS; t++) {
        workers[t].count = count / THREADS;
        CHECK(pthread_create(&workers[t].thread, 0, work, &workers[t]) == 0);
    }
    for (int t = 0; t < THREADS; t++) CHECK(pthread_join(workers[t].thread, 0) == 0);
    uint64_t all = count / THREADS * THREADS;
    for (int t = 0; t < THREADS; t++) {
        for (size_t i = 0; i < workers[t].count; i++) {
            uint64_t at = workers[t].calls[i].place - before - 1;
            CHECK(at < all && !order[at]);
            order[at] = &workers[t].calls[i];
        }
    }
    size_t next[THREADS] = {0}; /* of each thread, the first call that isn't played yet */
    for (uint64_t at = 0; at < all; at++) {
        for (int t = 0; t < THREADS; t++) {
            made *m = &workers[t].calls[next[t]];
            if (next[t] == workers[t].count) continue;
            if (m->awaits && finds(cache, m)) m->awaits = false;
            if (m != order[at]) continue;
            CHECK(!m->awaits);
            next[t]++;
        }
        play(cache, order[at]);
        if (lists) print(order[at]);
    }
    return before + all;
}

/* A peek finds what a look would hit, uses no entry, and leaves its caller's place and notices. Another caller's peek finds the same. */
static void peeks_are_no_steps(void) {
    rd_caller mine = RD_CALLER_INIT, theirs = RD_CALLER_INIT;
    rd_answer answer;
    rd_notice notice;
    uint64_t place;
    const call first = {put, 1, 0, 2, 0, 7}, second = {put, 1, 0, 3, 0, 8}, third = {look, 1, 400, 0, 0, 0};
    CHECK(CALL(rd_shared_open, rd_shared_open_names)(&setup, &mine) == RD_OK && rd_shared_another(&mine, &theirs) == RD_OK);
    CHECK(peek_shared(&mine, 1, 0, &answer) == RD_OK && answer.kind == RD_ABSENT && rd_shared_get_place(&mine, &place) == RD_OK && place == 0);
    CHECK(make_shared(&mine, &first, &answer) == RD_OK && make_shared(&mine, &second, &answer) == RD_OK && answer.notices == 1);
    CHECK(peek_shared(&mine, 1, 399, &answer) == RD_OK && answer.kind == RD_HIT && answer.token == 8 && answer.weight == 3);
    CHECK(answer.number == 0 && answer.notices == 0);
    CHECK(peek_shared(&mine, 2, 399, &answer) == RD_OK && answer.kind == RD_ABSENT && answer.token == 0);
    CHECK(get_shared_notice(&mine, 0, &notice) == RD_OK && notice.key == 1 && notice.token == 7 && notice.weight == 2 && notice.cause == RD_REPLACED);
    CHECK(rd_shared_get_place(&mine, &place) == RD_OK && place == 2);
    CHECK(peek_shared(&theirs, 1, 399, &answer) == RD_OK && answer.kind == RD_HIT && answer.token == 8);
    CHECK(rd_shared_get_place(&theirs, &place) == RD_OK && place == 0);
    /* nobody has used the entry since it was put, so it expires 400 ms later */
    CHECK(peek_shared(&theirs, 1, 400, &answer) == RD_OK && answer.kind == RD_ABSENT);
    CHECK(make_shared(&theirs, &third, &answer) == RD_OK && answer.kind == RD_ABSENT && rd_shared_get_place(&theirs, &place) == RD_OK && place == 3);
    CHECK(rd_shared_close(&mine) == RD_OK && rd_shared_close(&theirs) == RD_OK);
}

/* The numbers of all callers' calls, of one moment. Reading them has no place, and leaves the caller's notices. */
static void tells_the_numbers(void) {
    rd_caller mine = RD_CALLER_INIT, theirs = RD_CALLER_INIT;
    rd_answer answer;
    rd_numbers n, m;
    rd_notice notice;
    uint64_t place;
    const call first = {put, 1, 0, 2, 0, 7}, second = {put, 1, 0, 3, 0, 8}, hit = {look, 1, 5, 0, 0, 0}, miss = {look, 2, 6, 0, 0, 0};
    const call lead = {seek, 3, 7, 0, 0, 0};
    CHECK(CALL(rd_shared_open, rd_shared_open_names)(&setup, &mine) == RD_OK && rd_shared_another(&mine, &theirs) == RD_OK);
    memset(&m, 0, sizeof m);
    CHECK(rd_shared_get_numbers(&mine, &n) == RD_OK && !memcmp(&n, &m, sizeof n));
    CHECK(make_shared(&theirs, &hit, &answer) == RD_OK && make_shared(&theirs, &miss, &answer) == RD_OK);
    CHECK(make_shared(&mine, &first, &answer) == RD_OK && make_shared(&mine, &second, &answer) == RD_OK);
    CHECK(make_shared(&theirs, &hit, &answer) == RD_OK && make_shared(&theirs, &lead, &answer) == RD_OK && answer.kind == RD_LEAD);
    CHECK(rd_shared_get_numbers(&mine, &n) == RD_OK && n.lookups == 4 && n.hits == 1 && n.misses == 3 && n.loads == 0 && n.failed == 0);
    CHECK(n.evicted == 0 && n.entries == 1 && n.weight == 3 && n.step == 6 && n.latest == 7 && n.flights == 1);
    CHECK(rd_shared_get_numbers(&theirs, &m) == RD_OK && !memcmp(&n, &m, sizeof n));
    CHECK(rd_shared_get_place(&mine, &place) == RD_OK && place == 4 && get_shared_notice(&mine, 0, &notice) == RD_OK && notice.token == 7);
    const call fails = {failed, 3, 8, 0, answer.number, 0};
    CHECK(make_shared(&mine, &fails, &answer) == RD_OK && answer.kind == RD_FAILED && rd_shared_get_numbers(&theirs, &n) == RD_OK);
    CHECK(n.failed == 1 && n.loads == 0 && n.flights == 0 && n.step == 7 && n.latest == 8 && n.lookups == 4);
    CHECK(rd_shared_close(&theirs) == RD_OK && rd_shared_get_numbers(&theirs, &m) == RD_CLOSED && m.step == 6);
    CHECK(rd_shared_close(&mine) == RD_OK);
}

/* A caller that is closed, a name that is too long, and keys of the other kind: nothing happens. */
static void refuses_other_keys(rd_caller *caller) {
    rd_caller closed = RD_CALLER_INIT;
    rd_answer answer = {77, 0, 0, 0, 0};
    rd_notice notice;
    rd_name_notice name_notice;
    uint64_t place;
    const rd_name name = rd_name_of("a", 1), longer = {{0}, 25};
    CHECK(rd_shared_look(&closed, 1, 0, &answer) == RD_CLOSED && rd_shared_get_notice(&closed, 0, &notice) == RD_CLOSED);
    CHECK(rd_shared_look_name(&closed, &longer, 0, &answer) == RD_NAME_TOO_LONG);
    CHECK(rd_shared_look_name(&closed, &name, 0, &answer) == RD_CLOSED);
    CHECK(rd_shared_put_name(caller, &longer, (rd_token){1, 1}, 0, &answer) == RD_NAME_TOO_LONG);
    CHECK(rd_shared_peek(&closed, 1, 0, &answer) == RD_CLOSED && rd_shared_peek_name(&closed, &name, 0, &answer) == RD_CLOSED);
    CHECK(rd_shared_peek_name(&closed, &longer, 0, &answer) == RD_NAME_TOO_LONG);
#ifdef NAMES
    CHECK(rd_shared_peek(caller, 1, 0, &answer) == RD_OTHER_KEYS);
    CHECK(rd_shared_look(caller, 1, 0, &answer) == RD_OTHER_KEYS && rd_shared_get_notice(caller, 0, &notice) == RD_OTHER_KEYS);
    CHECK(rd_shared_get_notice_name(caller, 0, &name_notice) == RD_NO_SUCH_NOTICE);
#else
    CHECK(rd_shared_look_name(caller, &name, 0, &answer) == RD_OTHER_KEYS);
    CHECK(rd_shared_peek_name(caller, &name, 0, &answer) == RD_OTHER_KEYS);
    CHECK(rd_shared_get_notice_name(caller, 0, &name_notice) == RD_OTHER_KEYS);
#endif
    CHECK(CALL(rd_shared_open, rd_shared_open_names)(&setup, caller) == RD_OPEN_ALREADY);
    CHECK(rd_shared_get_place(caller, &place) == RD_OK && place == 0 && answer.kind == 77);
}

int main(int argc, char **argv) {
    if (argc < 2) return 2;
    uint64_t left = strtoull(argv[1], 0, 10), before = 0;
    rd_cache cache = RD_CACHE_INIT;
    CHECK(OPEN(&setup, &cache) == RD_OK && CALL(rd_shared_open, rd_shared_open_names)(&setup, &workers[0].caller) == RD_OK);
    refuses_other_keys(&workers[0].caller);
    peeks_are_no_steps();
    tells_the_numbers();
    for (int t = 0; t < THREADS; t++) {
        CHECK(t == 0 || rd_shared_another(&workers[0].caller, &workers[t].caller) == RD_OK);
        workers[t].rng = 88172645463325252ull + (uint64_t)t * 7919;
        workers[t].tokens = (uint64_t)t;
        workers[t].calls = malloc(ROUND / THREADS * sizeof *workers[t].calls);
        CHECK(workers[t].calls);
    }
    for (; left; left -= left < ROUND ? left : ROUND) before = round_of(left < ROUND ? left : ROUND, before, &cache, argc > 2);
    for (int t = 0; t < THREADS; t++) {
        CHECK(rd_shared_close(&workers[t].caller) == RD_OK && rd_shared_close(&workers[t].caller) == RD_CLOSED);
        free(workers[t].calls);
    }
    CHECK(rd_close(&cache) == RD_OK);
    if (argc == 2) printf("shared_calls: %llu calls of %d threads, each with a place of its own, and the answers of one cache\n", (unsigned long long)before, THREADS);
    return 0;
}
