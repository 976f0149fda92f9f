//go:build cgo && linux && amd64

package rookdresser

/*
// CGO_CFLAGS takes the place of Go's own -O2.
#cgo CFLAGS: -O2
#include "rookdresser.h"

enum { COPIED = 8, HITS = 32, SHOWN = 32, SLIDES = 4 };

// A look-up that the library isn't told yet.
typedef struct { uint64_t key, now; } kept_look;

// A cache of the library, what its latest call told, and the look-ups that it isn't told yet. For Go the union is bytes, so that a call
// needs no check of pointers. Each shard has one, so it is small.
typedef struct {
	union { rd_cache cache; } of;
	rd_answer answer;
	rd_notice notices[COPIED];
	uint64_t hits;
	kept_look hit[HITS];
	uint32_t window, wanted;     // how many entries the window may hold, and how many it should
	bool follows;                // whether there is an adviser, which isn't shown yet:
	uint64_t seens;              // so many look-ups and seeks, of which the cache was told
	uint64_t seen[SHOWN + HITS]; // of these keys; before a call it is shown them if they are SHOWN or more
} side;

// Keeps the keys of the look-ups for the adviser.
static void keep_hits(side *s) {
	uint64_t n = s->hits, *seen = s->seen + s->seens;
	for (uint64_t i = 0; i < n; i++) seen[i] = s->hit[i].key;
	s->seens += n;
}

// Tells the look-ups in their order. After one that is refused memory, which was served all the same, it goes on with the next.
static void tell_looks(side *s) {
	rd_looked looks[HITS];
	uint64_t made = 0;
	for (uint64_t i = 0; i < s->hits; i++) looks[i].key = s->hit[i].key, looks[i].now = s->hit[i].now;
	for (uint64_t from = 0; from < s->hits; from += made)
		if (rd_look_many(&s->of.cache, looks + from, s->hits - from, &made) >= RD_CLOSED) break;
	s->hits = 0;
}

// Tells them before each other call.
static rd_cache *at(side *s) {
	if (s->follows) keep_hits(s);
	if (s->hits) tell_looks(s);
	return &s->of.cache;
}

// The same, before a call that looks up, seeks, puts or lands: it then moves the window's border by up to four entries. The notices of
// the call before have been read. The slides are made at the latest moment, so that a call that is refused moves no time. After one
// that is refused memory, a later call goes on.
static rd_cache *at_border(side *s) {
	rd_cache *cache = at(s);
	rd_answer slid;
	for (int i = 0; i < SLIDES && s->window != s->wanted; i++) {
		if (rd_slide(cache, s->window < s->wanted, 0, &slid) || !slid.number) break;
		s->window += s->window < s->wanted ? 1 : -1;
	}
	return cache;
}

// The same, before a look-up or a seek of a key.
static rd_cache *at_look(side *s, uint64_t key) {
	rd_cache *cache = at_border(s);
	if (s->follows) s->seen[s->seens++] = key;
	return cache;
}

// Copies notices of the latest call, from one on, until the next would need the place of the first.
static void copy_notices(side *s, uint64_t from) {
	for (uint64_t i = from; i < s->answer.notices && (i == from || i % COPIED != 0); i++)
		rd_get_notice(&s->of.cache, i, &s->notices[i % COPIED]);
}

// Ends each call below, so that it takes one crossing with the first notices. A refused call told none.
static uint64_t told(side *s, uint64_t fault) {
	if (fault) s->answer.notices = 0;
	copy_notices(s, 0);
	return fault;
}

// The same of a call that has handed its first notice back.
static uint64_t told_with_notice(side *s, uint64_t fault) {
	if (fault) s->answer.notices = 0;
	copy_notices(s, 1);
	return fault;
}

static uint64_t open_side(const rd_setup *setup, bool follows, side *s) {
	s->window = s->wanted = setup->window;
	s->follows = follows;
	return rd_open(setup, &s->of.cache);
}

static uint64_t close_side(side *s) {
	rd_cache *cache = at(s);
	s->window = s->wanted = 0;
	s->follows = false;
	return rd_close(cache);
}

static uint64_t numbers_of(side *s, rd_numbers *n) { return rd_get_numbers(at(s), n); }
static uint64_t look(side *s, uint64_t key, uint64_t now) { return told(s, rd_look(at_look(s, key), key, now, &s->answer)); }
static uint64_t seek(side *s, uint64_t key, uint64_t now) { return told(s, rd_seek(at_look(s, key), key, now, &s->answer)); }
static uint64_t forget(side *s, uint64_t key, uint64_t now) { return told(s, rd_forget(at(s), key, now, &s->answer)); }
static uint64_t clear(side *s, uint64_t now) { return told(s, rd_clear(at(s), now, &s->answer)); }
static uint64_t clean(side *s, uint64_t now) { return told(s, rd_clean(at(s), now, &s->answer)); }

static uint64_t drop(side *s, uint64_t key, uint64_t now) {
	return told_with_notice(s, rd_drop_key_with_notice(at(s), key, now, &s->answer, s->notices));
}

static uint64_t put(side *s, uint64_t key, uint64_t token, uint32_t weight, uint32_t life, uint64_t now) {
	return told_with_notice(s, rd_put_for(at_border(s), key, (rd_token){token, weight}, life, now, &s->answer, s->notices));
}

static void tell_hits(side *s) { at_border(s); }

// Makes the seek of a load of which the cache hasn't heard, and opens it.
static uint64_t open_load(side *s, uint64_t key, uint64_t now) { return rd_seek(at_look(s, key), key, now, &s->answer); }

static uint64_t land_failed(side *s, uint64_t id, uint64_t key, uint64_t now) {
	return told(s, rd_land_failed(at_border(s), id, key, now, &s->answer));
}

// Where memory is refused the value isn't stored, and the load is closed.
static uint64_t land(side *s, uint64_t id, uint64_t key, uint64_t token, uint32_t weight, uint32_t life, uint64_t now) {
	if (!rd_land_for(at_border(s), id, key, (rd_token){token, weight}, life, now, &s->answer, s->notices)) return told_with_notice(s, 0);
	return told(s, rd_land_loose(at(s), id, key, now, &s->answer));
}

// The same of a load of which the cache hasn't heard: its seek, and then its landing. A seek that is refused leaves nothing to land.
static uint64_t open_and_land_failed(side *s, uint64_t key, uint64_t now) {
	uint64_t fault = open_load(s, key, now);
	return fault ? told(s, fault) : land_failed(s, s->answer.number, key, now);
}

static uint64_t open_and_land(side *s, uint64_t key, uint64_t token, uint32_t weight, uint32_t life, uint64_t now) {
	uint64_t fault = open_load(s, key, now);
	return fault ? told(s, fault) : land(s, s->answer.number, key, token, weight, life, now);
}
*/
import "C"

import "fmt"

// A library is one of its caches, whose calls are made one at a time. Each leaves its answer and its notices until the next one. Its
// window follows an adviser, or is fixed if by is nil.
type library struct {
	side *C.side
	by   *follower
}

// rightLibrary returns an error if the library is of another version than the header by which this module was compiled.
func rightLibrary() error {
	if C.rd_is_this_version() {
		return nil
	}
	return fmt.Errorf("rookdresser: librookdresser is of version %s, and this module is of %s", version(uint64(C.rd_version())), version(C.RD_VERSION))
}

func version(of uint64) string {
	return fmt.Sprintf("%d.%d.%d", of/1_000_000, of/1_000%1_000, of%1_000)
}

func openLibrary(s Setup, by *follower) (library, Fault) {
	l := library{new(C.side), by}
	if by != nil {
		s.Window = by.wanted(s.Window)
	}
	setup := setupOf(s)
	return l, Fault(C.open_side(&setup, by != nil, l.side))
}

func setupOf(s Setup) C.rd_setup {
	return C.rd_setup{
		entries: C.uint32_t(s.Entries), window: C.uint32_t(s.Window), flights: C.uint32_t(s.Flights), bound: C.uint64_t(s.Bound),
		after_write: C.uint64_t(wholeMilliseconds(s.AfterWrite)), after_access: C.uint64_t(wholeMilliseconds(s.AfterAccess)),
		refresh: C.uint64_t(wholeMilliseconds(s.Refresh)),
	}
}

// ready returns the side, for each call of C but the last. The adviser is shown the look-ups that it should see by now, and the window
// will move towards what it wants.
func (l library) ready() *C.side {
	if l.by != nil {
		if l.side.seens >= C.SHOWN {
			l.by.adviser.show(&l.side.seen[0], l.side.seens)
			l.side.seens = 0
		}
		l.side.wanted = C.uint32_t(l.by.wanted(uint32(l.side.wanted)))
	}
	return l.side
}

// window returns how many entries the window may hold now; none in a closed cache.
func (l library) window() uint32 { return uint32(l.side.window) }

// queue keeps a look-up of which the caller knows what it finds: an entry that stays, or none. There is no answer of it.
func (l library) queue(key, now uint64) {
	at := &l.side.hit[l.side.hits]
	at.key, at.now = C.uint64_t(key), C.uint64_t(now)
	if l.side.hits++; l.side.hits == C.HITS {
		C.tell_hits(l.ready())
	}
}

func (l library) look(key, now uint64) Fault {
	return Fault(C.look(l.ready(), C.uint64_t(key), C.uint64_t(now)))
}

func (l library) seek(key, now uint64) Fault {
	return Fault(C.seek(l.ready(), C.uint64_t(key), C.uint64_t(now)))
}

// put stores a value with a life in milliseconds, or with none if that is 0.
func (l library) put(key, token uint64, weight, life uint32, now uint64) Fault {
	return Fault(C.put(l.ready(), C.uint64_t(key), C.uint64_t(token), C.uint32_t(weight), C.uint32_t(life), C.uint64_t(now)))
}

// land closes a load with a value, and isStored says whether it was stored then.
func (l library) land(id, key, token uint64, weight, life uint32, now uint64) Fault {
	return Fault(C.land(l.ready(), C.uint64_t(id), C.uint64_t(key), C.uint64_t(token), C.uint32_t(weight), C.uint32_t(life), C.uint64_t(now)))
}

func (l library) landFailed(id, key, now uint64) Fault {
	return Fault(C.land_failed(l.ready(), C.uint64_t(id), C.uint64_t(key), C.uint64_t(now)))
}

// openLoad makes the seek of a load, which nothing joins and for which there is room.
func (l library) openLoad(key, now uint64) Fault {
	return Fault(C.open_load(l.ready(), C.uint64_t(key), C.uint64_t(now)))
}

// openAndLand is openLoad and then land, in one crossing.
func (l library) openAndLand(key, token uint64, weight, life uint32, now uint64) Fault {
	return Fault(C.open_and_land(l.ready(), C.uint64_t(key), C.uint64_t(token), C.uint32_t(weight), C.uint32_t(life), C.uint64_t(now)))
}

// openAndLandFailed is openLoad and then landFailed, in one crossing.
func (l library) openAndLandFailed(key, now uint64) Fault {
	return Fault(C.open_and_land_failed(l.ready(), C.uint64_t(key), C.uint64_t(now)))
}

func (l library) drop(key, now uint64) Fault {
	return Fault(C.drop(l.ready(), C.uint64_t(key), C.uint64_t(now)))
}

func (l library) forget(key, now uint64) Fault {
	return Fault(C.forget(l.ready(), C.uint64_t(key), C.uint64_t(now)))
}

func (l library) clear(now uint64) Fault { return Fault(C.clear(l.ready(), C.uint64_t(now))) }
func (l library) clean(now uint64) Fault { return Fault(C.clean(l.ready(), C.uint64_t(now))) }
func (l library) close() Fault           { return Fault(C.close_side(l.side)) }

// What the latest call answered, if it wasn't refused.

func (l library) isHit() bool {
	return l.side.answer.kind == C.RD_HIT || l.side.answer.kind == C.RD_HIT_LEAD
}

func (l library) leads() bool {
	return l.side.answer.kind == C.RD_LEAD || l.side.answer.kind == C.RD_HIT_LEAD
}

func (l library) isStored() bool { return l.side.answer.kind == C.RD_KEPT }
func (l library) token() uint64  { return uint64(l.side.answer.token) }
func (l library) number() uint64 { return uint64(l.side.answer.number) }

// notices returns how many entries the latest call told to have left.
func (l library) notices() uint64 { return uint64(l.side.answer.notices) }

// notice returns the token and the cause of one of them. They are read in turn, from 0.
func (l library) notice(i uint64) (uint64, Cause) {
	if i > 0 && i%C.COPIED == 0 {
		C.copy_notices(l.side, C.uint64_t(i))
	}
	n := &l.side.notices[i%C.COPIED]
	return uint64(n.token), Cause(n.cause)
}

func (l library) numbers() (Numbers, Fault) {
	var n C.rd_numbers
	fault := Fault(C.numbers_of(l.ready(), &n))
	if fault != 0 {
		return Numbers{}, fault
	}
	return Numbers{
		uint64(n.lookups), uint64(n.hits), uint64(n.misses), uint64(n.loads), uint64(n.failed), uint64(n.evicted),
		uint64(n.entries), uint64(n.weight), uint64(n.step), uint64(n.latest), uint64(n.flights),
	}, 0
}
