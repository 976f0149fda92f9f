//go:build cgo && linux && amd64

package rookdresser

/*
#include "rookdresser.h"

// An adviser of the library. For Go the union is bytes, so that a call needs no check of pointers.
typedef struct {
	union { rd_adviser adviser; } of;
} advising;

// Shows the adviser look-ups, and returns how many entries it wants the windows to hold. It is opened first, if it isn't open; 0 if
// memory is refused for that.
static uint32_t advise(advising *a, uint32_t entries, const uint64_t *keys, size_t n) {
	uint32_t wanted = 0;
	if (!a->of.adviser.is_open) rd_open_adviser(entries, &a->of.adviser);
	rd_advise(&a->of.adviser, keys, n, &wanted);
	return wanted;
}

static void close_adviser(advising *a) { rd_close_adviser(&a->of.adviser); }
*/
import "C"

import (
	"sync"
	"sync/atomic"
)

// An adviser says how many entries the windows of all shards should hold together, by the look-ups of all shards. Its lock is Go's,
// so that no goroutine waits in C for another.
type adviser struct {
	wanted  atomic.Uint32 // what it said last; 0 as long as it was refused memory
	entries uint32        // of the whole cache
	mu      sync.Mutex    // of side
	side    C.advising
}

// newAdviser returns the adviser of a cache, or nil if its window is fixed. One that is refused memory is opened by a later look-up.
func newAdviser(s Setup) *adviser {
	if !s.adapts() {
		return nil
	}
	a := &adviser{entries: s.Entries}
	a.show(new(C.uint64_t), 0)
	return a
}

// show shows the adviser n look-ups, in their order.
func (a *adviser) show(keys *C.uint64_t, n C.uint64_t) {
	a.mu.Lock()
	defer a.mu.Unlock()
	if wanted := uint32(C.advise(&a.side, C.uint32_t(a.entries), keys, C.size_t(n))); wanted != 0 && wanted != a.wanted.Load() {
		a.wanted.Store(wanted)
	}
}

// close is called once no shard shows it any look-ups.
func (a *adviser) close() {
	a.mu.Lock()
	defer a.mu.Unlock()
	C.close_adviser(&a.side)
}

// follower returns the i-th of n shards' part; none if the window is fixed.
func (a *adviser) follower(i, n int) *follower {
	if a == nil {
		return nil
	}
	return &follower{adviser: a, i: uint32(i), n: uint32(n)}
}

// A follower is a shard's part of an adviser: the shard's place among all of them. The shard's lock is held in its calls.
type follower struct {
	adviser    *adviser
	i, n       uint32
	total, own uint32 // what the adviser wanted when it was last asked, and this shard's part of it
}

// wanted returns how many entries the shard's window should hold, at least one; what it is now if the adviser has never had memory.
func (f *follower) wanted(now uint32) uint32 {
	total := f.adviser.wanted.Load()
	if total == 0 {
		return now
	}
	if total != f.total {
		f.total, f.own = total, share(total, f.i, f.n)
		if f.own == 0 {
			f.own = 1
		}
	}
	return f.own
}
