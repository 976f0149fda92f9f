//go:build cgo && linux && amd64

package rookdresser

import "fmt"

// Reads says how hits are made.
type Reads uint8

// The ways in which hits are made.
const (
	// Shared lets goroutines that hit, or that put a value in place of one that never expires and weighs the same, go on beside those
	// that have the shard's lock. The library, which chooses what to evict, hears of a part of them, and somewhat later. Stats counts each.
	Shared Reads = iota
	// Exact has the library hear of each hit. Each hit takes its shard's lock.
	Exact
)

// String returns the name.
func (r Reads) String() string {
	if r > Exact {
		return fmt.Sprintf("Reads(%d)", uint8(r))
	}
	return [...]string{"Shared", "Exact"}[r]
}

// hit returns the value of the key, if a look-up or a seek surely hits, with nothing due and nothing leaving. Else the caller has the
// lock from then on, with the moment of its call, and the key's node and its number.
func (s *shard[K, V]) hit(key K, hash, moment uint64) (v V, n *node[K, V], number, now uint64, found bool) {
	if s.stripes != nil {
		if v, found = s.hitBeside(key, hash, moment); found {
			return v, nil, 0, 0, true
		}
	}
	s.mu.Lock()
	if s.stripes != nil {
		s.tellOwn()
	}
	now = s.moment(moment)
	n, number = s.find(key, hash)
	if v, found = s.sureHit(n, now); found {
		s.release()
	}
	return v, n, number, now, found
}

// hitBeside returns the value if the call surely hits, without the lock.
func (s *shard[K, V]) hitBeside(key K, hash, now uint64) (v V, found bool) {
	n := s.table.chains.Load().of(hash).Load() // as in walk, which isn't inlined
	for n != nil && !n.is(key, hash) {
		n = n.next.Load()
	}
	if n == nil {
		return v, false
	}
	of := s.sureEntry(n, now)
	if of == nil {
		return v, false
	}
	if stripe, before := s.stripes.countHit(); stripe.mayNote(before) {
		s.note(stripe, before, note{of.token, uint32(n.number)})
	}
	return of.value, true
}

// sureEntry returns the entry that a look-up at a moment surely hits, and makes the moment the latest, unless a later one is. It returns
// nil if there is no such entry, or if the time would have to move while it stands still, or beside puts in place.
//
// The call counts as at the latest moment when it read the word, or when the entry was stored, if that was later, or when it moved the
// time: the entry was there then, and had not expired.
func (s *shard[K, V]) sureEntry(n *node[K, V], now uint64) *entry[V] {
	for {
		word := s.latest.word.Load()
		of := n.entry.Load()
		latest := momentOf(word)
		switch {
		case of == nil || now >= of.until || latest >= of.until:
			return nil
		case now <= latest:
			return of
		case of.until == never || standsStill(word):
			return nil
		case s.latest.passFrom(word, now):
			return of
		}
	}
}

// putInPlace stores a value without the lock in place of one that never expires and weighs the same, and returns that one's entry; or
// nil. To the library it is a use. A put that moves the time takes the lock.
func (s *shard[K, V]) putInPlace(key K, hash uint64, v V, weight uint32, now uint64) *entry[V] {
	n := s.table.walk(key, hash)
	if n == nil || now > s.latest.moment() {
		return nil
	}
	for {
		was := n.entry.Load()
		if was == nil || was.until != never || was.weight != weight {
			return nil
		}
		if n.entry.CompareAndSwap(was, &entry[V]{v, never, weight, was.token}) {
			if stripe, before := s.stripes.countPut(); stripe.mayNote(before) {
				s.note(stripe, before, note{was.token, uint32(n.number)})
			}
			return was
		}
	}
}
