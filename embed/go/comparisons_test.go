package rookdresser

// A comparison of two keys that panics while a lock is held. Go 1.19 has no key whose comparison panics: comparable_test.go has some.

import (
	"context"
	"hash/maphash"
	"testing"
	"time"
)

// panicking has each search for a key of the hash panic, with the lock or without, since its chain isn't there, nor are those after it.
func panicking[K comparable, V any](s *shard[K, V], hash uint64) (asBefore func()) {
	all := s.table.chains.Load()
	s.table.chains.Store(&chains[K, V]{shift: all.shift, first: all.first[:all.place(hash)]})
	return func() { s.table.chains.Store(all) }
}

// isFree returns whether nobody has the shard's lock, stops its time, or keeps a stripe busy.
func isFree[K comparable, V any](s *shard[K, V]) bool {
	if !s.mu.TryLock() {
		return false
	}
	s.mu.Unlock()
	for i := range s.stripes {
		if s.stripes[i].state.Load()&isBusy != 0 {
			return false
		}
	}
	return !standsStill(s.latest.word.Load())
}

// panicOf returns what the call panics with, or nil.
func panicOf(call func()) (why any) {
	defer func() { why = recover() }()
	call()
	return nil
}

// callsOf returns each call of a key.
func callsOf[K comparable](c *Cache[K, string], key K) map[string]func() {
	return map[string]func(){
		"Look":     func() { _, _, _ = c.Look(key) },
		"Contains": func() { _ = c.Contains(key) },
		"Put":      func() { _ = c.Put(key, "", 1) },
		"PutFor":   func() { _ = c.PutFor(key, "", 1, time.Hour) },
		"Drop":     func() { _, _ = c.Drop(key) },
		"Forget":   func() { _, _ = c.Forget(key) },
		"Get":      func() { _, _ = c.Get(ctx, key, got("")) },
		"GetMany": func() {
			_, _ = c.GetMany(ctx, []K{key}, func(context.Context, []K) (map[K]Weighed[string], error) { return nil, nil })
		},
	}
}

func TestAComparisonThatPanicsGivesTheLockBackAndMovesNothing(t *testing.T) {
	for _, reads := range []Reads{Shared, Exact} {
		of, _ := timed(setup)
		of.Reads = reads
		c, err := OpenHashed[int, string](of, func(_ maphash.Seed, key int) uint64 { return uint64(key) })
		mustPut(t, err)
		mustPut(t, c.Put(1, "one", 1))
		s := c.shards[0]
		for name, call := range callsOf(c, 1) {
			before, _ := c.Numbers()
			asBefore := panicking(s, 1)
			why := panicOf(call)
			asBefore()
			if why == nil || !isFree(s) {
				t.Fatal(name, reads, "panics with", why, "and holds a lock:", !isFree(s))
			}
			if v, found, err := c.Look(1); v != "one" || !found || err != nil {
				t.Fatal(name, v, found, err)
			}
			before.Lookups, before.Hits, before.Step = before.Lookups+1, before.Hits+1, before.Step+1
			if after := holds(t, c); before != after {
				t.Fatal(name, reads, before, after)
			}
		}
		c.Close()
	}
}

func TestAComparisonThatPanicsAmongManyKeysLeavesNoLoadOpen(t *testing.T) {
	c := openHashed(t, func(_ maphash.Seed, key int) uint64 { return uint64(key) })
	asBefore := panicking(c.shards[0], 1)
	// The chains of these are one after the other.
	if panicOf(func() { _, _ = c.GetMany(ctx, []int{3, 2, 1}, nil) }) == nil {
		t.Fatal("the panic isn't passed on")
	}
	asBefore()
	if v, err := c.Get(ctx, 1, got("one")); v != "one" || err != nil {
		t.Fatal(v, err)
	}
	if n := holds(t, c); n.Failed != 2 {
		t.Fatal(n)
	}
}
