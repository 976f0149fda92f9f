//go:build cgo && linux && amd64

// Package rookdresser is a loading cache for many goroutines: the proved sequential cache of librookdresser behind locks, for Go
// values under Go keys. The package itself is tested, not proved. CGO_CFLAGS and CGO_LDFLAGS name the header's folder and the
// library.
package rookdresser

import (
	"context"
	"hash/maphash"
	"math/bits"
	"time"
)

// A Cache holds values of type V by keys of type K, for many goroutines.
//
// A call with a key locks the key's shard for one step, expected O(1), and up to four slides of its window's border. Most hits, and
// puts in place of a value, take no lock: see Reads. Each 32 look-ups of which the library of a shard hears are shown to the cache's
// adviser, under a lock of its own. The other calls lock all shards, one after another, so with several shards they
// aren't one step. No code of yours runs while a lock is held. A call that returns a Fault has changed nothing in the shard that
// refused it, but for the slides.
type Cache[K comparable, V any] struct {
	shards   []*shard[K, V]
	adviser  *adviser // nil if the window is fixed
	hash     hasher[K]
	clock    clock
	listener func(Left[K, V])
	weigh    func(K, V) uint32
	life     func(K, V) time.Duration
	setup    Setup
	timeout  time.Duration // of a load; 0 is none
	// Loads an entry that is due; nil if its caller does.
	background func(context.Context, K) (V, error)
}

// Open returns an empty cache. If a setting is out of its range, the error is ErrBadSetup and gives its name, its value and the range;
// if an allocation fails, ErrOutOfMemory. The collector can't free the cache, whose memory is C's: call Close.
func Open[K Key, V any](s Setup, options ...Option[K, V]) (*Cache[K, V], error) {
	return newCache(s, hasherOfKind[K](s.Seeded), options)
}

// OpenHashed opens a cache for keys of any comparable type, as Open does, with a hash: maphash.Comparable[K] of Go 1.24, or yours.
//
// Equal keys need equal hashes under one seed. Keys of one hash remain different keys, but many of them are slow. The seed is
// random and the cache's own: if the hash depends on it, an attacker who chooses keys can't aim at the library's tables.
func OpenHashed[K comparable, V any](s Setup, hash func(maphash.Seed, K) uint64, options ...Option[K, V]) (*Cache[K, V], error) {
	if hash == nil {
		return nil, badSetup("hash is nil, and has to be a function")
	}
	return newCache(s, hasher[K]{own: hash, seed: maphash.MakeSeed()}, options)
}

func newCache[K comparable, V any](s Setup, hash hasher[K], options []Option[K, V]) (*Cache[K, V], error) {
	if err := rightLibrary(); err != nil {
		return nil, err
	}
	parts, err := s.parts()
	if err != nil {
		return nil, err
	}
	// The clock is the caller's, and may panic.
	c := &Cache[K, V]{hash: hash, setup: s, timeout: s.LoadTimeout, clock: clock{began: time.Now(), given: s.Clock}}
	if s.AfterWrite != 0 || s.AfterAccess != 0 || s.Refresh != 0 {
		c.clock.start()
	}
	for _, option := range options {
		option(c)
	}
	if c.life != nil {
		c.clock.start()
	}
	c.adviser = newAdviser(s)
	for i, part := range parts {
		lib, fault := openLibrary(part, c.adviser.follower(i, len(parts)))
		if fault != 0 {
			c.Close()
			return nil, fault
		}
		c.shards = append(c.shards, newShard[K, V](part, lib))
	}
	return c, nil
}

// of returns the key's shard and hash.
func (c *Cache[K, V]) of(key K) (*shard[K, V], uint64) {
	hash := c.hash.of(key)
	if len(c.shards) == 1 {
		return c.shards[0], hash
	}
	// Numbers that are close together are spread by the golden ratio.
	i, _ := bits.Mul64(hash*0x9e3779b97f4a7c15, uint64(len(c.shards)))
	return c.shards[i], hash
}

// Close frees the cache, and reports all remaining entries to the listener, as Explicit. Closing it again does nothing.
func (c *Cache[K, V]) Close() {
	var left []Left[K, V]
	for _, s := range c.shards {
		left = append(left, s.close(c.listener != nil)...)
	}
	if c.adviser != nil {
		c.adviser.close()
	}
	c.tell(left)
}

// Look returns the value under the key and whether it was there. It never loads. A hit is a use of the entry. The error is ErrClosed
// or ErrOutOfMemory.
func (c *Cache[K, V]) Look(key K) (v V, found bool, err error) {
	now := c.clock.now()
	s, hash := c.of(key)
	v, n, number, now, found := s.hit(key, hash, now)
	if found {
		return v, true, nil
	}
	if s.surelyMisses(n) {
		s.missed(now)
		s.lib.queue(number, now)
		s.release()
		return v, false, nil
	}
	if err = s.made(s.lib.look(number, now), now); err == nil {
		v, found = s.looked(now)
	}
	return v, found, c.leave(s, err)
}

// Contains returns whether Look would find the key. It counts neither a look-up nor a use of the entry. It finds nothing in a
// closed cache.
func (c *Cache[K, V]) Contains(key K) bool {
	s, hash, now := c.enter(key)
	defer s.release()
	return s.isThere(s.table.walk(key, hash), now)
}

// Keys returns the keys that Look would find, in no particular order. It counts neither look-ups nor uses. O(entries).
func (c *Cache[K, V]) Keys() (keys []K) {
	now := c.clock.now()
	for _, s := range c.shards {
		keys = s.keys(keys, now)
	}
	return keys
}

// Put stores the value under the key, in place of one that is there. If the cache is full, the entry that leaves may be the new one
// itself, if the others are used more. The error is ErrClosed, ErrTooHeavy or ErrOutOfMemory.
func (c *Cache[K, V]) Put(key K, v V, weight uint32) error { return c.put(key, v, weight, 0) }

func (c *Cache[K, V]) put(key K, v V, weight, life uint32) error {
	now := c.clock.now()
	s, hash := c.of(key)
	if life == 0 && s.stripes != nil {
		if replaced := s.putInPlace(key, hash, v, weight, now); replaced != nil {
			if c.listener != nil {
				c.tell([]Left[K, V]{{key, replaced.value, Replaced}})
			}
			return nil
		}
	}
	s.take()
	return c.leave(s, s.put(key, hash, v, weight, life, s.moment(now)))
}

// Drop removes the key's entry, and returns whether there was one. An open load of the key will store nothing. The error is ErrClosed.
func (c *Cache[K, V]) Drop(key K) (bool, error) {
	s, hash, now := c.enter(key)
	n, number := s.find(key, hash)
	_ = s.tellOfLoad(n)
	err := s.made(s.lib.drop(number, now), now)
	there := err == nil && s.lib.number() == 1
	return there, c.leave(s, err)
}

// Forget lets no further caller join an open load of the key, which will store nothing, and returns whether there was one. The
// error is ErrClosed.
func (c *Cache[K, V]) Forget(key K) (bool, error) {
	s, hash, now := c.enter(key)
	n, number := s.find(key, hash)
	_ = s.tellOfLoad(n)
	err := s.made(s.lib.forget(number, now), now)
	there := err == nil && s.lib.number() == 1
	return there, c.leave(s, err)
}

// Clear removes every entry. The open loads will store nothing. O(entries). The error is ErrClosed.
func (c *Cache[K, V]) Clear() error { return c.sweep(library.clear) }

// Clean removes every expired entry. O(entries). The error is ErrClosed.
func (c *Cache[K, V]) Clean() error { return c.sweep(library.clean) }

func (c *Cache[K, V]) sweep(call func(library, uint64) Fault) (err error) {
	now := c.clock.now()
	var left []Left[K, V]
	for _, s := range c.shards {
		s.take()
		now := s.moment(now)
		s.tellOfLoads()
		if fault := s.made(call(s.lib, now), now); fault != nil {
			err = fault
		}
		left = append(left, s.left(c.listener != nil)...)
		s.release()
	}
	c.tell(left)
	return err
}

// enter takes the key's shard alone, and returns the key's hash and the moment. What may be the caller's is called before.
func (c *Cache[K, V]) enter(key K) (s *shard[K, V], hash, now uint64) {
	now = c.clock.now()
	s, hash = c.of(key)
	s.take()
	return s, hash, s.moment(now)
}

// leave gives the lock back, and then tells the listener what the call told to have left.
func (c *Cache[K, V]) leave(s *shard[K, V], err error) error {
	left := s.left(c.listener != nil)
	s.release()
	c.tell(left)
	return err
}
