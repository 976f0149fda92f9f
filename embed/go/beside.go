//go:build cgo && linux && amd64

package rookdresser

import (
	"context"
	"time"

	"rookdresser/internal/goroutine"
)

// A load beside the cache is one that a goroutine makes for itself alone, while as many loads are open as may be. The shard knows it only
// so that one that asks for its own key is told.
type besideLoad[K comparable, V any] struct {
	shard *shard[K, V]
	key   K
	begun time.Duration
	err   error
	outer *besideLoad[K, V] // another one of the goroutine's, within which it is made
}

// beginBeside returns a load beside the cache for this goroutine, or ErrWaitsForItself if it makes one of the key already. Whoever has the
// lock calls it.
func (s *shard[K, V]) beginBeside(key K, now time.Duration) (*besideLoad[K, V], error) {
	me := goroutine.Current()
	outer := s.beside[me]
	for at := outer; at != nil; at = at.outer {
		if at.key == key {
			return nil, ErrWaitsForItself
		}
	}
	if s.beside == nil {
		s.beside = map[uintptr]*besideLoad[K, V]{}
	}
	s.beside[me] = &besideLoad[K, V]{s, key, now, ErrPanicked, outer}
	s.stats.Beside++
	return s.beside[me], nil
}

// end counts the load as one of a value that isn't stored, or as failed. Its goroutine calls it, for the latest of its loads first.
func (of *besideLoad[K, V]) end(took time.Duration) {
	s, me := of.shard, goroutine.Current()
	s.mu.Lock()
	defer s.release()
	if of.outer == nil {
		delete(s.beside, me)
	} else {
		s.beside[me] = of.outer
	}
	s.stats.took(took)
	if of.err != nil {
		s.stats.Failed++
	} else {
		s.stats.Loads++
		s.stats.Loose++
	}
}

// loadBeside makes a load beside the cache.
func (c *Cache[K, V]) loadBeside(ctx context.Context, of *besideLoad[K, V], fetch fetcher[V]) (v V, err error) {
	defer func() { of.end(c.clock.elapsed() - of.begun) }()
	loading := newLoading(ctx, 1)
	defer c.limit(loading)()
	v, _, _, of.err = fetch(loading)
	return v, of.err
}

// limit has the context of loads beside the cache end after LoadTimeout, unless they end before that.
func (c *Cache[K, V]) limit(ctx *loading) (end func()) {
	if c.timeout == 0 {
		return func() {}
	}
	timer := afterFunc(c.timeout, func() { ctx.giveUp(ErrTimedOut) })
	return func() { timer.Stop() }
}
