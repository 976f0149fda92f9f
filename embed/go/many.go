//go:build cgo && linux && amd64

package rookdresser

import (
	"context"
	"errors"
	"time"
)

// A Weighed is a value and its weight, as the fetch of a GetMany returns it.
type Weighed[V any] struct {
	Value  V
	Weight uint32
}

// GetMany returns the values of several keys. One call of fetch loads all keys that are absent or due and that no other call loads,
// or several calls do if they are more than Flights; goroutines that ask for these keys meanwhile share the loads. Then GetMany
// waits for the keys that other calls load. If other calls have as many loads open as may be, it loads the keys beside the cache,
// unless the Setup's AtLimit is Refuse.
//
// If fetch returns no value for a key, the map doesn't have it, and an entry that was due stays. Others that wait for such a key get
// ErrNotLoaded. The error is the first of those that Get may return; the map then has the values that were found all the same. ctx
// is as in Get.
func (c *Cache[K, V]) GetMany(
	ctx context.Context, keys []K, fetch func(context.Context, []K) (map[K]Weighed[V], error),
) (map[K]V, error) {
	return c.getMany(ctx, keys, func(ctx context.Context, absent []K) (map[K]Weighed[V], map[K]uint32, error) {
		fetched, err := fetch(ctx, absent)
		return fetched, nil, err
	})
}

// A manyFetcher returns values with their weights, and the lives of those that have one.
type manyFetcher[K comparable, V any] func(context.Context, []K) (map[K]Weighed[V], map[K]uint32, error)

func (c *Cache[K, V]) getMany(ctx context.Context, keys []K, fetch manyFetcher[K, V]) (map[K]V, error) {
	found := make(map[K]V, len(keys))
	var joined []join[K, V]
	var first error
	for len(keys) > 0 && first == nil {
		b := batch[K, V]{found: found}
		keys, first = c.makeBatch(ctx, &b, keys, fetch)
		joined = append(joined, b.joined...)
	}
	for _, j := range joined {
		v, err := j.load.wait(ctx)
		if err == nil {
			found[j.key] = v
		} else if first == nil && !errors.Is(err, ErrNotLoaded) {
			first = err
		}
	}
	return found, first
}

type join[K comparable, V any] struct {
	key  K
	load *load[K, V]
}

// A batch is what one call of fetch loads, with what left as it was begun, and what others load.
type batch[K comparable, V any] struct {
	ctx    *loading
	found  map[K]V
	absent []K
	leads  []*load[K, V]       // of each absent key, or nil if it is loaded beside the cache
	beside []*besideLoad[K, V] // or else this
	got    []landing[V]        // for each
	opened int                 // how many aren't beside
	failed error               // what fetch returned
	left   []Left[K, V]
	joined []join[K, V]
}

// makeBatch begins loads of the keys and makes them, and returns the keys that are left to seek. The time of a batch is counted
// once. If a hash, a clock or fetch panics, the loads that were begun end.
func (c *Cache[K, V]) makeBatch(ctx context.Context, b *batch[K, V], keys []K, fetch manyFetcher[K, V]) (rest []K, err error) {
	begun := c.clock.elapsed()
	b.ctx = newLoading(ctx, 1) // this goroutine has it too, until all loads are begun
	defer func() {
		failed := b.end(c.clock.elapsed()-begun, c.listener != nil)
		if err == nil {
			err = failed
		}
		c.tell(b.left)
	}()
	if rest, err = c.begin(b, keys); len(b.absent) == 0 {
		return rest, err
	}
	for _, of := range b.leads {
		if of != nil {
			of.begun.Store(int64(begun))
		}
	}
	if b.opened == len(b.absent) {
		b.ctx.giveUp(nil)
	} else {
		defer c.limit(b.ctx)()
	}
	b.load(fetch(b.ctx, append([]K(nil), b.absent...)))
	return rest, err
}

// begin seeks the keys, up to one that finds too many loads open if the batch has some, and returns the rest of them.
func (c *Cache[K, V]) begin(b *batch[K, V], keys []K) ([]K, error) {
	for i, key := range keys {
		if b.loadsBeside(key) {
			continue
		}
		at, err := c.seek(key, b.ctx.Context, b)
		if errors.Is(err, ErrTooManyFlights) && len(b.absent) > 0 {
			return keys[i:], nil
		}
		b.left, at.left = append(b.left, at.left...), nil
		if err != nil {
			return nil, err
		}
		if at.isHit {
			b.found[key] = at.value
		}
		if at.lead != nil && at.isHit && c.background != nil {
			go c.refresh(at, key)
			continue
		}
		if at.lead != nil || at.beside != nil {
			b.absent, b.leads, b.beside = append(b.absent, key), append(b.leads, at.lead), append(b.beside, at.beside)
			b.got = append(b.got, landing[V]{err: ErrPanicked})
		}
		if at.lead != nil {
			b.opened++
		} else if at.join != nil {
			b.joined = append(b.joined, join[K, V]{key, at.join})
		}
	}
	return nil, nil
}

// loadsBeside returns whether the batch loads a key beside the cache already.
func (b *batch[K, V]) loadsBeside(key K) bool {
	for _, of := range b.beside {
		if of != nil && of.key == key {
			return true
		}
	}
	return false
}

// load keeps what was fetched.
func (b *batch[K, V]) load(fetched map[K]Weighed[V], lives map[K]uint32, failed error) {
	b.failed = failed
	for i, key := range b.absent {
		if got, there := fetched[key]; failed != nil {
			b.got[i].err = failed
		} else if there {
			b.got[i] = landing[V]{got.Value, got.Weight, lives[key], nil}
		} else {
			b.got[i].err = ErrNotLoaded
		}
	}
}

// end lands all loads, which took so long together, and returns why they failed if a key has no old value either.
func (b *batch[K, V]) end(took time.Duration, listens bool) (err error) {
	for i, key := range b.absent {
		got := &b.got[i]
		if of := b.leads[i]; of != nil {
			b.left = append(b.left, of.land(got, took, listens)...)
			took = isCounted
		}
		if got.err == nil {
			b.found[key] = got.value
		} else if _, old := b.found[key]; !old && err == nil && (got.err != ErrNotLoaded || b.failed != nil) {
			err = got.err
		}
	}
	for i := len(b.beside) - 1; i >= 0; i-- {
		if of := b.beside[i]; of != nil {
			of.err = b.got[i].err
			of.end(took)
			took = isCounted
		}
	}
	return err
}
