//go:build cgo && linux && amd64

package rookdresser

import (
	"context"

	"rookdresser/internal/goroutine"
)

// An Option is a function of the caller's that a cache calls, for Open and OpenHashed.
type Option[K comparable, V any] func(*Cache[K, V])

// OnLeave has the cache call a listener for each entry that leaves, with its key, its value and the cause.
//
// The listener runs in the goroutine whose call made the entry leave, with no lock held, after the load of that call has landed. It
// may use the cache. If it panics, it is still called for the other entries, and then the call panics with the first panic's value.
// If it ends its goroutine, another goroutine calls it for the others.
func OnLeave[K comparable, V any](listener func(Left[K, V])) Option[K, V] {
	return func(c *Cache[K, V]) { c.listener = listener }
}

// Weigh has the cache weigh the values of Store, GetWith and GetManyWith. Without it each weighs 1.
//
// It runs in the goroutine that stores or loads the value, with no lock held, and may use the cache. If it panics or ends its
// goroutine, nothing is stored: in a load, that is as if fetch had.
func Weigh[K comparable, V any](weigh func(K, V) uint32) Option[K, V] {
	return func(c *Cache[K, V]) { c.weigh = weigh }
}

func (c *Cache[K, V]) weightOf(key K, v V) uint32 {
	if c.weigh == nil {
		return 1
	}
	return c.weigh(key, v)
}

// InBackground has the cache load an entry that is due by load, in a goroutine of its own: the caller that found it due gets the old value
// at once, as all others do.
//
// load is given for the whole cache, since it runs after the caller has gone on; Get and the like call their fetch only for what isn't
// there. Its context has the values of the caller's, and ends if the load is given up. Its values weigh what Weigh returns, and live
// as Life says. If load panics or ends its goroutine, it has failed, and the old value stays: nobody gets the panic, nor one of the
// listener there.
func InBackground[K comparable, V any](load func(context.Context, K) (V, error)) Option[K, V] {
	return func(c *Cache[K, V]) { c.background = load }
}

// refresh makes a load of an entry that is due in this goroutine, for which no caller waits.
func (c *Cache[K, V]) refresh(found sought[K, V], key K) {
	defer func() { _ = recover() }()
	found.lead.goroutine.Store(goroutine.Current())
	_, _ = c.lead(found, func(ctx context.Context) (V, uint32, uint32, error) {
		v, err := c.background(ctx, key)
		return c.weighed(key, v, err)
	})
}

// weighed returns what a loader returned, with the weight and the life of the value if there is one.
func (c *Cache[K, V]) weighed(key K, v V, err error) (_ V, weight, life uint32, _ error) {
	if err == nil {
		weight = c.weightOf(key, v)
		life = c.lifeOf(key, v)
	}
	return v, weight, life, err
}

// Store is Put, or PutFor, with the weight that Weigh returns and the life that Life does.
func (c *Cache[K, V]) Store(key K, v V) error {
	weight := c.weightOf(key, v)
	return c.put(key, v, weight, c.lifeOf(key, v))
}

// GetWith is Get, or GetFor, with the weight that Weigh returns and the life that Life does.
func (c *Cache[K, V]) GetWith(ctx context.Context, key K, fetch func(context.Context) (V, error)) (V, error) {
	return c.get(ctx, key, func(ctx context.Context) (V, uint32, uint32, error) {
		v, err := fetch(ctx)
		return c.weighed(key, v, err)
	})
}

// GetManyWith is GetMany with the weights that Weigh returns and the lives that Life does.
func (c *Cache[K, V]) GetManyWith(ctx context.Context, keys []K, fetch func(context.Context, []K) (map[K]V, error)) (map[K]V, error) {
	return c.getMany(ctx, keys, func(ctx context.Context, absent []K) (map[K]Weighed[V], map[K]uint32, error) {
		values, err := fetch(ctx, absent)
		weighed := make(map[K]Weighed[V], len(values))
		var lives map[K]uint32
		if c.life != nil {
			lives = make(map[K]uint32, len(values))
		}
		for key, v := range values {
			weighed[key] = Weighed[V]{v, c.weightOf(key, v)}
			if lives != nil {
				lives[key] = c.lifeOf(key, v)
			}
		}
		return weighed, lives, err
	})
}
