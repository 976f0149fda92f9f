//go:build cgo && linux && amd64

package rookdresser

import (
	"context"
	"math"
	"time"
)

// Forever is a life that is none.
const Forever time.Duration = math.MaxInt64

// Life has the cache give the values of Store, GetWith and GetManyWith a life, as PutFor does. Without it they have none.
//
// It runs where Weigh's function does, after it, and may do the same.
func Life[K comparable, V any](life func(K, V) time.Duration) Option[K, V] {
	return func(c *Cache[K, V]) { c.life = life }
}

func (c *Cache[K, V]) lifeOf(key K, v V) uint32 {
	if c.life == nil {
		return 0
	}
	return milliseconds(c.life(key, v))
}

// milliseconds returns a life as the library has it, 0 being none.
func milliseconds(life time.Duration) uint32 {
	if life <= 0 {
		return 1
	}
	if whole := wholeMilliseconds(life); whole <= math.MaxUint32 {
		return uint32(whole)
	}
	return 0
}

// PutFor is Put, and gives the entry a life: it expires as its life ends, which begins with this call, or earlier by AfterWrite or
// AfterAccess. No use lengthens it. The next store of the key gives its entry another life, or none.
//
// A life counts in whole milliseconds, rounded up. 0 and what is negative count as one; more than 2^32 - 1, which are 49 days, as none,
// so Forever is none.
func (c *Cache[K, V]) PutFor(key K, v V, weight uint32, life time.Duration) error {
	c.clock.start()
	return c.put(key, v, weight, milliseconds(life))
}

// GetFor is Get, and gives a value that it loads the life that fetch returns, as PutFor does. It begins with this call, as the value's
// age does.
func (c *Cache[K, V]) GetFor(ctx context.Context, key K, fetch func(context.Context) (V, uint32, time.Duration, error)) (V, error) {
	c.clock.start()
	return c.get(ctx, key, func(ctx context.Context) (v V, weight, life uint32, err error) {
		v, weight, duration, err := fetch(ctx)
		return v, weight, milliseconds(duration), err
	})
}
