//go:build cgo && linux && amd64

package rookdresser

// A Left is an entry that left the cache.
type Left[K comparable, V any] struct {
	Key   K
	Value V
	Cause Cause
}

// Listen sets the listener of OnLeave. Call Listen before you share the cache.
//
// Deprecated: give Open an OnLeave.
func (c *Cache[K, V]) Listen(listener func(Left[K, V])) { c.listener = listener }

// tell calls the listener for each.
func (c *Cache[K, V]) tell(left []Left[K, V]) {
	var first any
	panicked := false
	for len(left) > 0 {
		rest, why, panics := c.tellUntil(left)
		if left = rest; panics && !panicked {
			first, panicked = why, true
		}
	}
	if panicked {
		panic(first)
	}
}

// tellUntil calls the listener for each until it panics, and returns the others and what it said.
func (c *Cache[K, V]) tellUntil(left []Left[K, V]) (rest []Left[K, V], why any, panics bool) {
	panics = true
	defer func() {
		if panics {
			if why = recover(); why == nil {
				// It ends this goroutine.
				c.tellElsewhere(rest)
				rest = nil
			}
		}
	}()
	for i := range left {
		rest = left[i+1:]
		c.listener(left[i])
	}
	panics = false
	return rest, nil, panics
}

// tellElsewhere calls the listener for each in goroutines that it may end, one after the other. What it says is lost.
func (c *Cache[K, V]) tellElsewhere(left []Left[K, V]) {
	for told := make(chan int); len(left) > 0; left = left[<-told:] {
		go func(left []Left[K, V]) {
			n := 0
			defer func() {
				_ = recover()
				told <- n
			}()
			for n < len(left) {
				n++
				c.listener(left[n-1])
			}
		}(left)
	}
}
