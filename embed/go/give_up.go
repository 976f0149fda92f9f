//go:build cgo && linux && amd64

package rookdresser

import "time"

// A load may end before its loader does: by LoadTimeout or by Abandon.

type timer interface{ Stop() bool }

// afterFunc is a variable since a test has the time pass by hand.
var afterFunc = func(after time.Duration, call func()) timer { return time.AfterFunc(after, call) }

// Abandon gives up the open loads of the key, and returns whether there was one. Their places are free, all their callers get
// ErrAbandoned, or the old value of an entry that was due, and the next caller loads anew. The context that fetch got ends, if fetch loads
// no other key. What fetch then returns is dropped, and counted as Late; the goroutine that made the load gets its error once fetch
// has returned. O(open loads).
func (c *Cache[K, V]) Abandon(key K) bool {
	s, hash, _ := c.enter(key)
	n, _ := s.find(key, hash)
	var left []Left[K, V]
	isOpen := false
	for l := s.loads.first; l != nil; {
		next := l.next
		if l.node == n {
			isOpen = true
			left = append(left, c.giveUp(l, ErrAbandoned)...)
		}
		l = next
	}
	s.release()
	c.tell(left)
	return isOpen
}

// timeOut gives up a load, unless it has ended. No caller is there who could get a panic of the listener.
func (c *Cache[K, V]) timeOut(l *load[K, V]) {
	var left []Left[K, V]
	l.shard.take()
	if !l.over.Load() {
		left = c.giveUp(l, ErrTimedOut)
	}
	l.shard.release()
	c.tellElsewhere(left)
}

// giveUp lands an open load as one that failed, and returns what left. Whoever has the shard's lock calls it.
func (c *Cache[K, V]) giveUp(l *load[K, V], why error) []Left[K, V] {
	s, took := l.shard, c.ageOf(l)
	s.stats.GivenUp++
	s.fail(l)
	s.end(l, &landing[V]{err: why}, took)
	s.loads.end(l, false)
	if l.timer != nil {
		l.timer.Stop()
	}
	l.ctx.giveUp(why)
	return s.left(c.listener != nil)
}
