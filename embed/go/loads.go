//go:build cgo && linux && amd64

package rookdresser

import (
	"context"
	"sync/atomic"
	"time"

	"rookdresser/internal/goroutine"
)

// A load is one that a goroutine makes and others may wait for.
type load[K comparable, V any] struct {
	leader
	shard        *shard[K, V]
	before, next *load[K, V] // of those that are open
	number, now  uint64
	id           uint64 // the library's, if it has heard of the load; 0 if it refused it
	ctx          *loading
	timer        timer        // nil if the load has no time limit
	begun        atomic.Int64 // by the cache's own clock; 0 as long as fetch isn't called
	waiting      atomic.Int32 // callers that wait
	isTold       bool         // whether the library has heard of it
	node         *node[K, V]
	done         chan struct{} // there is one once another goroutine has joined
	value        V             // and err are for those who joined
	err          error
}

// A landing is what a load brings.
type landing[V any] struct {
	value        V
	weight, life uint32
	err          error
}

// sought is what a seek found: a value, a load to make, with a value if it is a refresh, or a load to wait for.
type sought[K comparable, V any] struct {
	value      V
	isHit      bool
	lead, join *load[K, V]
	beside     *besideLoad[K, V] // a load to make, which is none of the cache's
	left       []Left[K, V]
}

// Get returns the key's value. If there is none, it calls fetch for the value and its weight; all goroutines that ask for the key
// meanwhile share that one load. The value's age counts from the moment of this call, not from the end of the load.
//
// The first caller that asks for an entry that is due loads it again, in its own goroutine. It gets the new value, or the old one
// if the load fails. The others get the old value meanwhile. With the option InBackground the first caller gets the old value too.
//
// ctx limits how long Get waits for another goroutine's load. The context that fetch gets has the values of ctx and doesn't end with
// it, since others may share the load. It ends if the load is given up, by the Setup's LoadTimeout or by Abandon.
//
// The error is fetch's, ctx's (context.Canceled if ctx has ended and gives none), ErrPanicked, ErrWaitsForItself, ErrNotLoaded,
// ErrTimedOut, ErrAbandoned,
// ErrOutOfMemory or ErrClosed; and ErrTooManyFlights if the Setup's AtLimit is Refuse.
func (c *Cache[K, V]) Get(ctx context.Context, key K, fetch func(context.Context) (V, uint32, error)) (V, error) {
	return c.get(ctx, key, func(ctx context.Context) (v V, weight, life uint32, err error) {
		v, weight, err = fetch(ctx)
		return v, weight, 0, err
	})
}

// A fetcher returns a value with its weight, and its life in milliseconds or 0.
type fetcher[V any] func(context.Context) (v V, weight, life uint32, err error)

func (c *Cache[K, V]) get(ctx context.Context, key K, fetch fetcher[V]) (V, error) {
	found, err := c.seek(key, ctx, nil)
	switch {
	case found.lead != nil && found.isHit && c.background != nil:
		go c.refresh(found, key)
		return found.value, nil
	case found.lead != nil:
		return c.lead(found, fetch)
	case found.beside != nil:
		c.tell(found.left)
		return c.loadBeside(ctx, found.beside, fetch)
	case found.join != nil:
		c.tell(found.left)
		return found.join.wait(ctx)
	}
	c.tell(found.left)
	return found.value, err
}

// seek counts a look-up, and says what is to do. A load that it begins is one of a batch, or gets a context of its own.
func (c *Cache[K, V]) seek(key K, ctx context.Context, b *batch[K, V]) (found sought[K, V], err error) {
	now := c.clock.now()
	s, hash := c.of(key)
	v, n, number, now, isHit := s.hit(key, hash, now)
	if isHit {
		return sought[K, V]{value: v, isHit: true}, nil
	}
	defer s.release()
	if s.surelyLeads(n) {
		s.missed(now)
		found.lead = c.beginLoad(s, s.table.hold(n, key, hash, number), now, ctx, b)
		return found, nil
	}
	fault := s.seek(n, number, now)
	isBeside := fault == ErrTooManyFlights && !s.refuses && (b == nil || b.opened == 0)
	if isBeside {
		fault = s.lib.look(number, now)
	}
	if err = s.made(fault, now); err != nil {
		return found, err
	}
	found.value, found.isHit = s.looked(now)
	if isBeside {
		found.beside, err = s.beginBeside(key, c.clock.elapsed())
	} else if s.lib.leads() {
		if found.isHit && c.background != nil {
			b = nil
		}
		found.lead = c.beginLoad(s, s.table.hold(n, key, hash, number), now, ctx, b)
		found.lead.id, found.lead.isTold = s.lib.number(), true
		if found.isHit {
			s.stats.Refreshes++
			if c.background != nil {
				found.lead.goroutine.Store(0)
			}
		}
	} else if !found.isHit {
		found.join = s.join(n)
	}
	found.left = s.left(c.listener != nil)
	return found, err
}

// seek makes a seek of the library. It has to know of the key's load, and of all loads if there are as many as there may be.
func (s *shard[K, V]) seek(n *node[K, V], number, now uint64) Fault {
	if s.loads.count == s.loads.most {
		s.tellOfLoads()
	}
	if fault := s.tellOfLoad(n); fault != 0 {
		return fault
	}
	return s.lib.seek(number, now)
}

// beginLoad opens a load, which has one of the node's uses. Whoever has the shard's lock calls it.
func (c *Cache[K, V]) beginLoad(s *shard[K, V], n *node[K, V], now uint64, ctx context.Context, b *batch[K, V]) *load[K, V] {
	of := s.loads.begin()
	of.shard, of.number, of.now, of.node = s, n.number, now, n
	of.goroutine.Store(goroutine.Current())
	if b == nil {
		of.ctx = newLoading(ctx, 1)
	} else {
		of.ctx = b.ctx
		of.ctx.loads.Add(1)
	}
	if c.timeout != 0 {
		of.timer = afterFunc(c.timeout, func() { c.timeOut(of) })
	}
	n.load = of
	return of
}

// join returns the load of the node's key that another goroutine makes.
func (s *shard[K, V]) join(n *node[K, V]) *load[K, V] {
	of := n.load
	if of.done == nil {
		of.done = make(chan struct{})
	}
	s.stats.Joins++
	return of
}

// lead makes the load. What left by the seek is told once the load has landed, so that a listener may ask for the key.
func (c *Cache[K, V]) lead(found sought[K, V], fetch fetcher[V]) (v V, err error) {
	of, begun, got := found.lead, c.clock.elapsed(), landing[V]{err: ErrPanicked}
	of.begun.Store(int64(begun))
	defer func() {
		left := of.land(&got, c.clock.elapsed()-begun, c.listener != nil)
		if v, err = got.value, got.err; found.isHit && err != nil {
			v, err = found.value, nil
		}
		c.tell(append(found.left, left...))
	}()
	got.value, got.weight, got.life, got.err = fetch(of.ctx)
	return v, err
}

// land closes a load, and returns what left. Then those who share it have its value. If it was given up, it brings no value, but why.
func (l *load[K, V]) land(got *landing[V], took time.Duration, listens bool) []Left[K, V] {
	s := l.shard
	s.take()
	defer s.release()
	if l.over.Load() {
		s.stats.Late++
		*got = landing[V]{err: l.err}
		return nil
	}
	if l.timer != nil {
		l.timer.Stop()
	}
	if got.err != nil {
		s.fail(l)
	} else {
		s.stats.Loads++
		s.store(l, got)
	}
	s.end(l, got, took)
	s.loads.end(l, l.timer == nil)
	return s.left(listens)
}

// end counts a load that has landed, and gives what it brings to those who share it.
func (s *shard[K, V]) end(l *load[K, V], got *landing[V], took time.Duration) {
	if l.node.load == l {
		l.node.load = nil
	}
	s.stats.took(took)
	l.value, l.err = got.value, got.err
	l.over.Store(true)
	if l.done != nil {
		close(l.done)
	}
}

// fail lands no value.
func (s *shard[K, V]) fail(of *load[K, V]) {
	s.stats.Failed++
	if now := s.moment(of.now); of.isTold {
		_ = s.lib.landFailed(of.id, of.number, now)
	} else {
		_ = s.lib.openAndLandFailed(of.number, now)
	}
	s.table.letGo(of.node)
}

// store lands a value. If it is stored, the load's use of the node becomes the entry's. In a closed cache there is no load to close.
func (s *shard[K, V]) store(of *load[K, V], got *landing[V]) {
	now := s.moment(of.now)
	token := s.table.keep(s.newEntry(got.value, got.weight, got.life, now), got.life, now)
	if s.land(of, got, token, now) == 0 && s.lib.isStored() {
		s.table.store(token, of.node)
		return
	}
	s.stats.Loose++
	s.table.drop(token)
	s.table.letGo(of.node)
}

func (s *shard[K, V]) land(of *load[K, V], got *landing[V], token, now uint64) Fault {
	if of.isTold {
		return s.lib.land(of.id, of.number, token, got.weight, got.life, now)
	}
	return s.lib.openAndLand(of.number, token, got.weight, got.life, now)
}
