//go:build cgo && linux && amd64

package rookdresser

import (
	"context"
	"sync"
	"sync/atomic"

	"rookdresser/internal/goroutine"
)

// A leader is the goroutine that makes a load, or 0 as long as none has begun to, and whether it still does.
type leader struct {
	goroutine atomic.Uintptr
	over      atomic.Bool
}

// wait returns what the load returned, once it is over. A channel is there, since this goroutine has joined.
func (l *load[K, V]) wait(ctx context.Context) (v V, err error) {
	select {
	case <-l.done:
		return l.value, l.err
	default:
	}
	me := goroutine.Current()
	if err := waits.begin(me, &l.leader); err != nil {
		return v, err
	}
	defer waits.end(me)
	l.waiting.Add(1)
	defer l.waiting.Add(-1)
	select {
	case <-l.done:
		return l.value, l.err
	case <-ctx.Done():
		return v, endOf(ctx)
	}
}

// endOf returns why a context has ended. One that ends and has no error counts as canceled: the caller has no value.
func endOf(ctx context.Context) error {
	if err := ctx.Err(); err != nil {
		return err
	}
	return context.Canceled
}

// waits tells which goroutine waits for which. Only those that wait take its lock.
var waits = waiting{of: map[uintptr]*leader{}}

type waiting struct {
	mu sync.Mutex
	of map[uintptr]*leader
}

// begin follows who waits for whom. A circle of loads that aren't over would stay one for good.
func (w *waiting) begin(me uintptr, of *leader) error {
	w.mu.Lock()
	defer w.mu.Unlock()
	for at := of; at != nil && !at.over.Load(); at = w.of[at.goroutine.Load()] {
		if at.goroutine.Load() == me {
			return ErrWaitsForItself
		}
	}
	w.of[me] = of
	return nil
}

func (w *waiting) end(me uintptr) {
	w.mu.Lock()
	defer w.mu.Unlock()
	delete(w.of, me)
}
