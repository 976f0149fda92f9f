//go:build cgo && linux && amd64

package rookdresser

import (
	"context"
	"sync/atomic"
	"time"
)

// A loading context has the values of another one, and doesn't end with it. It ends once each load that is made with it was given up.
type loading struct {
	context.Context
	loads atomic.Int32 // those that weren't given up
	end   atomic.Pointer[ending]
}

// An ending is there once somebody asks for it, or once it is over.
type ending struct {
	done chan struct{}
	err  error // there once done is closed
}

func (*loading) Deadline() (end time.Time, ok bool) { return time.Time{}, false }

func (l *loading) Done() <-chan struct{} { return l.ending().done }

func (l *loading) Err() error {
	of := l.end.Load()
	if of == nil {
		return nil
	}
	select {
	case <-of.done:
		return of.err
	default:
		return nil
	}
}

func (l *loading) ending() *ending {
	if of := l.end.Load(); of != nil {
		return of
	}
	l.end.CompareAndSwap(nil, &ending{done: make(chan struct{})})
	return l.end.Load()
}

// giveUp ends the context if the load that was given up was the last one made with it.
func (l *loading) giveUp(why error) {
	if l.loads.Add(-1) > 0 {
		return
	}
	of := l.ending()
	of.err = context.Canceled
	if why == ErrTimedOut {
		of.err = context.DeadlineExceeded
	}
	close(of.done)
}

// newLoading returns a context for so many loads.
func newLoading(ctx context.Context, loads int32) *loading {
	l := &loading{Context: ctx}
	l.loads.Store(loads)
	return l
}
