//go:build turns

package rookdresser

import (
	"sync"
	"sync/atomic"
)

// At each of these two goroutines of a test take turns.

type lock struct{ of sync.Mutex }

func (l *lock) Lock() {
	loseTurn(step{l, true})
	l.of.Lock()
	hold(l, true)
}

func (l *lock) TryLock() bool {
	loseTurn(step{of: l})
	taken := l.of.TryLock()
	if taken {
		hold(l, true)
	}
	return taken
}

func (l *lock) Unlock() {
	hold(l, false)
	l.of.Unlock()
}

type word struct{ of atomic.Uint64 }

func (w *word) Load() uint64 {
	loseTurn(step{of: w})
	return w.of.Load()
}

func (w *word) Store(to uint64) {
	loseTurn(step{of: w})
	w.of.Store(to)
}

func (w *word) CompareAndSwap(from, to uint64) bool {
	loseTurn(step{of: w})
	return w.of.CompareAndSwap(from, to)
}

type pointer[T any] struct{ of atomic.Pointer[T] }

func (p *pointer[T]) Load() *T {
	loseTurn(step{of: p})
	return p.of.Load()
}

func (p *pointer[T]) Store(to *T) {
	loseTurn(step{of: p})
	p.of.Store(to)
}

func (p *pointer[T]) Swap(to *T) *T {
	loseTurn(step{of: p})
	return p.of.Swap(to)
}

func (p *pointer[T]) CompareAndSwap(from, to *T) bool {
	loseTurn(step{of: p})
	return p.of.CompareAndSwap(from, to)
}

// hashOfGoroutine gives each of the two a stripe of its own.
func hashOfGoroutine() uint8 {
	if _, own := mine(); own >= 0 {
		return uint8(own)
	}
	return 0
}
