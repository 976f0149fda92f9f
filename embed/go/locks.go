//go:build cgo && linux && amd64 && !turns

package rookdresser

import (
	"sync"
	"sync/atomic"

	"rookdresser/internal/goroutine"
)

// What goroutines write beside each other. A test has types of its own, at which two goroutines take turns.
type (
	lock = sync.Mutex
	word = atomic.Uint64
)

type pointer[T any] struct{ atomic.Pointer[T] }

// hashOfGoroutine returns a number of eight bits that a goroutine keeps.
func hashOfGoroutine() uint8 { return uint8(uint64(goroutine.Current()) * 0x9e3779b97f4a7c15 >> 56) }
