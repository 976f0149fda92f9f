//go:build cgo && linux && amd64

package rookdresser

/*
#include "rookdresser.h"
*/
import "C"

import (
	"errors"
	"fmt"
)

// A Fault is the reason for which a call was refused, by its number in rookdresser.h. The refused call changed nothing. Test for a
// fault with errors.Is.
type Fault uint64

// The faults that a call may return.
const (
	ErrOutOfMemory    Fault = C.RD_OUT_OF_MEMORY    // the same call may succeed later
	ErrBadSetup       Fault = C.RD_BAD_SETUP        // a setting is out of its range
	ErrTooHeavy       Fault = C.RD_TOO_HEAVY        // the value weighs more than its shard's part of Bound
	ErrTooManyFlights Fault = C.RD_TOO_MANY_FLIGHTS // as many loads are open in the shard as Flights allows, and AtLimit is Refuse
	ErrStepsSpent     Fault = C.RD_STEPS_SPENT      // 2^60 steps were made
	ErrClosed         Fault = C.RD_CLOSED           // the cache is closed
)

// The faults by their names of before.
//
// Deprecated: use the names that begin with Err.
const (
	OutOfMemory    = ErrOutOfMemory
	BadSetup       = ErrBadSetup
	TooHeavy       = ErrTooHeavy
	TooManyFlights = ErrTooManyFlights
	StepsSpent     = ErrStepsSpent
	Closed         = ErrClosed
)

// Error returns the fault as a sentence.
func (f Fault) Error() string {
	switch f {
	case ErrOutOfMemory:
		return "rookdresser: out of memory"
	case ErrBadSetup:
		return "rookdresser: a setting is out of its range"
	case ErrTooHeavy:
		return "rookdresser: the value is heavier than the bound"
	case ErrTooManyFlights:
		return "rookdresser: too many loads are open"
	case ErrStepsSpent:
		return "rookdresser: 2^60 steps were made"
	case ErrClosed:
		return "rookdresser: the cache is closed"
	}
	return fmt.Sprintf("rookdresser: fault %d", uint64(f))
}

// A Cause is the reason for which an entry left.
type Cause uint32

// The causes.
const (
	Explicit Cause = C.RD_EXPLICIT // it was dropped or cleared, or the cache was closed
	Replaced Cause = C.RD_REPLACED // another value was stored under its key
	Expired  Cause = C.RD_EXPIRED  // it was too old
	Size     Cause = C.RD_SIZE     // it was evicted
)

// String returns the cause's name.
func (c Cause) String() string {
	if c < Explicit || c > Size {
		return fmt.Sprintf("Cause(%d)", uint32(c))
	}
	return [...]string{"Explicit", "Replaced", "Expired", "Size"}[c-Explicit]
}

// ErrPanicked is the error of the callers that shared a load which panicked or ended its goroutine.
var ErrPanicked = errors.New("rookdresser: the load panicked")

// ErrWaitsForItself is the error of a Get that would wait forever: a load asked for its own key, or for a key whose load in turn
// waits for this goroutine.
var ErrWaitsForItself = errors.New("rookdresser: the load of the key waits for this very call")

// ErrTimedOut is the error of all callers of a load that took longer than LoadTimeout.
var ErrTimedOut = errors.New("rookdresser: the load took longer than its time limit")

// ErrAbandoned is the error of all callers of a load that Abandon gave up.
var ErrAbandoned = errors.New("rookdresser: the load was abandoned")

// ErrNotLoaded is the error of the callers that waited for a key of another goroutine's GetMany whose fetch returned no value for it.
var ErrNotLoaded = errors.New("rookdresser: the load returned no value for the key")
