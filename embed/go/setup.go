//go:build cgo && linux && amd64

package rookdresser

import (
	"fmt"
	"runtime"
	"sync"
	"sync/atomic"
	"time"
)

// A Setup has the settings of a cache. Entries, Window and Bound are for the whole cache; each shard gets an equal part. A duration
// counts in whole milliseconds, rounded up; 0 means never.
type Setup struct {
	Entries uint32 // how many the cache may hold: 1 to 65,536 for each shard, and so at most 268,435,456
	// How many parts it has, each with a lock of its own: 1 to 4,096. 0 stands for one for each 65,536 entries; or, if the windows follow, for
	// eight for each of GOMAXPROCS, but so few that each has 128 entries and may weigh 128. A part that is full evicts though another may
	// have room, and a value that weighs more than a part may isn't stored: Shards: 1 lets one value weigh all of Bound.
	Shards  uint32
	Window  uint32 // how many of the entries the windows may hold, for good: 1 to Entries; 0 leaves it to Adaptive
	Flights uint32 // how many loads may be open in a shard: 1 to 4,096; 0 stands for 1,024
	// AtLimit says what a miss does while as many loads are open in its shard: LoadBeside, the zero value, or Refuse.
	AtLimit AtLimit
	Bound   uint64 // how much the entries may weigh together: 1 to 2^48 for each shard; 0 stands for 2^48 each
	// How long after its last write, and after its last use, an entry expires. It is never returned from then on, but stays until
	// something removes it: docs/GUIDE.md, 'Entries that have expired', says what does.
	AfterWrite, AfterAccess time.Duration
	// How long after its last write an entry is due for another load: less than AfterWrite, if both are set.
	Refresh time.Duration
	// How long a load may take before it is given up: its place is free, its callers get ErrTimedOut, the context that fetch got ends, and
	// the next caller loads anew. What fetch then returns is dropped. It counts by Go's own clock. 0 means forever.
	LoadTimeout time.Duration
	// Clock returns the moment of a call. It is called only if a duration is set or once a value gets a life, by many goroutines at
	// once and with no lock held. nil stands for the time since Open, which doesn't jump. A moment before the latest one counts as the
	// latest.
	Clock func() time.Time
	// Seeded says whether keys that are numbers are hashed under a random seed of the cache's own, as strings always are. Then an
	// attacker who chooses keys can't aim at the library's tables.
	Seeded bool
	// Adaptive says whether the windows follow the stream of look-ups: On, which takes 64 to 4,194,304 Entries and no Window; Off, by
	// which they stay at Window or else at a hundredth of the entries; Default, which is On where that may be.
	Adaptive Choice
	// Reads says whether goroutines that hit wait for each other: Shared, the zero value, or Exact.
	Reads Reads
}

// A Choice is a setting that is on, off or, as the zero value, left to the package: a bool would have no value for that.
type Choice uint8

// The choices.
const (
	Default Choice = iota
	On
	Off
)

// String returns the choice's name.
func (c Choice) String() string {
	if c > Off {
		return fmt.Sprintf("Choice(%d)", uint8(c))
	}
	return [...]string{"Default", "On", "Off"}[c]
}

// AtLimit says what a miss does while as many loads are open in its shard as Flights allows.
type AtLimit uint8

// What a miss may do then.
const (
	// LoadBeside has the caller load the value for itself: nobody shares the load, and its value isn't stored. So a source that hangs for
	// some keys is no outage for the others. If all miss at once, as many calls reach the source as there are callers.
	LoadBeside AtLimit = iota
	// Refuse returns ErrTooManyFlights, and spares the source.
	Refuse
)

// String returns the name.
func (a AtLimit) String() string {
	if a > Refuse {
		return fmt.Sprintf("AtLimit(%d)", uint8(a))
	}
	return [...]string{"LoadBeside", "Refuse"}[a]
}

const (
	mostEntries  = 65_536 // of a shard
	leastEntries = 128    // of one of several, by default, and the least that one may weigh
	mostShards   = 4096
	// By default, if there are as many entries.
	shardsOfProcessor = 8
	mostFlights       = 4096    // of a shard
	mostWeight        = 1 << 48 // of a shard
	// The entries of a whole cache whose window may follow.
	leastAdaptive, mostAdaptive = 64, 64 * 65_536
)

// parts returns the setup of each shard, or an error that is ErrBadSetup and says which setting is out of its range.
func (s Setup) parts() ([]Setup, error) {
	if err := s.check(); err != nil {
		return nil, err
	}
	n := s.shards()
	parts := make([]Setup, n)
	for i := range parts {
		parts[i] = s.part(uint32(i), n)
	}
	return parts, nil
}

// shards returns how many shards the cache gets.
func (s Setup) shards() uint32 {
	if s.Shards != 0 {
		return s.Shards
	}
	n := (s.Entries-1)/mostEntries + 1
	if wanted := s.shardsForProcessors(); n < wanted {
		n = wanted
	}
	if n > mostShards {
		return mostShards
	}
	return n
}

// shardsForProcessors returns in how many shards goroutines seldom meet, if that costs few hits; else 1. A window of a hundredth of a
// small shard is too little for bursts. A Bound is divided too: if each entry weighs 1 or more, it may be what limits their number.
func (s Setup) shardsForProcessors() uint32 {
	if !s.adapts() {
		return 1
	}
	n := uint64(runtime.GOMAXPROCS(0)) * shardsOfProcessor
	if most := uint64(s.Entries) / leastEntries; n > most {
		n = most
	}
	if most := s.Bound / leastEntries; s.Bound != 0 && n > most {
		n = most
	}
	return uint32(n)
}

// check returns an error for the first setting that is out of its range. A setting on which ranges depend is checked before them.
func (s Setup) check() error {
	n := uint64(s.shards())
	with := fmt.Sprintf(", with %d shards", n)
	if n == 1 {
		with = ", with 1 shard"
	}
	for _, setting := range []struct {
		name        string
		value       uint64
		hasDefault  bool // 0 stands for it
		least, most uint64
		because     string
	}{
		{"Shards", uint64(s.Shards), true, 1, mostShards, ""},
		{"Entries", uint64(s.Entries), false, 1, n * mostEntries, with},
		{"Shards", uint64(s.Shards), true, 1, uint64(s.Entries), ", the Entries"},
		{"Window", uint64(s.Window), true, 1, uint64(s.Entries), ", the Entries"},
		{"Flights", uint64(s.Flights), true, 1, mostFlights, ""},
		{"Bound", s.Bound, true, n, n * mostWeight, with},
	} {
		isDefault := setting.hasDefault && setting.value == 0
		if !isDefault && (setting.value < setting.least || setting.value > setting.most) {
			return badSetup("%s is %d, and has to be from %d to %d%s", setting.name, setting.value, setting.least, setting.most, setting.because)
		}
	}
	if err := s.checkAdaptive(); err != nil {
		return err
	}
	if s.Reads > Exact {
		return badSetup("Reads is %v, and has to be Shared or Exact", s.Reads)
	}
	if s.AtLimit > Refuse {
		return badSetup("AtLimit is %v, and has to be LoadBeside or Refuse", s.AtLimit)
	}
	return s.checkDurations()
}

// mayAdapt returns whether the cache has as many entries as an adviser takes.
func (s Setup) mayAdapt() bool { return s.Entries >= leastAdaptive && s.Entries <= mostAdaptive }

// adapts returns whether the windows follow the stream, in a setup that is in its ranges.
func (s Setup) adapts() bool {
	return s.Adaptive == On || s.Adaptive == Default && s.Window == 0 && s.mayAdapt()
}

func (s Setup) checkAdaptive() error {
	switch {
	case s.Adaptive > Off:
		return badSetup("Adaptive is %v, and has to be Default, On or Off", s.Adaptive)
	case s.Adaptive == On && s.Window != 0:
		return badSetup("Adaptive is On, and has to be Default or Off with a Window, which is %d", s.Window)
	case s.Adaptive == On && !s.mayAdapt():
		return badSetup("Adaptive is On, and has to be Default or Off unless Entries, which is %d, is from %d to %d", s.Entries, leastAdaptive, mostAdaptive)
	}
	return nil
}

// checkDurations compares them in whole milliseconds, as the library gets them. A refresh that isn't below AfterWrite would never
// happen, as the entry has expired by then.
func (s Setup) checkDurations() error {
	for _, duration := range []struct {
		name  string
		value time.Duration
	}{{"AfterWrite", s.AfterWrite}, {"AfterAccess", s.AfterAccess}, {"Refresh", s.Refresh}, {"LoadTimeout", s.LoadTimeout}} {
		if duration.value < 0 {
			return badSetup("%s is %v, and has to be 0 or more", duration.name, duration.value)
		}
	}
	refresh, afterWrite := wholeMilliseconds(s.Refresh), wholeMilliseconds(s.AfterWrite)
	if afterWrite != 0 && refresh >= afterWrite {
		return badSetup("Refresh is %dms, and has to be below AfterWrite, %dms", refresh, afterWrite)
	}
	return nil
}

// wholeMilliseconds returns a duration that isn't negative in milliseconds, rounded up, so that only 0 becomes 0.
func wholeMilliseconds(d time.Duration) uint64 {
	whole := uint64(d / time.Millisecond)
	if d%time.Millisecond > 0 {
		whole++
	}
	return whole
}

func badSetup(how string, of ...any) error {
	return fmt.Errorf("%w: %s", ErrBadSetup, fmt.Sprintf(how, of...))
}

// part returns the i-th of n parts.
func (s Setup) part(i, n uint32) Setup {
	s.Entries = share(s.Entries, i, n)
	if s.Window == 0 {
		s.Window = s.Entries / 100
	} else {
		s.Window = share(s.Window, i, n)
	}
	if s.Window == 0 {
		s.Window = 1
	}
	if s.Flights == 0 {
		s.Flights = 1024
	}
	if s.Bound == 0 {
		s.Bound = mostWeight
	} else {
		s.Bound = share(s.Bound, uint64(i), uint64(n))
	}
	return s
}

// share returns the i-th of n parts of a number, which differ by one at most.
func share[N uint32 | uint64](total, i, n N) N {
	if i < total%n {
		return total/n + 1
	}
	return total / n
}

// A clock tells the moments of a cache: milliseconds since it was started. Until then all is at moment 0.
type clock struct {
	began  time.Time // by Go's own clock
	opened time.Time // by the given one, if there is one
	given  func() time.Time
	mu     sync.Mutex
	isRead atomic.Bool // no moment matters where no duration is set and no value has a life
}

// start has the moments read from now on. The caller's clock may panic: then nothing has changed.
func (c *clock) start() {
	if c.isRead.Load() {
		return
	}
	var opened time.Time
	if c.given != nil {
		opened = c.given()
	}
	c.mu.Lock()
	defer c.mu.Unlock()
	if !c.isRead.Load() {
		c.opened = opened
		c.isRead.Store(true)
	}
}

// now returns the moment, which is 0 before the cache was opened.
func (c *clock) now() uint64 {
	if !c.isRead.Load() {
		return 0
	}
	return c.read()
}

func (c *clock) read() uint64 {
	since := c.elapsed()
	if c.given != nil {
		since = c.given().Sub(c.opened)
	}
	if since < 0 {
		return 0
	}
	return uint64(since / time.Millisecond)
}

// elapsed returns how long the cache has been open, by a clock that doesn't jump.
func (c *clock) elapsed() time.Duration { return time.Since(c.began) }
