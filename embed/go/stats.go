//go:build cgo && linux && amd64

package rookdresser

import (
	"fmt"
	"time"
)

// Numbers are the library's counts, as if it had heard of each hit; the Guide says what each means. Latest is in milliseconds since
// the cache was opened. Step counts the slides of the windows too.
type Numbers struct {
	Lookups, Hits, Misses, Loads, Failed, Evicted, Entries, Weight, Step, Latest, Flights uint64
}

// Stats are the counts of this package since the cache was opened. README.md compares each with Guava's CacheStats.
type Stats struct {
	Hits, Misses                      uint64 // of Look and Get; refused calls are neither
	Joins                             uint64 // misses that found another's load under way
	Loads, Failed                     uint64 // loads that returned a value; that returned an error, panicked or ended their goroutine
	Refreshes                         uint64 // loads of a key that was there but due
	LoadTime                          time.Duration
	LoadTimes                         LoadTimes     // of which LoadTime is the sum
	OldestLoad                        time.Duration // how long the oldest open load has taken so far; 0 if none is open
	Loose                             uint64        // values that were loaded and not stored
	Beside                            uint64        // loads that were made beside the cache, since too many were open: of Loads and Failed
	GivenUp                           uint64        // loads that LoadTimeout or Abandon gave up: of Failed
	Late                              uint64        // loads given up whose fetch has ended since. What it returned was dropped.
	Explicit, Replaced, Expired, Size uint64        // entries that left, by their cause
	Refused                           map[Fault]uint64
}

// HitRatio returns the part of the look-ups that hit, from 0 to 1; 0 before the first look-up.
func (s Stats) HitRatio() float64 {
	if s.Hits+s.Misses == 0 {
		return 0
	}
	return float64(s.Hits) / float64(s.Hits+s.Misses)
}

// String returns the counts as one line, with the refused calls of all faults together.
func (s Stats) String() string {
	var refused uint64
	for _, count := range s.Refused {
		refused += count
	}
	return fmt.Sprintf("hits %d misses %d hit-ratio %.3f joins %d refreshes %d loads %d loose %d failed %d load-time %v"+
		" explicit %d replaced %d expired %d size %d refused %d beside %d given-up %d late %d",
		s.Hits, s.Misses, s.HitRatio(), s.Joins, s.Refreshes, s.Loads, s.Loose, s.Failed, s.LoadTime,
		s.Explicit, s.Replaced, s.Expired, s.Size, refused, s.Beside, s.GivenUp, s.Late)
}

func (s *Stats) refuse(f Fault) {
	if s.Refused == nil {
		s.Refused = map[Fault]uint64{}
	}
	s.Refused[f]++
}

func (s *Stats) leave(cause Cause) {
	switch cause {
	case Explicit:
		s.Explicit++
	case Replaced:
		s.Replaced++
	case Expired:
		s.Expired++
	case Size:
		s.Size++
	}
}

// Stats returns the counts of this package, summed over the shards.
func (c *Cache[K, V]) Stats() Stats {
	sum := Stats{Refused: map[Fault]uint64{}}
	for _, s := range c.shards {
		s.take()
		sum.add(&s.stats)
		if age := c.ageOf(s.loads.first); age > sum.OldestLoad {
			sum.OldestLoad = age
		}
		hits, puts := s.stripes.made()
		sum.Hits += hits
		sum.Replaced += puts
		s.release()
	}
	return sum
}

func (s *Stats) add(other *Stats) {
	s.Hits += other.Hits
	s.Misses += other.Misses
	s.Joins += other.Joins
	s.Loads += other.Loads
	s.Failed += other.Failed
	s.Refreshes += other.Refreshes
	s.LoadTime += other.LoadTime
	for i, count := range other.LoadTimes {
		s.LoadTimes[i] += count
	}
	s.Loose += other.Loose
	s.Beside += other.Beside
	s.GivenUp += other.GivenUp
	s.Late += other.Late
	s.Explicit += other.Explicit
	s.Replaced += other.Replaced
	s.Expired += other.Expired
	s.Size += other.Size
	for fault, count := range other.Refused {
		s.Refused[fault] += count
	}
}

// Numbers returns the library's counts, summed over the shards, or the error ErrClosed.
func (c *Cache[K, V]) Numbers() (sum Numbers, err error) {
	for _, s := range c.shards {
		s.take()
		n, fault := s.numbers()
		s.release()
		if fault != 0 {
			return Numbers{}, fault
		}
		sum.add(n)
	}
	return sum, nil
}

func (n *Numbers) add(other Numbers) {
	n.Lookups += other.Lookups
	n.Hits += other.Hits
	n.Misses += other.Misses
	n.Loads += other.Loads
	n.Failed += other.Failed
	n.Evicted += other.Evicted
	n.Entries += other.Entries
	n.Weight += other.Weight
	n.Step += other.Step
	n.Flights += other.Flights
	if other.Latest > n.Latest {
		n.Latest = other.Latest
	}
}

// Window returns how many entries the windows may hold now, of all shards together; 0 if the cache is closed. It follows the stream of
// look-ups if the Setup's Adaptive is on.
func (c *Cache[K, V]) Window() (entries uint32) {
	for _, s := range c.shards {
		s.take()
		entries += s.lib.window()
		s.release()
	}
	return entries
}

// Kept returns how many values and keys this package keeps. While no load is open, both equal Numbers().Entries.
func (c *Cache[K, V]) Kept() (values, keys int) {
	for _, s := range c.shards {
		s.take()
		v, k := s.table.kept()
		s.release()
		values, keys = values+v, keys+k
	}
	return values, keys
}
