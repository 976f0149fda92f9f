//go:build cgo && linux && amd64

package rookdresser

import (
	"fmt"
	"sort"
	"strings"
	"time"
)

// An OpenLoad is a load that hasn't ended.
type OpenLoad[K comparable] struct {
	Key     K
	Age     time.Duration // how long it has taken so far, by Go's own clock; 0 if fetch isn't called yet
	Waiting int           // how many goroutines wait for it, besides the one that makes it
	Beside  bool          // whether it is made beside the cache
}

// Loads returns the open loads, the oldest first. It locks one shard after another. O(open loads).
func (c *Cache[K, V]) Loads() (open []OpenLoad[K]) {
	for _, s := range c.shards {
		s.mu.Lock()
		for l := s.loads.first; l != nil; l = l.next {
			open = append(open, OpenLoad[K]{Key: l.node.key, Age: c.ageOf(l), Waiting: int(l.waiting.Load())})
		}
		for _, latest := range s.beside {
			for of := latest; of != nil; of = of.outer {
				open = append(open, OpenLoad[K]{Key: of.key, Age: c.clock.elapsed() - of.begun, Beside: true})
			}
		}
		s.release()
	}
	sort.SliceStable(open, func(i, j int) bool { return open[i].Age > open[j].Age })
	return open
}

// ageOf returns how long a load has taken so far; 0 if there is none. Whoever has its shard's lock calls it.
func (c *Cache[K, V]) ageOf(l *load[K, V]) time.Duration {
	if l == nil || l.begun.Load() == 0 {
		return 0
	}
	return c.clock.elapsed() - time.Duration(l.begun.Load())
}

// Describe returns some lines for a person who asks what the cache does: its settings, its counts, its window, its shards and its five
// oldest open loads. The lines may change with any version. It prints keys as fmt does, up to 80 characters of each. It locks one shard
// after another. O(entries + open loads).
func (c *Cache[K, V]) Describe() string {
	var text strings.Builder
	line := func(how string, of ...any) { fmt.Fprintf(&text, how+"\n", of...) }
	line("%T", c)
	c.setup.describe(line)
	line("counts: %v", c.Stats())
	if n, err := c.Numbers(); err != nil {
		line("library: %v", err)
	} else {
		line("library: %+v", n)
	}
	values, keys := c.Kept()
	least, most := c.valuesOfShards()
	line("window: %d entries; kept: %d values and %d keys, %d to %d values in each of %d shards",
		c.Window(), values, keys, least, most, len(c.shards))
	loads := c.Loads()
	line("open loads: %d", len(loads))
	for i := 0; i < len(loads) && i < 5; i++ {
		l := loads[i]
		beside := ""
		if l.Beside {
			beside = ", beside the cache"
		}
		line("  %.80s: for %v, %d wait%s", fmt.Sprint(l.Key), l.Age, l.Waiting, beside)
	}
	return text.String()
}

// describe writes the settings as lines.
func (s Setup) describe(line func(string, ...any)) {
	never := func(d time.Duration) any {
		if d == 0 {
			return "never"
		}
		return d
	}
	line("settings: entries %d, bound %d, window %d, adaptive %v, reads %v, seeded %v", s.Entries, s.Bound, s.Window, s.Adaptive, s.Reads, s.Seeded)
	line("settings: after write %v, after access %v, refresh %v, own clock %v",
		never(s.AfterWrite), never(s.AfterAccess), never(s.Refresh), s.Clock != nil)
	line("settings: flights %d of a shard, at limit %v, load timeout %v", s.part(0, 1).Flights, s.AtLimit, never(s.LoadTimeout))
}

// valuesOfShards returns how many values the shards keep that have the fewest and the most.
func (c *Cache[K, V]) valuesOfShards() (least, most int) {
	for i, s := range c.shards {
		s.mu.Lock()
		values, _ := s.table.kept()
		s.release()
		if i == 0 || values < least {
			least = values
		}
		if values > most {
			most = values
		}
	}
	return least, most
}
