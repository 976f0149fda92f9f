package rookdresser

// What one asks at night.

import (
	"context"
	"fmt"
	"regexp"
	"runtime"
	"strings"
	"sync"
	"testing"
	"time"
)

func TestTheTimeOfALoadIsCountedUpToItsBound(t *testing.T) {
	for took, at := range map[time.Duration]int{
		0: 0, time.Millisecond: 0, time.Millisecond + 1: 1, 5 * time.Millisecond: 1, 99 * time.Millisecond: 5, time.Second: 8,
		time.Second + 1: 9, 10 * time.Second: 11, 10*time.Second + 1: 12, time.Hour: 12,
	} {
		var s Stats
		s.took(took)
		s.took(isCounted)
		if s.LoadTimes[at] != 1 || s.LoadTime != took {
			t.Error(took, s.LoadTimes)
		}
	}
}

func countOf(times LoadTimes) (sum uint64) {
	for _, count := range times {
		sum += count
	}
	return sum
}

// The loads of one GetMany count once, also if some are beside the cache; a load that is given up counts as it is.
func TestEachLoadsTimeIsCountedOnce(t *testing.T) {
	c := open(t, Setup{Entries: 100, Shards: 2})
	_, _ = c.Get(ctx, 1, got("one"))
	_, _ = c.Get(ctx, 2, fails)
	_, _ = c.GetMany(ctx, []uint64{3, 4, 5}, many(map[uint64]string{3: "three"}))
	_, _ = c.Get(ctx, 6, func(context.Context) (string, uint32, error) { c.Abandon(6); return "late", 1, nil })
	if s := c.Stats(); countOf(s.LoadTimes) != 4 || s.Loads+s.Failed != 6 || s.OldestLoad != 0 {
		t.Fatal(s, s.LoadTimes)
	}
	few := open(t, Setup{Entries: 100, Flights: 1})
	end := hang(few, 1)
	_, _ = few.GetMany(ctx, []uint64{1, 2, 3}, many(nil))
	if s := few.Stats(); countOf(s.LoadTimes) != 1 || s.Beside != 3 || s.OldestLoad == 0 {
		t.Fatal(s, s.LoadTimes)
	}
	end()
}

func TestLoadsAreListedWithThoseWhoWaitTheOldestFirst(t *testing.T) {
	c := open(t, Setup{Entries: 100, Flights: 2, Shards: 1})
	if len(c.Loads()) != 0 {
		t.Fatal(c.Loads())
	}
	_, _ = c.Get(ctx, 1, func(context.Context) (string, uint32, error) {
		ended, others := make(chan struct{}), new(sync.WaitGroup)
		others.Add(3)
		for i := 0; i < 3; i++ {
			go func() {
				defer others.Done()
				_, _ = c.Get(ctx, 2, func(context.Context) (string, uint32, error) { <-ended; return "two", 1, nil })
			}()
		}
		for open := c.Loads(); len(open) < 2 || open[1].Waiting != 2 || open[1].Age == 0; open = c.Loads() {
			runtime.Gosched()
		}
		_, _ = c.Get(ctx, 3, func(context.Context) (string, uint32, error) {
			open := c.Loads()
			if len(open) != 3 || open[0].Key != 1 || open[1].Key != 2 || open[2].Key != 3 || open[0].Age < open[1].Age || open[1].Age < open[2].Age {
				t.Error(open)
			}
			if open[0].Waiting != 0 || open[1].Waiting != 2 || open[0].Beside || open[1].Beside || !open[2].Beside {
				t.Error(open)
			}
			describes(t, c)
			return "three", 1, nil
		})
		close(ended)
		others.Wait()
		return "one", 1, nil
	})
	if open := c.Loads(); len(open) != 0 {
		t.Fatal(open)
	}
	holds(t, c)
}

// The cache has two open loads and one beside it.
func describes(t *testing.T, c *Cache[uint64, string]) {
	text := regexp.MustCompile(`for [^,]*,`).ReplaceAllString(c.Describe(), "for AGE,")
	for _, line := range []string{
		"*rookdresser.Cache[uint64,string]", "entries 100,", "flights 2 of a shard, at limit LoadBeside, load timeout never", "misses 5",
		"Flights:2}", "0 to 0 values in each of 1 shards",
		"open loads: 3\n  1: for AGE, 0 wait\n  2: for AGE, 2 wait\n  3: for AGE, 0 wait, beside the cache\n",
	} {
		if !strings.Contains(text, line) {
			t.Errorf("%q isn't in:\n%s", line, text)
		}
	}
}

// Of many loads the five oldest are described, and of a long key the beginning. A closed cache says so.
func TestDescribeIsShort(t *testing.T) {
	c := openOf[string](t, Setup{Entries: 100})
	ended, begun := make(chan struct{}), new(sync.WaitGroup)
	var all sync.WaitGroup
	for i := 0; i < 9; i++ {
		begun.Add(1)
		all.Add(1)
		go func(key string) {
			defer all.Done()
			_, _ = c.Get(ctx, key, func(context.Context) (string, uint32, error) { begun.Done(); <-ended; return "", 1, nil })
		}(fmt.Sprint(i, strings.Repeat("x", 1000)))
	}
	begun.Wait()
	text := c.Describe()
	if strings.Count(text, "\n  ") != 5 || !strings.Contains(text, "open loads: 9\n") || len(text) > 3000 {
		t.Error(text)
	}
	close(ended)
	all.Wait()
	c.Close()
	if text := c.Describe(); !strings.Contains(text, "library: rookdresser: the cache is closed") {
		t.Error(text)
	}
}
