package rookdresser

import (
	"context"
	"errors"
	"math"
	"runtime"
	"testing"
	"time"
)

func TestShardsHoldMoreThanOneCacheMayAndShareTheSettings(t *testing.T) {
	c, err := Open[int, int](Setup{Entries: 100_001, Shards: 2})
	if err != nil {
		t.Fatal(err)
	}
	defer c.Close()
	for i := 0; i < 150_000; i++ {
		if err := c.Put(i, i, 1); err != nil {
			t.Fatal(err)
		}
	}
	if n := holds(t, c); n.Entries != 100_001 || n.Step != 150_000 || n.Evicted != 49_999 || len(c.shards) != 2 || len(c.Keys()) != 100_001 {
		t.Fatal(n, len(c.shards), len(c.Keys()))
	}
	parts, err := Setup{Entries: 10, Shards: 4, Window: 6, Bound: 9}.parts()
	if err != nil {
		t.Fatal(err)
	}
	wanted := [][3]uint64{{3, 2, 3}, {3, 2, 2}, {2, 1, 2}, {2, 1, 2}}
	for i, p := range parts {
		if got := [3]uint64{uint64(p.Entries), uint64(p.Window), p.Bound}; got != wanted[i] || p.Flights != 1024 {
			t.Fatal(i, p)
		}
	}
	if err := c.Clear(); err != nil {
		t.Fatal(err)
	}
	if n := holds(t, c); n.Entries != 0 {
		t.Fatal(n)
	}
}

// On four processors.
func TestACacheWhoseWindowFollowsHasShardsForItsProcessors(t *testing.T) {
	defer runtime.GOMAXPROCS(runtime.GOMAXPROCS(4))
	for _, row := range []struct {
		s      Setup
		shards uint32
	}{
		{Setup{Entries: 1}, 1}, {Setup{Entries: 255}, 1}, {Setup{Entries: 256}, 2}, {Setup{Entries: 511}, 3}, {Setup{Entries: 512}, 4}, {Setup{Entries: 1023}, 7}, {Setup{Entries: 4096}, 32},
		{Setup{Entries: 1 << 20}, 32}, {Setup{Entries: 1 << 22}, 64}, {Setup{Entries: 1<<22 + 1}, 65}, {Setup{Entries: 1 << 28}, 4096},
		{Setup{Entries: 4096, Adaptive: Off}, 1}, {Setup{Entries: 4096, Window: 9}, 1}, {Setup{Entries: 4096, Bound: 1 << 40}, 32},
		{Setup{Entries: 4096, Bound: 4096}, 32}, {Setup{Entries: 4096, Bound: 4095}, 31}, {Setup{Entries: 4096, Bound: 127}, 1},
		{Setup{Entries: 512, Bound: 1 << 40}, 4}, {Setup{Entries: 1 << 20, Bound: 1}, 16},
		{Setup{Entries: 4096, Shards: 3}, 3}, {Setup{Entries: 65_537, Adaptive: Off}, 2},
	} {
		if got := row.s.shards(); got != row.shards {
			t.Error(row.s, got)
		}
	}
	runtime.GOMAXPROCS(1)
	if got := (Setup{Entries: 4096}).shards(); got != 8 {
		t.Error(got)
	}
}

// Each of four shards may weigh 250: a value of 251 is refused by name, or returned by a load that doesn't store it.
func TestAValueMayWeighItsShardsPartOfTheBound(t *testing.T) {
	defer runtime.GOMAXPROCS(runtime.GOMAXPROCS(4))
	c := open(t, Setup{Entries: 512, Bound: 1000})
	if len(c.shards) != 4 {
		t.Fatal(len(c.shards))
	}
	for key := uint64(0); key < 100; key++ {
		mustPut(t, c.Put(key, "fits", 250))
		if err := c.Put(key, "too heavy", 251); err != ErrTooHeavy {
			t.Fatal(err)
		}
		v, err := c.Get(ctx, 100+key, func(context.Context) (string, uint32, error) { return "too heavy", 251, nil })
		if v != "too heavy" || err != nil {
			t.Fatal(v, err)
		}
	}
	s, n := c.Stats(), holds(t, c)
	if n.Entries != 4 || n.Weight != 1000 || s.Refused[ErrTooHeavy] != 100 || s.Loose != 100 {
		t.Fatal(n, s, s.Refused)
	}
}

// Keys in a row, and keys a power of two apart: no shard has more than twice its part.
func TestKeysAreSpreadOverTheShards(t *testing.T) {
	for _, apart := range []uint64{1, 8, 1 << 12, 1 << 20} {
		c := open(t, Setup{Entries: 80_000, Shards: 8})
		for i := uint64(0); i < 8000; i++ {
			if err := c.Put(i*apart, "", 1); err != nil {
				t.Fatal(err)
			}
		}
		for i, s := range c.shards {
			if _, keys := s.table.kept(); keys < 500 || keys > 2000 {
				t.Fatal(apart, i, keys)
			}
		}
	}
}

func TestEachSettingOutOfItsRangeIsNamedWithItsValueAndItsRange(t *testing.T) {
	for _, row := range []struct {
		s    Setup
		said string
	}{
		{Setup{}, "Entries is 0, and has to be from 1 to 268435456, with 4096 shards"},
		{Setup{Entries: 300_000_000}, "Entries is 300000000, and has to be from 1 to 268435456, with 4096 shards"},
		{Setup{Entries: 65_537, Shards: 1}, "Entries is 65537, and has to be from 1 to 65536, with 1 shard"},
		{Setup{Shards: 4}, "Entries is 0, and has to be from 1 to 262144, with 4 shards"},
		{Setup{Entries: 3, Shards: 4}, "Shards is 4, and has to be from 1 to 3, the Entries"},
		{Setup{Entries: 10_000, Shards: 4097}, "Shards is 4097, and has to be from 1 to 4096"},
		{Setup{Entries: 3, Window: 4}, "Window is 4, and has to be from 1 to 3, the Entries"},
		{Setup{Entries: 3, Flights: 4097}, "Flights is 4097, and has to be from 1 to 4096"},
		{Setup{Entries: 3, Bound: 1<<48 + 1}, "Bound is 281474976710657, and has to be from 1 to 281474976710656, with 1 shard"},
		{Setup{Entries: 3, Shards: 3, Bound: 2}, "Bound is 2, and has to be from 3 to 844424930131968, with 3 shards"},
		{Setup{Entries: 3, AfterWrite: -1}, "AfterWrite is -1ns, and has to be 0 or more"},
		{Setup{Entries: 3, AfterAccess: -time.Second}, "AfterAccess is -1s, and has to be 0 or more"},
		{Setup{Entries: 3, Refresh: math.MinInt64}, "Refresh is -2562047h47m16.854775808s, and has to be 0 or more"},
		{Setup{Entries: 3, AfterWrite: 5 * time.Second, Refresh: 10 * time.Second}, "Refresh is 10000ms, and has to be below AfterWrite, 5000ms"},
		{Setup{Entries: 3, AfterWrite: 5*time.Second + 2, Refresh: 5*time.Second + 1}, "Refresh is 5001ms, and has to be below AfterWrite, 5001ms"},
		{Setup{Entries: 3, AfterWrite: 5*time.Second + 1, Refresh: 5*time.Second + 2}, "Refresh is 5001ms, and has to be below AfterWrite, 5001ms"},
		{Setup{Entries: 3, AfterWrite: 1, Refresh: 1}, "Refresh is 1ms, and has to be below AfterWrite, 1ms"},
		{Setup{Entries: 3, AfterWrite: Forever, Refresh: Forever}, "Refresh is 9223372036855ms, and has to be below AfterWrite, 9223372036855ms"},
		{Setup{Entries: 512, Window: 5, Adaptive: On}, "Adaptive is On, and has to be Default or Off with a Window, which is 5"},
		{Setup{Entries: 63, Adaptive: On}, "Adaptive is On, and has to be Default or Off unless Entries, which is 63, is from 64 to 4194304"},
		{Setup{Entries: 4_194_305, Adaptive: On}, "Adaptive is On, and has to be Default or Off unless Entries, which is 4194305, is from 64 to 4194304"},
		{Setup{Entries: 512, Adaptive: 3}, "Adaptive is Choice(3), and has to be Default, On or Off"},
		{Setup{Entries: 512, Reads: 2}, "Reads is Reads(2), and has to be Shared or Exact"},
		{Setup{Entries: 512, AtLimit: 2}, "AtLimit is AtLimit(2), and has to be LoadBeside or Refuse"},
	} {
		_, err := Open[uint64, string](row.s)
		if !errors.Is(err, ErrBadSetup) || err.Error() != "rookdresser: a setting is out of its range: "+row.said {
			t.Error(row.s, err)
		}
	}
}

func TestADurationCountsInWholeMillisecondsRoundedUp(t *testing.T) {
	for duration, whole := range map[time.Duration]int64{
		1: 1, ms - 1: 1, ms: 1, ms + 1: 2, 3 * ms / 2: 2, 2*ms - 1: 2, 2 * ms: 2, 1500*ms + 1: 1501,
	} {
		for _, s := range []Setup{
			{Entries: 3, AfterWrite: duration}, {Entries: 3, AfterAccess: duration}, {Entries: 3, Refresh: duration},
			{Entries: 3, AfterWrite: duration, AfterAccess: duration},
		} {
			s, clock := timed(s)
			c := open(t, s)
			mustPut(t, c.Put(1, "old", 1))
			// What is fresh is neither absent nor loaded again.
			isFresh := func() bool {
				v, err := c.Get(ctx, 1, got("new"))
				return v == "old" && err == nil
			}
			clock.at.Store(whole - 1)
			if s.AfterAccess != 0 && !c.Contains(1) || s.AfterAccess == 0 && !isFresh() {
				t.Fatal(s, "is too short")
			}
			if clock.at.Store(whole); isFresh() {
				t.Fatal(s, "is too long")
			}
		}
	}
}

// The library takes the least and the greatest of each setting.
func TestEachSettingMayBeTheLeastAndTheGreatest(t *testing.T) {
	for _, s := range []Setup{
		{Entries: 1, Shards: 1, Window: 1, Flights: 1, Bound: 1, AfterWrite: time.Millisecond + 1, AfterAccess: 1, Refresh: 1},
		{Entries: 65_536, Shards: 1, Window: 65_536, Flights: 4096, Bound: 1 << 48, AfterAccess: math.MaxInt64, Refresh: math.MaxInt64},
		{Entries: 4096, Shards: 4096, Flights: 4096, Bound: 4096 << 48, AfterWrite: math.MaxInt64},
		{Entries: 4097, Shards: 4096, Window: 1, Bound: 4096},
		{Entries: 131_072, Shards: 2, Window: 131_072, Bound: 2},
	} {
		c, err := Open[uint64, string](s)
		if err != nil {
			t.Fatal(s, err)
		}
		c.Close()
	}
	parts, err := Setup{Entries: 268_435_456}.parts()
	if err != nil || len(parts) != 4096 || parts[4095].Entries != 65_536 {
		t.Fatal(len(parts), err)
	}
}
