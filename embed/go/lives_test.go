package rookdresser

// Entries with a life of their own, beside a clock that the tests set.

import (
	"context"
	"fmt"
	"math"
	"math/rand"
	"runtime"
	"testing"
	"time"
)

const ms = time.Millisecond

// lasts returns the first moment, from the present one on and up to 100 later, at which the key has no entry; else -1.
func lasts(c *Cache[uint64, string], clock *hand, key uint64) int64 {
	for i := 0; i < 100; i++ {
		if !c.Contains(key) {
			return clock.at.Load()
		}
		clock.at.Add(1)
	}
	return -1
}

func mustPut(t *testing.T, err error) {
	t.Helper()
	if err != nil {
		t.Fatal(err)
	}
}

func TestAnEntryWithAShortLifeLeavesBesideOneWithout(t *testing.T) {
	s, clock := timed(Setup{Entries: 10})
	c := open(t, s)
	var told []string
	c.Listen(func(left Left[uint64, string]) {
		told = append(told, fmt.Sprintf("%d %s %v", left.Key, left.Value, left.Cause))
	})
	clock.at.Store(1000)
	mustPut(t, c.PutFor(1, "short", 1, 5*ms))
	mustPut(t, c.Put(2, "long", 1))
	clock.at.Store(1004)
	if v, found, err := c.Look(1); v != "short" || !found || err != nil || !c.Contains(1) || len(c.Keys()) != 2 {
		t.Fatal(v, found, err)
	}
	clock.at.Store(1005)
	if c.Contains(1) || fmt.Sprint(c.Keys()) != "[2]" {
		t.Fatal(c.Keys())
	}
	if v, found, err := c.Look(1); found || err != nil {
		t.Fatal(v, err)
	}
	if v, found, _ := c.Look(2); v != "long" || !found || fmt.Sprint(told) != "[1 short Expired]" {
		t.Fatal(v, told)
	}
	holds(t, c)
}

func TestALifeCountsInWholeMillisecondsRoundedUpFromOneTo49Days(t *testing.T) {
	const most = math.MaxUint32 * ms
	for life, whole := range map[time.Duration]int64{
		1: 1, 0: 1, -1: 1, -time.Hour: 1, math.MinInt64: 1, ms - 1: 1, ms: 1, ms + 1: 2, 3 * ms / 2: 2, 2*ms - 1: 2, 2 * ms: 2,
		most - ms + 1: math.MaxUint32, most: math.MaxUint32, most + 1: 0, most + ms: 0, Forever: 0, 49 * 24 * time.Hour: 4_233_600_000, 50 * 24 * time.Hour: 0,
	} {
		for _, store := range []func(c *Cache[uint64, string]) error{
			func(c *Cache[uint64, string]) error { return c.PutFor(1, "", 1, life) },
			func(c *Cache[uint64, string]) error {
				_, err := c.GetFor(ctx, 1, func(context.Context) (string, uint32, time.Duration, error) { return "", 1, life, nil })
				return err
			},
		} {
			s, clock := timed(Setup{Entries: 10})
			c := open(t, s)
			mustPut(t, store(c))
			if clock.at.Store(whole - 1); whole == 0 {
				clock.at.Store(1 << 40)
			}
			if !c.Contains(1) {
				t.Fatal(life, "has gone by too early")
			}
			if clock.at.Add(1); c.Contains(1) != (whole == 0) {
				t.Fatal(life, "is too long")
			}
		}
	}
}

func TestNoUseLengthensALife(t *testing.T) {
	s, clock := timed(Setup{Entries: 10})
	c := open(t, s)
	mustPut(t, c.PutFor(1, "one", 1, 10*ms))
	for ; clock.at.Load() < 10; clock.at.Add(3) {
		if v, found, err := c.Look(1); v != "one" || !found || err != nil {
			t.Fatal(clock.at.Load(), v, err)
		}
		if v, err := c.Get(ctx, 1, fails); v != "one" || err != nil {
			t.Fatal(clock.at.Load(), v, err)
		}
	}
	clock.at.Store(10)
	if _, found, _ := c.Look(1); found {
		t.Fatal("it is there")
	}
}

func TestADurationOfTheCacheEndsALifeEarlier(t *testing.T) {
	for _, of := range []struct{ write, access, life, ends int64 }{{5, 0, 9, 5}, {9, 0, 5, 5}, {0, 5, 9, 5}, {0, 9, 5, 5}} {
		s, clock := timed(Setup{Entries: 10, AfterWrite: time.Duration(of.write) * ms, AfterAccess: time.Duration(of.access) * ms})
		c := open(t, s)
		mustPut(t, putFor(c, 1, "", of.life))
		if ends := lasts(c, clock, 1); ends != of.ends {
			t.Fatal(of, ends)
		}
	}
}

func TestALoadGivesALifeThatCountsFromItsCall(t *testing.T) {
	s, clock := timed(Setup{Entries: 10})
	c := open(t, s)
	clock.at.Store(100)
	v, err := c.GetFor(ctx, 1, func(context.Context) (string, uint32, time.Duration, error) {
		clock.at.Add(4)
		return "one", 1, 10 * ms, nil
	})
	if ends := lasts(c, clock, 1); v != "one" || err != nil || ends != 110 {
		t.Fatal(v, err, ends)
	}
	// One that outlasts its life is returned, and never served.
	for turn := 0; turn < 3; turn++ {
		wanted := fmt.Sprint(turn)
		v, err := c.GetFor(ctx, 1, func(context.Context) (string, uint32, time.Duration, error) {
			clock.at.Add(10)
			return wanted, 1, 10 * ms, nil
		})
		if v != wanted || err != nil {
			t.Fatal(v, err)
		}
	}
}

func TestAReplacementHasALifeOfItsOwn(t *testing.T) {
	for _, of := range []struct{ first, then, ends int64 }{{50, 5, 25}, {5, 50, 70}, {5, 0, -1}, {0, 5, 25}} {
		for _, loads := range []bool{false, true} {
			s, clock := timed(Setup{Entries: 10, Refresh: 20 * ms})
			c := open(t, s)
			mustPut(t, putFor(c, 1, "one", of.first))
			// The load is of an entry that is due, or has expired.
			clock.at.Store(20)
			if loads {
				_, err := c.GetFor(ctx, 1, gotFor("two", of.then))
				mustPut(t, err)
			} else {
				mustPut(t, putFor(c, 1, "two", of.then))
			}
			if ends := lasts(c, clock, 1); ends != of.ends {
				t.Fatal(of, loads, ends)
			}
		}
	}
}

func TestARefreshGivesANewLifeAndOneThatFailsKeepsTheOld(t *testing.T) {
	s, clock := timed(Setup{Entries: 10, Refresh: 10 * ms})
	c := open(t, s)
	failing := func(context.Context) (string, uint32, time.Duration, error) { return "", 0, time.Hour, errDown }
	mustPut(t, c.PutFor(1, "one", 1, 15*ms))
	clock.at.Store(10)
	if v, err := c.GetFor(ctx, 1, failing); v != "one" || err != nil {
		t.Fatal(v, err)
	}
	if v, err := c.GetFor(ctx, 1, gotFor("two", 7)); v != "two" || err != nil {
		t.Fatal(v, err)
	}
	if ends := lasts(c, clock, 1); ends != 17 {
		t.Fatal(ends)
	}
	mustPut(t, c.PutFor(1, "three", 1, 15*ms))
	clock.at.Store(27)
	if v, err := c.GetFor(ctx, 1, failing); v != "three" || err != nil {
		t.Fatal(v, err)
	}
	if ends := lasts(c, clock, 1); ends != 32 {
		t.Fatal(ends)
	}
}

func TestTheOptionLifeGivesLives(t *testing.T) {
	s, clock := timed(Setup{Entries: 10})
	var asked []string
	c, err := Open(s, Life(func(key uint64, v string) time.Duration {
		asked = append(asked, fmt.Sprint(key, v))
		return []time.Duration{5 * ms, 0, Forever}[key%3]
	}))
	if err != nil {
		t.Fatal(err)
	}
	defer c.Close()
	text := func(context.Context) (string, error) { return "b", nil }
	mustPut(t, c.Store(0, "a"))
	mustPut(t, c.Store(2, "a"))
	_, err = c.GetWith(ctx, 3, text)
	mustPut(t, err)
	_, err = c.GetWith(ctx, 4, text)
	mustPut(t, err)
	_, err = c.GetManyWith(ctx, []uint64{6, 8, 0}, func(_ context.Context, absent []uint64) (map[uint64]string, error) {
		return map[uint64]string{6: "c", 8: "c"}, nil
	})
	mustPut(t, err)
	// What is given by a call has no life of the option's, and a fetch that fails asks for none.
	mustPut(t, c.Put(10, "d", 1))
	_, _ = c.GetWith(ctx, 9, func(context.Context) (string, error) { return "", errDown })
	_, err = c.GetMany(ctx, []uint64{13}, func(context.Context, []uint64) (map[uint64]Weighed[string], error) {
		return map[uint64]Weighed[string]{13: {"d", 1}}, nil
	})
	mustPut(t, err)
	for key, ends := range map[uint64]int64{0: 5, 2: -1, 3: 5, 4: 1, 6: 5, 8: -1, 10: -1, 13: -1} {
		if clock.at.Store(ends - 1); ends < 0 {
			clock.at.Store(1 << 40)
		}
		if !c.Contains(key) {
			t.Fatal(key)
		}
		if clock.at.Add(1); c.Contains(key) != (ends < 0) {
			t.Fatal(key)
		}
	}
	if len(asked) != 6 {
		t.Fatal(asked)
	}
}

func TestALifeThatPanicsOrEndsItsGoroutineStoresNothing(t *testing.T) {
	for _, fail := range []func(){func() { panic("no life") }, runtime.Goexit} {
		s, _ := timed(Setup{Entries: 10})
		c, err := Open(s, Life(func(uint64, string) time.Duration { fail(); return ms }))
		if err != nil {
			t.Fatal(err)
		}
		text := func(context.Context) (string, error) { return "one", nil }
		for _, call := range []func(){
			func() { _ = c.Store(1, "one") },
			func() { _, _ = c.GetWith(ctx, 1, text) },
			func() {
				_, _ = c.GetManyWith(ctx, []uint64{1, 2}, func(context.Context, []uint64) (map[uint64]string, error) {
					return map[uint64]string{1: "one", 2: "two"}, nil
				})
			},
		} {
			ended := make(chan bool)
			go func() {
				defer close(ended)
				defer func() { _ = recover() }()
				call()
				t.Error("it returned")
			}()
			<-ended
		}
		if n := holds(t, c); n.Entries != 0 || n.Failed != 3 {
			t.Error(n)
		}
		c.Close()
	}
}

func TestALifeMayUseTheCacheAndCloseIt(t *testing.T) {
	s, clock := timed(Setup{Entries: 10})
	var c *Cache[uint64, string]
	closes := false
	c, err := Open(s, Life(func(key uint64, _ string) time.Duration {
		_ = c.Put(key+1, "its neighbour", 1)
		if closes {
			c.Close()
		}
		return 5 * ms
	}))
	if err != nil {
		t.Fatal(err)
	}
	mustPut(t, c.Store(1, "one"))
	if !c.Contains(2) || lasts(c, clock, 1) != 5 {
		t.Fatal(c.Keys())
	}
	closes = true
	if err := c.Store(1, "one"); err != ErrClosed {
		t.Fatal(err)
	}
}

// The clock is read from the first life on, and its panic changes nothing.
func TestWithNoDurationTheClockIsReadFromTheFirstLifeOn(t *testing.T) {
	s, clock := timed(Setup{Entries: 10})
	read, panics := 0, false
	s.Clock = func() time.Time {
		if read++; panics {
			panic("no time")
		}
		return clock.now()
	}
	c := open(t, s)
	clock.at.Store(1 << 40)
	mustPut(t, c.Put(1, "one", 1))
	_, _, _ = c.Look(1)
	if read != 0 {
		t.Fatal(read)
	}
	panics = true
	for i := 0; i < 2; i++ {
		func() {
			defer func() {
				if recover() == nil {
					t.Fatal("it stored")
				}
			}()
			_ = c.PutFor(2, "two", 1, 5*ms)
		}()
	}
	panics = false
	mustPut(t, c.PutFor(2, "two", 1, 5*ms))
	if n, _ := c.Numbers(); n.Latest != 0 || n.Entries != 2 {
		t.Fatal(n)
	}
	if ends := lasts(c, clock, 2); ends != 1<<40+5 || !c.Contains(1) {
		t.Fatal(ends)
	}
}

// A hit beside the lock, which doesn't reach the library, serves nothing beyond its life.
func TestAHitBesideTheLockServesNothingBeyondItsLife(t *testing.T) {
	defer tellMore()()
	s, clock := timed(Setup{Entries: 10})
	c := open(t, s)
	mustPut(t, c.Put(1, "one", 1))
	mustPut(t, c.PutFor(2, "two", 1, 50*ms))
	for i := 0; i < 30; i++ {
		for _, key := range []uint64{1, 2} {
			if _, found, err := c.Look(key); !found || err != nil {
				t.Fatal(i, key, err)
			}
		}
	}
	clock.at.Store(49)
	if v, err := c.Get(ctx, 2, fails); v != "two" || err != nil {
		t.Fatal(v, err)
	}
	clock.at.Store(50)
	if _, found, _ := c.Look(1); !found {
		t.Fatal("the other entry")
	}
	if v, err := c.Get(ctx, 2, fails); err != errDown {
		t.Fatal(v, err)
	}
	if n := holds(t, c); n.Entries != 1 || n.Evicted != 1 {
		t.Fatal(n)
	}
}

func TestAHundredThousandRandomCallsAreThoseOfAMapWithDeadlines(t *testing.T) {
	for _, write := range []int64{0, 300} {
		s, clock := timed(Setup{Entries: 1000, AfterWrite: time.Duration(write) * ms})
		c := open(t, s)
		random, model, hits := rand.New(rand.NewSource(70)), map[uint64]lived{}, 0
		for turn := 0; turn < 100_000; turn++ {
			if turn%7 == 0 {
				clock.at.Add(1)
			}
			now, key, value, life := clock.at.Load(), uint64(random.Intn(300)), fmt.Sprint(turn), someLife(random, 900)
			was, found := model[key]
			found = found && (was.life == 0 || now-was.written < was.life) && (write == 0 || now-was.written < write)
			// Most calls are look-ups, so that shards open.
			switch what := random.Intn(60); {
			case what == 0:
				mustPut(t, putFor(c, key, value, life))
				model[key] = lived{value, now, now, life}
			case what == 1:
				v, err := c.GetFor(ctx, key, gotFor(value, life))
				if found && v != was.value || !found && v != value || err != nil {
					t.Fatal(turn, key, v, was, err)
				}
				if !found {
					model[key] = lived{value, now, now, life}
				}
			default:
				if v, is, err := c.Look(key); is != found || is && v != was.value || err != nil {
					t.Fatal(turn, key, v, was, err)
				}
				if found {
					hits++
				}
			}
		}
		if hits < 10_000 {
			t.Fatal(hits)
		}
		holds(t, c)
	}
}
