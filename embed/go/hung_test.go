package rookdresser

// A source that hangs for some keys.

import (
	"context"
	"errors"
	"fmt"
	"math"
	"math/rand"
	"runtime"
	"sync"
	"sync/atomic"
	"testing"
	"time"
)

// hang begins so many loads that don't end, of the keys from 1,000,000 on, and returns what ends them and waits until they have landed.
func hang(c *Cache[uint64, string], loads uint64) (end func()) {
	ended := make(chan struct{})
	var begun, landed sync.WaitGroup
	for key := uint64(1_000_000); key < 1_000_000+loads; key++ {
		begun.Add(1)
		landed.Add(1)
		go func(key uint64) {
			defer landed.Done()
			_, _ = c.Get(ctx, key, func(context.Context) (string, uint32, error) {
				begun.Done()
				<-ended
				return "late", 1, nil
			})
		}(key)
	}
	begun.Wait()
	return func() { close(ended); landed.Wait() }
}

func many(values map[uint64]string) func(context.Context, []uint64) (map[uint64]Weighed[string], error) {
	return func(_ context.Context, absent []uint64) (map[uint64]Weighed[string], error) {
		loaded := map[uint64]Weighed[string]{}
		for _, key := range absent {
			if v, there := values[key]; there {
				loaded[key] = Weighed[string]{v, 1}
			}
		}
		return loaded, nil
	}
}

// With 1,024 loads that hang, each call for another key is answered, by a load of its own that isn't stored.
func TestASourceThatHangsForSomeKeysIsNoOutageForOthers(t *testing.T) {
	c := open(t, Setup{Entries: 4096, Shards: 1})
	end := hang(c, 1024)
	for call := 1; call <= 50; call++ {
		value := fmt.Sprint(call)
		if v, err := c.Get(ctx, 1, got(value)); v != value || err != nil {
			t.Fatal(v, err)
		}
		if v, err := c.Get(ctx, 1, fails); v != "" || err != errDown {
			t.Fatal(v, err)
		}
		found, err := c.GetMany(ctx, []uint64{1, 2, 3, 2}, many(map[uint64]string{1: "one", 2: "two"}))
		if len(found) != 2 || found[1] != "one" || found[2] != "two" || err != nil {
			t.Fatal(found, err)
		}
	}
	// Of the three keys of a GetMany, the third has no value, and the fourth is the second.
	s, n := c.Stats(), numbersOf(t, c)
	if s.Beside != 250 || s.Loads != 150 || s.Loose != 150 || s.Failed != 100 || s.Misses != 1024+250 || n.Misses != s.Misses || n.Flights != 1024 {
		t.Fatal(s, n)
	}
	if c.Contains(1) || len(c.shards[0].beside) != 0 {
		t.Fatal("a load beside the cache was stored, or is still open")
	}
	mustPut(t, c.Put(1, "put", 1))
	if v, err := c.Get(ctx, 1, got("loaded")); v != "put" || err != nil {
		t.Fatal(v, err)
	}
	end()
	if v, err := c.Get(ctx, 2, got("stored")); v != "stored" || err != nil || !c.Contains(2) {
		t.Fatal(v, err)
	}
	holds(t, c)
}

func numbersOf(t *testing.T, c *Cache[uint64, string]) Numbers {
	t.Helper()
	n, err := c.Numbers()
	if err != nil {
		t.Fatal(err)
	}
	return n
}

func TestAtTheLimitAMissIsRefusedIfTheSetupSaysSo(t *testing.T) {
	c := open(t, Setup{Entries: 100, Flights: 3, AtLimit: Refuse})
	end := hang(c, 3)
	if v, err := c.Get(ctx, 1, got("one")); v != "" || err != ErrTooManyFlights {
		t.Fatal(v, err)
	}
	if found, err := c.GetMany(ctx, []uint64{1, 2}, many(map[uint64]string{1: "one"})); len(found) != 0 || !errors.Is(err, ErrTooManyFlights) {
		t.Fatal(found, err)
	}
	end()
	if s := c.Stats(); s.Beside != 0 || s.Refused[ErrTooManyFlights] != 2 {
		t.Fatal(s, s.Refused)
	}
	holds(t, c)
}

// At the limit a load asks for its own key, directly and by one of another key; and others do so for theirs.
func TestALoadBesideTheCacheThatAsksForItsOwnKeyIsTold(t *testing.T) {
	c := open(t, Setup{Entries: 100, Flights: 1})
	end := hang(c, 1)
	v, err := c.Get(ctx, 1, func(context.Context) (string, uint32, error) {
		if _, err := c.Get(ctx, 1, got("one")); err != ErrWaitsForItself {
			t.Error(err)
		}
		v, err := c.Get(ctx, 2, func(context.Context) (string, uint32, error) {
			if _, err := c.GetMany(ctx, []uint64{3, 1}, many(nil)); err != ErrWaitsForItself {
				t.Error(err)
			}
			return "two", 1, nil
		})
		return v + " in one", 1, err
	})
	if v != "two in one" || err != nil || len(c.shards[0].beside) != 0 {
		t.Fatal(v, err, c.shards[0].beside)
	}
	end()
	holds(t, c)
}

// Its caller gets the panic, and the next one loads again. An entry that has expired leaves by it all the same.
func TestALoadBesideTheCacheThatPanicsLeavesNothing(t *testing.T) {
	s, clock := timed(Setup{Entries: 100, Flights: 1, AfterWrite: 10 * ms})
	var left []string
	c, err := Open(s, OnLeave(func(l Left[uint64, string]) { left = append(left, l.Value+" "+l.Cause.String()) }))
	if err != nil {
		t.Fatal(err)
	}
	defer c.Close()
	mustPut(t, c.Put(1, "old", 1))
	end := hang(c, 1)
	clock.at.Store(10)
	func() {
		defer func() {
			if why := recover(); why != "a panic" {
				t.Error(why)
			}
		}()
		_, _ = c.Get(ctx, 1, func(context.Context) (string, uint32, error) { panic("a panic") })
	}()
	if v, err := c.Get(ctx, 1, got("new")); v != "new" || err != nil || fmt.Sprint(left) != "[old Expired]" {
		t.Fatal(v, err, left)
	}
	if s := c.Stats(); s.Beside != 2 || s.Failed != 1 || len(c.shards[0].beside) != 0 {
		t.Fatal(s)
	}
	end()
	holds(t, c)
}

// Timers that a test ends by hand.
type handTimers struct {
	mu sync.Mutex
	of []*handTimer
}

type handTimer struct {
	after   time.Duration
	call    func()
	stopped atomic.Bool
}

func (t *handTimer) Stop() bool { return !t.stopped.Swap(true) }

// byHand has the timers of loads end by hand until the test has ended.
func byHand(t *testing.T) *handTimers {
	timers, before := new(handTimers), afterFunc
	afterFunc = func(after time.Duration, call func()) timer {
		timers.mu.Lock()
		defer timers.mu.Unlock()
		timers.of = append(timers.of, &handTimer{after: after, call: call})
		return timers.of[len(timers.of)-1]
	}
	t.Cleanup(func() { afterFunc = before })
	return timers
}

// end ends the timers that weren't stopped, or up to so many of the latest ones.
func (all *handTimers) end(most int) {
	all.mu.Lock()
	from := len(all.of) - most
	if from < 0 {
		from = 0
	}
	ending := append([]*handTimer(nil), all.of[from:]...)
	all.of = all.of[:from]
	all.mu.Unlock()
	for _, t := range ending {
		if t.Stop() {
			t.call()
		}
	}
}

// A given-up load of each of 1,024 keys, which one other caller has joined.
func TestALoadThatIsGivenUpFreesItsPlaceAndItsCallers(t *testing.T) {
	for _, row := range []struct {
		giveUp func(*Cache[uint64, string], *handTimers)
		err    error
		end    error // of the context that fetch got
	}{
		{func(_ *Cache[uint64, string], timers *handTimers) { timers.end(math.MaxInt32) }, ErrTimedOut, context.DeadlineExceeded},
		{func(c *Cache[uint64, string], _ *handTimers) {
			for key := uint64(0); key < 1024; key++ {
				if isOpen, again := c.Abandon(key), c.Abandon(key); !isOpen || again {
					t.Error(key, isOpen, again)
				}
			}
		}, ErrAbandoned, context.Canceled},
	} {
		timers := byHand(t)
		c := open(t, Setup{Entries: 4096, Shards: 1, LoadTimeout: time.Hour})
		var joined, led sync.WaitGroup
		goOn := make(chan struct{})
		for key := uint64(0); key < 1024; key++ {
			led.Add(1)
			joined.Add(1)
			go func(key uint64) {
				defer led.Done()
				v, err := c.Get(ctx, key, func(loading context.Context) (string, uint32, error) {
					if loading.Err() != nil {
						t.Error(loading.Err())
					}
					go func() {
						defer joined.Done()
						if v, err := c.Get(ctx, key, got("other")); v != "" || err != row.err {
							t.Error(v, err)
						}
					}()
					<-loading.Done()
					if loading.Err() != row.end {
						t.Error(loading.Err())
					}
					<-goOn
					return "late", 1, nil
				})
				if v != "" || err != row.err {
					t.Error(v, err)
				}
			}(key)
		}
		waitForJoins(c, 1024)
		row.giveUp(c, timers)
		joined.Wait()
		if s, n := c.Stats(), holds(t, c); s.GivenUp != 1024 || s.Failed != 1024 || n.Failed != 1024 || s.Late != 0 {
			t.Fatal(s, n)
		}
		for key := uint64(0); key < 1024; key += 2 {
			if v, err := c.Get(ctx, key, got("anew")); v != "anew" || err != nil {
				t.Fatal(v, err)
			}
		}
		close(goOn)
		led.Wait()
		for key := uint64(0); key < 1024; key++ {
			if v, found, _ := c.Look(key); found != (key%2 == 0) || found && v != "anew" {
				t.Fatal(key, v, found)
			}
		}
		if s, n := c.Stats(), holds(t, c); s.Late != 1024 || s.Loads != 512 || s.Beside != 0 || n.Entries != 512 {
			t.Fatal(s, n)
		}
	}
}

// A refresh that is given up is one that failed: its caller gets the old value, and the next one loads anew.
func TestARefreshThatIsGivenUpReturnsTheOldValue(t *testing.T) {
	s, clock := timed(Setup{Entries: 100, Refresh: 10 * ms})
	c := open(t, s)
	mustPut(t, c.Put(1, "old", 1))
	clock.at.Store(10)
	v, err := c.Get(ctx, 1, func(context.Context) (string, uint32, error) {
		if !c.Abandon(1) || c.Abandon(2) {
			t.Error("another load was abandoned")
		}
		if v, err := c.Get(ctx, 1, fails); v != "old" || err != nil {
			t.Error(v, err)
		}
		return "late", 1, nil
	})
	if v != "old" || err != nil {
		t.Fatal(v, err)
	}
	if v, err := c.Get(ctx, 1, got("new")); v != "new" || err != nil {
		t.Fatal(v, err)
	}
	holds(t, c)
}

// Forgotten, replaced, of a closed cache: an open load keeps its place until it is given up.
func TestALoadThatNobodyCanJoinIsAbandonedToo(t *testing.T) {
	c := open(t, Setup{Entries: 100, Shards: 1, Flights: 3})
	_, _ = c.Get(ctx, 1, func(first context.Context) (string, uint32, error) {
		_, _ = c.Forget(1)
		_, _ = c.Get(ctx, 1, func(second context.Context) (string, uint32, error) {
			mustPut(t, c.Put(1, "put", 1))
			if n := numbersOf(t, c); n.Flights != 2 {
				t.Error(n)
			}
			if !c.Abandon(1) || first.Err() != context.Canceled || second.Err() != context.Canceled {
				t.Error(first.Err(), second.Err())
			}
			holds(t, c)
			return "second", 1, nil
		})
		return "first", 1, nil
	})
	if v, found, _ := c.Look(1); v != "put" || !found {
		t.Fatal(v)
	}
	_, err := c.Get(ctx, 2, func(loading context.Context) (string, uint32, error) {
		c.Close()
		if !c.Abandon(2) || c.Abandon(2) || loading.Err() == nil {
			t.Error("the load of a closed cache is open")
		}
		return "late", 1, nil
	})
	if err != ErrAbandoned {
		t.Fatal(err)
	}
}

// The context of a load of many keys ends with the last of them.
func TestALoadOfManyKeysIsGivenUpKeyByKey(t *testing.T) {
	c := open(t, Setup{Entries: 100})
	values := map[uint64]string{1: "one", 2: "two", 3: "three"}
	found, err := c.GetMany(ctx, []uint64{1, 2, 3}, func(loading context.Context, absent []uint64) (map[uint64]Weighed[string], error) {
		if !c.Abandon(2) || loading.Err() != nil {
			t.Error(loading.Err())
		}
		return many(values)(loading, absent)
	})
	if len(found) != 2 || found[1] != "one" || found[3] != "three" || err != ErrAbandoned || c.Contains(2) {
		t.Fatal(found, err)
	}
	found, err = c.GetMany(ctx, []uint64{4, 5}, func(loading context.Context, absent []uint64) (map[uint64]Weighed[string], error) {
		if !c.Abandon(4) || !c.Abandon(5) || loading.Err() != context.Canceled {
			t.Error(loading.Err())
		}
		return many(map[uint64]string{4: "four", 5: "five"})(loading, absent)
	})
	if s := c.Stats(); len(found) != 0 || err != ErrAbandoned || s.GivenUp != 3 || s.Late != 3 {
		t.Fatal(found, err, s)
	}
	holds(t, c)
}

// What a load brings that was given up is returned by no call, also if it is given up while it lands.
func TestNoCallReturnsTheValueOfALoadThatWasGivenUp(t *testing.T) {
	timers := byHand(t)
	c, err := Open[uint64, int](Setup{Entries: 64, Shards: 2, Flights: 2, LoadTimeout: time.Second})
	if err != nil {
		t.Fatal(err)
	}
	defer c.Close()
	var loads atomic.Int64
	seen, dropped := make([]atomic.Bool, 20*stormLoads+1), make([]atomic.Bool, 20*stormLoads+1)
	together(8, func(own int) {
		random := rand.New(rand.NewSource(int64(own)))
		for turn := 0; turn < 20*stormLoads/8; turn++ {
			key, number := uint64(random.Intn(12)), int64(0)
			switch random.Intn(16) {
			case 0, 1:
				c.Abandon(key)
			case 2:
				timers.end(1 + random.Intn(3))
			case 3, 4:
				_, _ = c.Drop(key)
			case 5:
				if v, found, _ := c.Look(key); found {
					seen[v].Store(true)
				}
			default:
				v, err := c.Get(ctx, key, func(context.Context) (int, uint32, error) {
					number = loads.Add(1)
					if random.Intn(3) == 0 {
						runtime.Gosched()
					}
					return int(number), 1, nil
				})
				if err == nil {
					seen[v].Store(true)
				} else if err != ErrAbandoned && err != ErrTimedOut {
					t.Error(err)
				} else if number != 0 {
					dropped[number].Store(true)
				}
			}
		}
	})
	s, n := c.Stats(), holds(t, c)
	var late uint64
	for number := range seen {
		if dropped[number].Load() {
			if late++; seen[number].Load() {
				t.Fatal(number, s)
			}
		}
	}
	t.Log(s)
	if s.Late != late || s.GivenUp != late || s.Failed != late || n.Failed != late || s.Loads+s.Failed != uint64(loads.Load()) {
		t.Fatal(late, loads.Load(), s, n)
	}
	if late == 0 || s.Beside == 0 {
		t.Fatal(late, loads.Load(), s, n)
	}
}
