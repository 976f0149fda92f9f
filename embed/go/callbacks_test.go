package rookdresser

// What a loader and a listener may do. embed/CALLBACKS.md names these tests.

import (
	"context"
	"errors"
	"math"
	"runtime"
	"sync/atomic"
	"testing"
	"time"
)

var errDown = errors.New("the source is down")

func got(v string) func(context.Context) (string, uint32, error) {
	return func(context.Context) (string, uint32, error) { return v, 1, nil }
}

func fails(context.Context) (string, uint32, error) { return "", 0, errDown }

func TestALoadThatFailsFailsForAllWhoShareIt(t *testing.T) {
	c := open(t, setup)
	together(2, func(int) {
		_, err := c.Get(ctx, 1, func(context.Context) (string, uint32, error) { waitForJoins(c, 1); return fails(ctx) })
		if err != errDown {
			t.Error(err)
		}
	})
	if s := c.Stats(); s.Failed != 1 || s.Misses != 2 {
		t.Fatal(s)
	}
	holds(t, c)
}

func TestALoadThatPanicsOrEndsItsGoroutineLeavesNothingOpen(t *testing.T) {
	for _, end := range []func(){func() { panic("of the load") }, runtime.Goexit} {
		c, shared, panicked := open(t, setup), make(chan error), make(chan any)
		go func() {
			defer func() { panicked <- recover() }()
			_, _ = c.Get(ctx, 1, func(context.Context) (string, uint32, error) { waitForJoins(c, 1); end(); return "", 1, nil })
		}()
		for n, _ := c.Numbers(); n.Flights == 0; n, _ = c.Numbers() {
			runtime.Gosched()
		}
		go func() {
			_, err := c.Get(ctx, 1, got("one"))
			shared <- err
		}()
		if err := <-shared; err != ErrPanicked {
			t.Fatal(err)
		}
		if why := <-panicked; why != nil && why != "of the load" {
			t.Fatal(why)
		}
		if v, err := c.Get(ctx, 1, got("one")); v != "one" || err != nil {
			t.Fatal(v, err)
		}
		holds(t, c)
	}
}

func TestALoadThatAsksForItsOwnKeyIsTold(t *testing.T) {
	c := open(t, setup)
	v, err := c.Get(ctx, 1, func(context.Context) (string, uint32, error) {
		if v, err := c.Get(ctx, 1, got("inner")); err != ErrWaitsForItself {
			t.Error(v, err)
		}
		return "outer", 1, nil
	})
	if v != "outer" || err != nil {
		t.Fatal(v, err)
	}
	holds(t, c)
}

func TestLoadsOfTwoGoroutinesThatWaitForEachOtherAreTold(t *testing.T) {
	c := open(t, setup)
	var begun, told int32
	together(2, func(i int) {
		own, other := uint64(i), uint64(1-i)
		v, err := c.Get(ctx, own, func(context.Context) (string, uint32, error) {
			atomic.AddInt32(&begun, 1)
			for atomic.LoadInt32(&begun) < 2 {
				runtime.Gosched()
			}
			if _, err := c.Get(ctx, other, got("of the other")); err == ErrWaitsForItself {
				atomic.AddInt32(&told, 1)
			} else if err != nil {
				t.Error(err)
			}
			return "own", 1, nil
		})
		if v != "own" || err != nil {
			t.Error(v, err)
		}
	})
	if told != 1 {
		t.Fatal(told)
	}
	holds(t, c)
}

func TestALoadMayUseTheCacheForOtherKeysAndChangeItsOwn(t *testing.T) {
	c := open(t, setup)
	v, err := c.Get(ctx, 1, func(context.Context) (string, uint32, error) {
		if err := c.Put(1, "put", 1); err != nil {
			return "", 0, err
		}
		other, err := c.Get(ctx, 2, got("two"))
		return other + " and one", 1, err
	})
	put, _, _ := c.Look(1)
	if v != "two and one" || err != nil || put != "put" || c.Stats().Loose != 1 {
		t.Fatal(v, err, put, c.Stats())
	}
	holds(t, c)
}

func TestADropDuringALoadKeepsItsValueOut(t *testing.T) {
	c := open(t, setup)
	v, err := c.Get(ctx, 1, func(context.Context) (string, uint32, error) { _, err := c.Drop(1); return "one", 1, err })
	_, found, _ := c.Look(1)
	if v != "one" || err != nil || found {
		t.Fatal(v, err, found)
	}
	holds(t, c)
}

func TestALoadThatClosesTheCacheHasItsValueReturned(t *testing.T) {
	c := open(t, setup)
	v, err := c.Get(ctx, 1, func(context.Context) (string, uint32, error) { c.Close(); return "one", 1, nil })
	if values, keys := c.Kept(); v != "one" || err != nil || values != 0 || keys != 0 {
		t.Fatal(v, err, values, keys)
	}
	if _, _, err := c.Look(1); !errors.Is(err, ErrClosed) || err.Error() != "rookdresser: the cache is closed" {
		t.Fatal(err)
	}
}

func TestAWeightOutOfRangeStoresNothing(t *testing.T) {
	c := open(t, Setup{Entries: 10, Bound: 5})
	v, err := c.Get(ctx, 1, func(context.Context) (string, uint32, error) { return "heavy", math.MaxUint32, nil })
	if v != "heavy" || err != nil || c.Stats().Loose != 1 {
		t.Fatal(v, err)
	}
	if err := c.Put(1, "heavy", 6); !errors.Is(err, ErrTooHeavy) || c.Stats().Refused[ErrTooHeavy] != 1 {
		t.Fatal(err)
	}
	if n := holds(t, c); n.Entries != 0 {
		t.Fatal(n)
	}
}

func TestARefreshThatFailsReturnsTheOldValue(t *testing.T) {
	s, clock := timed(Setup{Entries: 10, Refresh: 50 * time.Millisecond})
	c := open(t, s)
	if err := c.Put(1, "old", 1); err != nil {
		t.Fatal(err)
	}
	clock.at.Store(60)
	if v, err := c.Get(ctx, 1, fails); v != "old" || err != nil {
		t.Fatal(v, err)
	}
	if v, err := c.Get(ctx, 1, got("new")); v != "new" || err != nil {
		t.Fatal(v, err)
	}
	if s := c.Stats(); s.Hits != 2 || s.Refreshes != 2 || s.Failed != 1 || s.Loads != 1 || s.Replaced != 1 {
		t.Fatal(s)
	}
	holds(t, c)
}

func TestTheAgeOfALoadedValueCountsFromTheGet(t *testing.T) {
	s, clock := timed(Setup{Entries: 10, AfterWrite: 100 * time.Millisecond})
	c := open(t, s)
	clock.at.Store(1000)
	_, err := c.Get(ctx, 1, func(context.Context) (string, uint32, error) { clock.at.Store(1099); return "one", 1, nil })
	if err != nil {
		t.Fatal(err)
	}
	_, before, _ := c.Look(1)
	clock.at.Store(1100)
	_, after, _ := c.Look(1)
	if !before || after {
		t.Fatal(before, after)
	}
	holds(t, c)
}

func TestAMomentThatGoesBackCountsAsTheLatest(t *testing.T) {
	s, clock := timed(Setup{Entries: 10, AfterWrite: 100 * time.Millisecond})
	c := open(t, s)
	there := func(key uint64, now int64) bool { clock.at.Store(now); _, found, _ := c.Look(key); return found }
	_ = there(1, 1000)
	clock.at.Store(5)
	if err := c.Put(1, "one", 1); err != nil {
		t.Fatal(err)
	}
	if !there(1, 1099) || there(1, 1100) {
		t.Fatal("its age doesn't count from the latest moment")
	}
	// A hit moves the time as well.
	if err := c.Put(1, "one", 1); err != nil || !there(1, 1180) {
		t.Fatal(err)
	}
	clock.at.Store(5)
	if err := c.Put(3, "three", 1); err != nil || !there(3, 1279) || !c.Contains(3) || there(3, 1280) {
		t.Fatal("its age doesn't count from the latest moment", err)
	}
	// So does a landing whose get was made before a call at a later moment.
	clock.at.Store(2000)
	_, err := c.Get(ctx, 2, func(context.Context) (string, uint32, error) { _ = there(1, 2090); return "two", 1, nil })
	if err != nil || !there(2, 2189) || there(2, 2190) {
		t.Fatal("its age doesn't count from the latest moment", err)
	}
	holds(t, c)
}

func TestWhoWaitsForALoadMayGiveUp(t *testing.T) {
	c, mayEnd, ended := open(t, setup), make(chan struct{}), make(chan error)
	go func() {
		_, err := c.Get(ctx, 1, func(context.Context) (string, uint32, error) { <-mayEnd; return "one", 1, nil })
		ended <- err
	}()
	for n, _ := c.Numbers(); n.Flights == 0; n, _ = c.Numbers() {
		runtime.Gosched()
	}
	brief, cancel := context.WithCancel(ctx)
	go func() { waitForJoins(c, 1); cancel() }()
	if _, err := c.Get(brief, 1, got("other")); err != context.Canceled {
		t.Fatal(err)
	}
	close(mayEnd)
	if v, err := <-ended, error(nil); v != nil || err != nil {
		t.Fatal(v)
	}
	if v, found, _ := c.Look(1); v != "one" || !found {
		t.Fatal(v, found)
	}
	holds(t, c)
}

// An endless context ends and has no error, which no context should.
type endless struct{ context.Context }

func (endless) Done() <-chan struct{} {
	done := make(chan struct{})
	close(done)
	return done
}

func TestWhoGivesUpByAContextWithoutAnErrorGetsOne(t *testing.T) {
	c, other := open(t, setup), make(chan error)
	_, err := c.Get(ctx, 1, func(context.Context) (string, uint32, error) {
		go func() {
			_, err := c.Get(endless{ctx}, 1, got("other"))
			other <- err
			found, err := c.GetMany(endless{ctx}, []uint64{1}, each(new([][]uint64)))
			if len(found) != 0 {
				t.Error(found)
			}
			other <- err
		}()
		for i := 0; i < 2; i++ {
			if err := <-other; err != context.Canceled {
				t.Error(err)
			}
		}
		return "one", 1, nil
	})
	if err != nil {
		t.Fatal(err)
	}
	holds(t, c)
}

type named struct{}

func isOver(ctx context.Context) bool {
	select {
	case <-ctx.Done():
		return true
	default:
		return false
	}
}

func TestALoadOutlivesTheContextOfItsCaller(t *testing.T) {
	c, shared := open(t, setup), make(chan error)
	brief, cancel := context.WithCancel(context.WithValue(ctx, named{}, "a value"))
	v, err := c.Get(brief, 1, func(lasting context.Context) (string, uint32, error) {
		go func() {
			v, err := c.Get(ctx, 1, got("other"))
			if v != "one" && err == nil {
				err = errors.New(v)
			}
			shared <- err
		}()
		waitForJoins(c, 1)
		cancel()
		_, has := lasting.Deadline()
		if lasting.Err() != nil || isOver(lasting) || has || lasting.Value(named{}) != "a value" {
			t.Error("its context has ended, or lost its values")
		}
		return "one", 1, lasting.Err()
	})
	if other := <-shared; v != "one" || err != nil || other != nil {
		t.Fatal(v, err, other)
	}
	holds(t, c)
}

// One goroutine waits for a load that the other has just ended, and hasn't been told so yet.
func TestALoadThatIsOverIsNoPartOfACircle(t *testing.T) {
	c := open(t, setup)
	var ended *load[uint64, string]
	together(2, func(int) {
		_, _ = c.Get(ctx, 1, func(context.Context) (string, uint32, error) {
			ended = c.shards[0].table.walk(1, 1).load
			waitForJoins(c, 1)
			return "one", 1, nil
		})
	})
	const me, other = 1, 2
	w, theirs := waiting{of: map[uintptr]*leader{other: &ended.leader}}, new(leader)
	theirs.goroutine.Store(other)
	ended.goroutine.Store(me)
	if err := w.begin(me, theirs); err != nil {
		t.Fatal(err)
	}
}
