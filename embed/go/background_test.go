package rookdresser

// Refreshes in a goroutine of their own.

import (
	"context"
	"fmt"
	"runtime"
	"testing"
	"time"
)

// A background is what the cache loads from in the background, which a test may change.
type background struct {
	*Cache[uint64, string]
	*hand
	load func(context.Context) (string, uint32, error)
}

// inBackground opens a cache with "old" under the keys 1 and 2, which are due from moment 10 on and expire at 20. It is moment 10.
func inBackground(t *testing.T, options ...Option[uint64, string]) *background {
	s, clock := timed(Setup{Entries: 100, Refresh: 10 * ms, AfterWrite: 20 * ms})
	of := &background{hand: clock}
	load := func(ctx context.Context, key uint64) (string, error) { v, _, err := of.load(ctx); return v, err }
	c, err := Open(s, append(options, InBackground(load))...)
	if err != nil {
		t.Fatal(err)
	}
	t.Cleanup(c.Close)
	of.Cache = c
	mustPut(t, c.Put(1, "old", 1))
	mustPut(t, c.Put(2, "old", 1))
	clock.at.Store(10)
	return of
}

// waitForLoads returns once so many loads have ended.
func waitForLoads(c *Cache[uint64, string], loads uint64) {
	for s := c.Stats(); s.Loads+s.Failed < loads; s = c.Stats() {
		runtime.Gosched()
	}
}

func TestADueEntryIsLoadedInTheBackgroundAndItsCallersGetTheOldValue(t *testing.T) {
	c := inBackground(t)
	goOn := make(chan struct{})
	c.load = func(context.Context) (string, uint32, error) { <-goOn; return "new", 1, nil }
	for call := 0; call < 3; call++ {
		if v, err := c.Get(ctx, 1, fails); v != "old" || err != nil {
			t.Fatal(v, err)
		}
	}
	close(goOn)
	waitForLoads(c.Cache, 1)
	if v, err := c.Get(ctx, 1, fails); v != "new" || err != nil {
		t.Fatal(v, err)
	}
	if s := c.Stats(); s.Refreshes != 1 || s.Loads != 1 || s.Hits != 4 {
		t.Fatal(s)
	}
	// What isn't there is loaded by its caller.
	if v, err := c.Get(ctx, 3, got("loaded")); v != "loaded" || err != nil {
		t.Fatal(v, err)
	}
	holds(t, c.Cache)
}

// Then the old value stays, and the next caller that asks has it loaded again.
func TestALoadInTheBackgroundThatFailsOrPanicsKeepsTheOldValue(t *testing.T) {
	c := inBackground(t)
	for ended, load := range []func(context.Context) (string, uint32, error){
		fails,
		func(context.Context) (string, uint32, error) { panic("a panic") },
		func(context.Context) (string, uint32, error) { runtime.Goexit(); return "", 0, nil },
	} {
		c.load = load
		if v, err := c.Get(ctx, 1, got("other")); v != "old" || err != nil {
			t.Fatal(v, err)
		}
		waitForLoads(c.Cache, uint64(ended)+1)
	}
	if s := c.Stats(); s.Failed != 3 || s.Refreshes != 3 {
		t.Fatal(s)
	}
	holds(t, c.Cache)
}

func TestAListenerThatPanicsInTheBackgroundIsToldAllTheSame(t *testing.T) {
	told := make(chan string, 1)
	c := inBackground(t, OnLeave(func(left Left[uint64, string]) {
		if left.Cause == Replaced {
			told <- left.Value
			panic("a panic")
		}
	}))
	c.load = got("new")
	_, _ = c.Get(ctx, 1, fails)
	if first := <-told; first != "old" {
		t.Fatal(first)
	}
	if v, found, _ := c.Look(1); v != "new" || !found {
		t.Fatal(v)
	}
	holds(t, c.Cache)
}

// A GetMany loads what is absent.
func TestOfManyKeysThoseThatAreDueAreLoadedInTheBackground(t *testing.T) {
	c := inBackground(t)
	c.load = got("new")
	found, err := c.GetMany(ctx, []uint64{3, 1, 4, 2}, func(_ context.Context, absent []uint64) (map[uint64]Weighed[string], error) {
		if fmt.Sprint(absent) != "[3 4]" {
			t.Error(absent)
		}
		return many(map[uint64]string{3: "three", 4: "four"})(ctx, absent)
	})
	if fmt.Sprint(found) != "map[1:old 2:old 3:three 4:four]" || err != nil {
		t.Fatal(found, err)
	}
	waitForLoads(c.Cache, 4)
	for _, key := range []uint64{1, 2} {
		if v, _, _ := c.Look(key); v != "new" {
			t.Fatal(v)
		}
	}
	holds(t, c.Cache)
}

// Its values weigh and live as those of GetWith.
func TestALoadInTheBackgroundIsWeighedAndGetsALife(t *testing.T) {
	weigh := Weigh(func(_ uint64, v string) uint32 { return uint32(len(v)) })
	c := inBackground(t, weigh, Life(func(uint64, string) time.Duration { return 5 * ms }))
	c.load = got("a long text")
	_, _ = c.Get(ctx, 1, fails)
	waitForLoads(c.Cache, 1)
	if n := holds(t, c.Cache); n.Weight != 12 {
		t.Fatal(n)
	}
	if c.at.Store(15); c.Contains(1) {
		t.Fatal("it outlived its life")
	}
}

// The entry expires during the load. Its loader waits for itself if it asks; the goroutine that began the load doesn't.
func TestALoadInTheBackgroundBelongsToItsOwnGoroutine(t *testing.T) {
	c := inBackground(t)
	expired := make(chan struct{})
	c.load = func(context.Context) (string, uint32, error) {
		c.at.Store(20)
		if _, err := c.Get(ctx, 1, got("other")); err != ErrWaitsForItself {
			t.Error(err)
		}
		close(expired)
		waitForJoins(c.Cache, 2)
		return "new", 1, nil
	}
	_, _ = c.Get(ctx, 1, fails)
	<-expired
	if v, err := c.Get(ctx, 1, got("other")); v != "new" || err != nil {
		t.Fatal(v, err)
	}
}
