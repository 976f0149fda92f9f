package rookdresser

import (
	"context"
	"errors"
	"fmt"
	"sort"
	"testing"
	"time"
)

// each is a fetch that has a value for each key but those, and notes what it was asked for.
func each(asked *[][]uint64, not ...uint64) func(context.Context, []uint64) (map[uint64]Weighed[string], error) {
	return func(_ context.Context, keys []uint64) (map[uint64]Weighed[string], error) {
		sort.Slice(keys, func(i, j int) bool { return keys[i] < keys[j] })
		*asked = append(*asked, append([]uint64(nil), keys...))
		fetched := map[uint64]Weighed[string]{}
		for _, key := range keys {
			fetched[key] = Weighed[string]{fmt.Sprint("v", key), 1}
		}
		for _, key := range not {
			delete(fetched, key)
		}
		return fetched, nil
	}
}

func TestManyKeysAreLoadedByOneCall(t *testing.T) {
	c := open(t, setup)
	if err := c.Put(2, "two", 1); err != nil {
		t.Fatal(err)
	}
	var asked [][]uint64
	found, err := c.GetMany(ctx, []uint64{4, 2, 1, 3, 1, 4}, each(&asked, 4))
	if fmt.Sprint(found) != "map[1:v1 2:two 3:v3]" || err != nil || fmt.Sprint(asked) != "[[1 3 4]]" {
		t.Fatal(found, err, asked)
	}
	found, err = c.GetMany(ctx, []uint64{1, 2, 3}, each(&asked))
	if len(found) != 3 || err != nil || len(asked) != 1 {
		t.Fatal(found, err, asked)
	}
	if s := c.Stats(); s.Loads != 2 || s.Failed != 1 || s.Hits != 4 || s.Misses != 5 || s.Joins != 2 {
		t.Fatal(s)
	}
	holds(t, c)
}

func TestMoreKeysThanLoadsMayBeOpenAreLoadedByAFewCalls(t *testing.T) {
	c := open(t, Setup{Entries: 100, Flights: 4})
	var keys []uint64
	for key := uint64(0); key < 10; key++ {
		keys = append(keys, key)
	}
	var asked [][]uint64
	found, err := c.GetMany(ctx, keys, each(&asked))
	if len(found) != 10 || err != nil || fmt.Sprint(asked) != "[[0 1 2 3] [4 5 6 7] [8 9]]" {
		t.Fatal(found, err, asked)
	}
	holds(t, c)
}

func TestManyKeysAndOneShareTheirLoads(t *testing.T) {
	c, errs := open(t, setup), make(chan error)
	ask := func(key uint64) {
		v, err := c.Get(ctx, key, got("of another"))
		if err == nil && v != fmt.Sprint("v", key) {
			err = errors.New(v)
		}
		errs <- err
	}
	var asked [][]uint64
	found, err := c.GetMany(ctx, []uint64{1, 2, 3}, func(ctx context.Context, keys []uint64) (map[uint64]Weighed[string], error) {
		go ask(1)
		waitForJoins(c, 1)
		go ask(3)
		waitForJoins(c, 2)
		return each(&asked, 3)(ctx, keys)
	})
	if len(found) != 2 || err != nil {
		t.Fatal(found, err)
	}
	if one, two := <-errs, <-errs; !(one == nil && two == ErrNotLoaded || one == ErrNotLoaded && two == nil) {
		t.Fatal(one, two)
	}
	// The other way round: another loads one of the keys.
	ended := make(chan error)
	_, err = c.Get(ctx, 5, func(context.Context) (string, uint32, error) {
		go func() {
			found, err := c.GetMany(ctx, []uint64{4, 5}, each(&asked))
			if err == nil && (found[5] != "five" || found[4] != "v4") {
				err = fmt.Errorf("%v", found)
			}
			ended <- err
		}()
		waitForJoins(c, 3)
		return "five", 1, nil
	})
	if other := <-ended; err != nil || other != nil || fmt.Sprint(asked) != "[[1 2 3] [4]]" {
		t.Fatal(err, other, asked)
	}
	holds(t, c)
}

func TestAFetchOfManyThatFailsOrPanicsLeavesNothingOpen(t *testing.T) {
	s, clock := timed(Setup{Entries: 10, Refresh: 50 * time.Millisecond})
	c := open(t, s)
	if err := c.Put(1, "old", 1); err != nil {
		t.Fatal(err)
	}
	clock.at.Store(60)
	fail := func(context.Context, []uint64) (map[uint64]Weighed[string], error) { return nil, errDown }
	found, err := c.GetMany(ctx, []uint64{1, 2}, fail)
	if err != errDown || fmt.Sprint(found) != "map[1:old]" {
		t.Fatal(found, err)
	}
	if found, err = c.GetMany(ctx, []uint64{1}, fail); err != nil || found[1] != "old" {
		t.Fatal(found, err)
	}
	func() {
		defer func() {
			if recover() != "of the load" {
				t.Error("the panic is passed on")
			}
		}()
		_, _ = c.GetMany(ctx, []uint64{2, 3}, func(context.Context, []uint64) (map[uint64]Weighed[string], error) { panic("of the load") })
	}()
	if s := c.Stats(); s.Failed != 5 || s.Refreshes != 2 {
		t.Fatal(s)
	}
	holds(t, c)
	c.Close()
	if found, err = c.GetMany(ctx, []uint64{1}, fail); err != ErrClosed || len(found) != 0 {
		t.Fatal(found, err)
	}
}

func TestALoadOfManyThatAsksForItsOwnKeyIsTold(t *testing.T) {
	c := open(t, setup)
	var asked [][]uint64
	found, err := c.GetMany(ctx, []uint64{1, 2}, func(ctx context.Context, keys []uint64) (map[uint64]Weighed[string], error) {
		if v, err := c.Get(ctx, 2, got("inner")); err != ErrWaitsForItself {
			t.Error(v, err)
		}
		return each(&asked)(ctx, keys)
	})
	if len(found) != 2 || err != nil {
		t.Fatal(found, err)
	}
	holds(t, c)
}
