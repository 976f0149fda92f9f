package rookdresser

import (
	"context"
	"errors"
	"fmt"
	"hash/maphash"
	"runtime"
	"sort"
	"testing"
)

// openWith returns a cache with a bound of 100, of texts that weigh their bytes, and what left it.
func openWith(t *testing.T, weigh func(uint64, string) uint32) (c *Cache[uint64, string], left func() string) {
	var told []string
	c, err := Open(Setup{Entries: 100, Bound: 100}, Weigh(weigh), OnLeave(func(left Left[uint64, string]) {
		told = append(told, fmt.Sprint(left.Key, " ", left.Value, " ", left.Cause))
	}))
	if err != nil {
		t.Fatal(err)
	}
	t.Cleanup(c.Close)
	return c, func() string {
		defer func() { told = nil }()
		sort.Strings(told)
		return fmt.Sprint(told)
	}
}

func bytesOf(_ uint64, v string) uint32 { return uint32(len(v)) }

func fetches(v string, err error) func(context.Context) (string, error) {
	return func(context.Context) (string, error) { return v, err }
}

func weightIn[K comparable, V any](t *testing.T, c *Cache[K, V]) uint64 { return holds(t, c).Weight }

func TestAValueWeighsWhatWeighReturns(t *testing.T) {
	c, left := openWith(t, bytesOf)
	if err := c.Store(1, "four"); err != nil || weightIn(t, c) != 4 {
		t.Fatal(err, weightIn(t, c))
	}
	if v, err := c.GetWith(ctx, 2, fetches("sixsix", nil)); v != "sixsix" || err != nil || weightIn(t, c) != 10 {
		t.Fatal(v, err, weightIn(t, c))
	}
	many := func(_ context.Context, keys []uint64) (map[uint64]string, error) {
		return map[uint64]string{3: "three", 4: ""}, nil
	}
	if found, err := c.GetManyWith(ctx, []uint64{1, 3, 4, 5}, many); fmt.Sprint(found) != "map[1:four 3:three 4:]" || err != nil || weightIn(t, c) != 15 {
		t.Fatal(found, err, weightIn(t, c))
	}
	// A weight of its own is taken as it is.
	if err := c.Put(6, "six", 85); err != nil || weightIn(t, c) != 100 || left() != "[]" {
		t.Fatal(err, weightIn(t, c))
	}
	if err := c.Store(6, "three"); err != nil || weightIn(t, c) != 20 || left() != "[6 six Replaced]" {
		t.Fatal(err, weightIn(t, c))
	}
	for _, key := range []uint64{1, 2, 3, 4, 6} {
		if there, err := c.Drop(key); !there || err != nil {
			t.Fatal(key, there, err)
		}
	}
	if said := left(); said != "[1 four Explicit 2 sixsix Explicit 3 three Explicit 4  Explicit 6 three Explicit]" {
		t.Fatal(said)
	}
}

func TestWithoutWeighEachValueWeighsOne(t *testing.T) {
	c := open(t, setup)
	many := func(context.Context, []uint64) (map[uint64]string, error) { return map[uint64]string{3: "three"}, nil }
	_ = c.Store(1, "one")
	_, _ = c.GetWith(ctx, 2, fetches("two", nil))
	if found, err := c.GetManyWith(ctx, []uint64{3}, many); len(found) != 1 || err != nil || weightIn(t, c) != 3 {
		t.Fatal(found, err, weightIn(t, c))
	}
}

func TestAValueThatWeighsTooMuchIsReturnedAndNotStored(t *testing.T) {
	c, left := openWith(t, func(uint64, string) uint32 { return 101 })
	if err := c.Store(1, "one"); err != ErrTooHeavy {
		t.Fatal(err)
	}
	v, err := c.GetWith(ctx, 1, fetches("one", nil))
	if v != "one" || err != nil || c.Contains(1) || c.Stats().Loose != 1 || left() != "[]" {
		t.Fatal(v, err, c.Stats())
	}
}

func TestOnlyValuesThatAreLoadedOrStoredAreWeighed(t *testing.T) {
	weighed := 0
	c, _ := openWith(t, func(uint64, string) uint32 { weighed++; return 1 })
	if _, err := c.GetWith(ctx, 1, fetches("", errDown)); err != errDown || weighed != 0 {
		t.Fatal(err, weighed)
	}
	for i := 0; i < 3; i++ {
		_, _ = c.GetWith(ctx, 1, fetches("one", nil))
		_, _, _ = c.Look(1)
	}
	if _ = c.Store(1, "two"); weighed != 2 {
		t.Fatal(weighed)
	}
}

func TestAWeighThatPanicsOrEndsItsGoroutineStoresNothing(t *testing.T) {
	for _, end := range []func(){func() { panic("of the weight") }, runtime.Goexit} {
		c, left := openWith(t, func(uint64, string) uint32 { end(); return 1 })
		_ = c.Put(1, "one", 1)
		many := func(context.Context, []uint64) (map[uint64]string, error) { return map[uint64]string{2: "two"}, nil }
		for _, call := range []func(){
			func() { _ = c.Store(1, "other") }, func() { _, _ = c.GetWith(ctx, 2, fetches("two", nil)) },
			func() { _, _ = c.GetManyWith(ctx, []uint64{1, 2}, many) },
		} {
			ended := make(chan any)
			go func() {
				defer func() { ended <- recover() }()
				call()
				t.Error("its call has returned")
			}()
			if why := <-ended; why != nil && why != "of the weight" {
				t.Fatal(why)
			}
		}
		if v, _, _ := c.Look(1); v != "one" || c.Contains(2) || left() != "[]" || c.Stats().Failed != 2 {
			t.Fatal(v, c.Stats())
		}
		holds(t, c)
	}
}

func TestAWeighMayUseTheCacheAndBlockNoOtherCall(t *testing.T) {
	var c *Cache[uint64, string]
	begun, end := make(chan bool), make(chan bool)
	c, _ = openWith(t, func(key uint64, v string) uint32 {
		if _, _, err := c.Look(key); err != nil {
			t.Error(err)
		}
		begun <- true
		<-end
		return 1
	})
	ended := make(chan error)
	go func() { ended <- c.Store(1, "one") }()
	<-begun
	if err := c.Put(1, "other", 1); err != nil {
		t.Fatal(err)
	}
	end <- true
	if err := <-ended; err != nil {
		t.Fatal(err)
	}
	if v, found, err := c.Look(1); v != "one" || !found || err != nil {
		t.Fatal(v, found, err)
	}
}

func TestAWeighThatClosesTheCacheHasTheCallRefused(t *testing.T) {
	var c *Cache[uint64, string]
	c, _ = openWith(t, func(uint64, string) uint32 { c.Close(); return 1 })
	if err := c.Store(1, "one"); !errors.Is(err, ErrClosed) {
		t.Fatal(err)
	}
}

func TestAListenerOfOpenIsThatOfListen(t *testing.T) {
	c, left := openWith(t, bytesOf)
	_ = c.Store(1, "one")
	c.Close()
	if said := left(); said != "[1 one Explicit]" {
		t.Fatal(said)
	}
	hashed, err := OpenHashed(Setup{Entries: 1}, func(seed maphash.Seed, p point) uint64 { return maphash.String(seed, p.name) }, OnLeave(func(left Left[point, int]) { t.Log(left) }), Weigh(func(point, int) uint32 { return 7 }))
	if err != nil {
		t.Fatal(err)
	}
	defer hashed.Close()
	if err := hashed.Store(point{}, 1); err != nil || weightIn(t, hashed) != 7 || hashed.listener == nil {
		t.Fatal(err)
	}
}
