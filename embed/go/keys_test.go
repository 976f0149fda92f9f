package rookdresser

// Keys of any comparable type, with a hash that is the caller's code, and a clock that is.

import (
	"errors"
	"fmt"
	"hash/maphash"
	"math"
	"math/rand"
	"runtime"
	"testing"
	"time"
)

type point struct {
	x, y int
	name string
}

func openHashed[K comparable](t *testing.T, hash func(maphash.Seed, K) uint64) *Cache[K, string] {
	c, err := OpenHashed[K, string](setup, hash)
	if err != nil {
		t.Fatal(err)
	}
	t.Cleanup(c.Close)
	return c
}

func TestKeysAreOfAnyComparableTypeWithAHash(t *testing.T) {
	byName := func(seed maphash.Seed, p point) uint64 { return maphash.String(seed, p.name) }
	alike := func(maphash.Seed, point) uint64 { return 7 }
	for _, hash := range []func(maphash.Seed, point) uint64{byName, alike} {
		c := openHashed(t, hash)
		for i := 0; i < 50; i++ {
			if err := c.Put(point{i, -i, "a point"}, string(rune('A'+i)), 1); err != nil {
				t.Fatal(err)
			}
		}
		for i := 0; i < 50; i++ {
			if v, found, err := c.Look(point{i, -i, "a point"}); v != string(rune('A'+i)) || !found || err != nil {
				t.Fatal(i, v, found, err)
			}
		}
		if _, found, _ := c.Look(point{1, 1, "a point"}); found || c.Contains(point{0, 0, "another"}) || len(c.Keys()) != 50 {
			t.Fatal("a key that isn't there is found", len(c.Keys()))
		}
		holds(t, c)
	}
	if _, err := OpenHashed[point, string](setup, nil); !errors.Is(err, ErrBadSetup) {
		t.Fatal(err)
	}
}

func TestAKeyThatDoesNotEqualItselfIsNeverFoundAndLeavesNothing(t *testing.T) {
	c := openHashed(t, func(_ maphash.Seed, f float64) uint64 { return math.Float64bits(f) })
	for i := 0; i < 1000; i++ {
		if err := c.Put(math.NaN(), "no number", 1); err != nil {
			t.Fatal(err)
		}
		if _, found, err := c.Look(math.NaN()); found || err != nil || c.Contains(math.NaN()) {
			t.Fatal(found, err)
		}
	}
	if n := holds(t, c); n.Entries != 100 || len(c.Keys()) != 0 {
		t.Fatal(n, c.Keys())
	}
	if err := c.Put(0.5, "a half", 1); err != nil {
		t.Fatal(err)
	}
	if keys := c.Keys(); len(keys) != 1 || keys[0] != 0.5 {
		t.Fatal(keys)
	}
}

func TestAHashOrAClockThatPanicsOrEndsItsGoroutineMovesNothing(t *testing.T) {
	ends := func() {}
	hash := func(_ maphash.Seed, key int) uint64 { ends(); return uint64(key) }
	still := func() time.Time { ends(); return time.UnixMilli(0) }
	ofHash, err := OpenHashed[int, string](Setup{Entries: 10}, hash)
	if err != nil {
		t.Fatal(err)
	}
	defer ofHash.Close()
	ofClock, err := Open[int, string](Setup{Entries: 10, AfterWrite: time.Hour, Clock: still})
	if err != nil {
		t.Fatal(err)
	}
	defer ofClock.Close()
	for _, c := range []*Cache[int, string]{ofHash, ofClock} {
		if err := c.Put(1, "one", 1); err != nil {
			t.Fatal(err)
		}
		before, _ := c.Numbers()
		for _, end := range []func(){func() { panic("of the caller's") }, runtime.Goexit} {
			ends = end
			for _, call := range []func(){
				func() { _, _, _ = c.Look(1) }, func() { _ = c.Put(1, "", 1) }, func() { _, _ = c.Get(ctx, 2, got("")) },
				func() { _, _ = c.Drop(1) }, func() { _, _ = c.Forget(1) }, func() { _ = c.Contains(1) },
			} {
				ended := make(chan any)
				go func() {
					defer func() { ended <- recover() }()
					call()
					t.Error("its call has returned")
				}()
				if why := <-ended; why != nil && why != "of the caller's" {
					t.Fatal(why)
				}
			}
		}
		ends = func() {}
		if after := holds(t, c); before != after {
			t.Fatal(before, after)
		}
	}
}

func TestAHashThatPanicsAmongManyKeysLeavesNoLoadOpen(t *testing.T) {
	c := openHashed(t, func(_ maphash.Seed, key int) uint64 {
		if key == 3 {
			panic("of the hash")
		}
		return uint64(key)
	})
	func() {
		defer func() {
			if recover() != "of the hash" {
				t.Error("the panic is passed on")
			}
		}()
		_, _ = c.GetMany(ctx, []int{1, 2, 3}, nil)
	}()
	if v, err := c.Get(ctx, 1, got("one")); v != "one" || err != nil {
		t.Fatal(v, err)
	}
	holds(t, c)
}

func TestAHashThatContradictsItselfLeaksNothing(t *testing.T) {
	random := rand.New(rand.NewSource(1))
	c := openHashed(t, func(maphash.Seed, int) uint64 { return uint64(random.Intn(8)) })
	for turn := 0; turn < 20_000; turn++ {
		key, value := random.Intn(200), fmt.Sprint(turn)
		switch random.Intn(4) {
		case 0:
			if err := c.Put(key, value, 1); err != nil {
				t.Fatal(err)
			}
		case 1:
			if _, err := c.Drop(key); err != nil {
				t.Fatal(err)
			}
		default:
			if _, err := c.Get(ctx, key, got(value)); err != nil {
				t.Fatal(err)
			}
		}
	}
	if n := holds(t, c); n.Entries != 100 {
		t.Fatal(n)
	}
}

func TestAHashAndAClockMayUseTheCacheAndBlockNoOtherCall(t *testing.T) {
	var c *Cache[int, string]
	begun, end, blocks, uses := make(chan bool), make(chan bool), false, true
	once := func() {
		if blocks {
			blocks = false
			begun <- true
			<-end
		} else if uses && c != nil {
			uses = false
			_, _, _ = c.Look(2)
			uses = true
		}
	}
	s := Setup{Entries: 10, AfterWrite: time.Hour, Clock: func() time.Time { once(); return time.UnixMilli(0) }}
	c, err := OpenHashed[int, string](s, func(_ maphash.Seed, key int) uint64 { once(); return uint64(key) })
	if err != nil {
		t.Fatal(err)
	}
	defer c.Close()
	if v, err := c.Get(ctx, 1, got("one")); v != "one" || err != nil {
		t.Fatal(v, err)
	}
	uses, blocks = false, true
	ended := make(chan error)
	go func() { ended <- c.Put(1, "other", 1) }()
	<-begun
	if v, found, err := c.Look(1); v != "one" || !found || err != nil {
		t.Fatal(v, found, err)
	}
	end <- true
	if err := <-ended; err != nil {
		t.Fatal(err)
	}
	holds(t, c)
}

func TestAHashOrAClockThatClosesTheCacheHasTheCallRefused(t *testing.T) {
	var closes func()
	once := func() {
		if closes != nil {
			closes()
		}
	}
	for _, call := range []func(c *Cache[int, string]) error{
		func(c *Cache[int, string]) error { return c.Put(2, "two", 1) },
		func(c *Cache[int, string]) error { _, _, err := c.Look(1); return err },
		func(c *Cache[int, string]) error { _, err := c.Get(ctx, 1, got("other")); return err },
	} {
		hash := func(_ maphash.Seed, key int) uint64 { once(); return uint64(key) }
		ofHash, err := OpenHashed[int, string](Setup{Entries: 10}, hash)
		if err != nil {
			t.Fatal(err)
		}
		ofClock, err := Open[int, string](Setup{Entries: 10, AfterWrite: time.Hour, Clock: func() time.Time { once(); return time.UnixMilli(0) }})
		if err != nil {
			t.Fatal(err)
		}
		for _, c := range []*Cache[int, string]{ofHash, ofClock} {
			if err := c.Put(1, "one", 1); err != nil {
				t.Fatal(err)
			}
			closes = c.Close
			err := call(c)
			closes = nil
			if values, keys := c.Kept(); err != ErrClosed || values != 0 || keys != 0 {
				t.Fatal(err, values, keys)
			}
		}
	}
}
