package rookdresser

import (
	"context"
	"fmt"
	"math"
	"math/rand"
	"runtime"
	"sync"
	"sync/atomic"
	"testing"
	"time"
)

var setup = Setup{Entries: 100, Window: 1, Flights: 16, Bound: 1 << 40}

var ctx = context.Background()

func together(goroutines int, work func(int)) {
	var all sync.WaitGroup
	for i := 0; i < goroutines; i++ {
		all.Add(1)
		go func(i int) { defer all.Done(); work(i) }(i)
	}
	all.Wait()
}

// A hand is a clock that a test sets, in milliseconds.
type hand struct{ at atomic.Int64 }

func (h *hand) now() time.Time { return time.UnixMilli(h.at.Load()) }

// timed is the setup with a clock that begins at 0.
func timed(s Setup) (Setup, *hand) {
	h := new(hand)
	s.Clock = h.now
	return s, h
}

func open(t *testing.T, s Setup) *Cache[uint64, string] { return openOf[uint64](t, s) }

func openOf[K Key](t *testing.T, s Setup) *Cache[K, string] {
	c, err := Open[K, string](s)
	if err != nil {
		t.Fatal(err)
	}
	t.Cleanup(c.Close)
	return c
}

func TestExactlyWhatIsHeldIsKept(t *testing.T) {
	holdsExactly(t, open(t, setup), func(number uint64) uint64 { return number })
	holdsExactly(t, openOf[string](t, setup), func(number uint64) string { return fmt.Sprint("page ", number) })
}

func holdsExactly[K Key](t *testing.T, c *Cache[K, string], keyOf func(uint64) K) {
	together(4, func(n int) {
		for i := uint64(0); i < 20000; i++ {
			key := keyOf((i*2654435761 + uint64(n)*40503) >> 7 % 300)
			if v, found, err := c.Look(key); err != nil || found && v != fmt.Sprint("v", key) {
				t.Error(v, err)
			} else if !found {
				if err := c.Put(key, fmt.Sprint("v", key), 1); err != nil {
					t.Error(err)
				}
			}
		}
	})
	if n := holds(t, c); n.Entries != 100 || n.Hits+n.Misses != n.Lookups {
		t.Fatal(n)
	}
}

// holds has the values and the keys that are kept compared with the entries of the library.
func holds[K comparable, V any](t *testing.T, c *Cache[K, V]) Numbers {
	t.Helper()
	n, err := c.Numbers()
	values, keys := c.Kept()
	if err != nil || uint64(values) != n.Entries || uint64(keys) != n.Entries || n.Flights != 0 {
		t.Fatalf("%d values and %d keys are kept of %d entries, %d loads are open: %v", values, keys, n.Entries, n.Flights, err)
	}
	return n
}

type page string
type place int8

func TestKeysAreOfAnyKindOfStringOrWholeNumber(t *testing.T) {
	text, err := Open[page, int](setup)
	if err != nil {
		t.Fatal(err)
	}
	defer text.Close()
	small, err := Open[place, int](setup)
	if err != nil {
		t.Fatal(err)
	}
	defer small.Close()
	for i := -3; i < 3; i++ {
		if err := text.Put(page(fmt.Sprint("a page of a name longer than 24 bytes ", i)), i, 1); err != nil {
			t.Fatal(err)
		}
		if err := small.Put(place(i), i, 1); err != nil {
			t.Fatal(err)
		}
	}
	for i := -3; i < 3; i++ {
		v, found, _ := text.Look(page(fmt.Sprint("a page of a name longer than 24 bytes ", i)))
		w, there, _ := small.Look(place(i))
		if v != i || !found || w != i || !there {
			t.Fatal(i, v, found, w, there)
		}
	}
	holds(t, text)
	holds(t, small)
}

func TestKeysGoToTheLibraryUnderASeedIfTheyAreStringsOrAreToBe(t *testing.T) {
	plain, seeded, other := open(t, setup), open(t, Setup{Entries: 100, Seeded: true}), open(t, Setup{Entries: 100, Seeded: true})
	if plain.hash.of(7) != 7 || seeded.hash.of(7) == other.hash.of(7) {
		t.Fatal(plain.hash.of(7), seeded.hash.of(7), other.hash.of(7))
	}
	first, second := openOf[string](t, setup), openOf[string](t, setup)
	if first.hash.of("seven") == second.hash.of("seven") {
		t.Fatal(first.hash.of("seven"))
	}
}

// One hash for all keys, and one whose numbers collide with those that others were moved to.
func TestKeysOfOneHashAreToldApart(t *testing.T) {
	hashOf := []func(key int) uint64{
		func(int) uint64 { return math.MaxUint64 },
		func(key int) uint64 { return uint64(key) / 3 },
	}
	for _, hash := range hashOf {
		table, places, numbers := new(table[int, string]), map[int]*node[int, string]{}, map[uint64]int{}
		table.open()
		for turn, random := 0, rand.New(rand.NewSource(1)); turn < 20000; turn++ {
			key := random.Intn(30)
			at, number := table.find(key, hash(key))
			place, held := places[key]
			if held != (at != nil) || held && (at != place || numbers[number] != key) {
				t.Fatal(key, at, place, held)
			}
			if owner, taken := numbers[number]; taken && owner != key {
				t.Fatalf("%d and %d have the number %d", key, owner, number)
			}
			if held {
				table.letGo(at)
				delete(places, key)
				delete(numbers, number)
			} else {
				places[key] = table.hold(at, key, hash(key), number)
				numbers[number] = key
			}
		}
		for _, at := range places {
			table.letGo(at)
		}
		if _, keys := table.kept(); keys != 0 || len(table.moved) != 0 {
			t.Fatal(keys, table.moved)
		}
	}
}

func TestAKeyIsLoadedOnceForAllWhoAsk(t *testing.T) {
	loadsOnce(t, open(t, setup), 7)
	loadsOnce(t, openOf[string](t, setup), "seven")
}

func loadsOnce[K Key](t *testing.T, c *Cache[K, string], key K) {
	var made int32
	together(64, func(int) {
		v, err := c.Get(ctx, key, func(context.Context) (string, uint32, error) {
			atomic.AddInt32(&made, 1)
			waitForJoins(c, 63)
			return "seven", 1, nil
		})
		if v != "seven" || err != nil {
			t.Error(v, err)
		}
	})
	if made != 1 {
		t.Fatal(made)
	}
}

// waitForJoins returns once so many goroutines wait for a load of another.
func waitForJoins[K comparable, V any](c *Cache[K, V], joins uint64) {
	for c.Stats().Joins < joins {
		runtime.Gosched()
	}
}

func TestCausesAndFaultsAreSentences(t *testing.T) {
	if Expired.String() != "Expired" || Cause(9).String() != "Cause(9)" {
		t.Fatal(Expired.String(), Cause(9).String())
	}
	for _, fault := range []Fault{ErrOutOfMemory, ErrBadSetup, ErrTooHeavy, ErrTooManyFlights, ErrStepsSpent, ErrClosed} {
		if len(fault.Error()) < len("rookdresser: out of memory") || fault.Error()[:13] != "rookdresser: " {
			t.Fatal(fault.Error())
		}
	}
}

func TestAHitAllocatesNothing(t *testing.T) {
	hitsAllocateNothing(t, open(t, setup), 7)
	hitsAllocateNothing(t, open(t, Setup{Entries: 100, Seeded: true}), 7)
	hitsAllocateNothing(t, openOf[string](t, setup), "a page")
	hitsAllocateNothing(t, openOf[string](t, Setup{Entries: 1000, Adaptive: On}), "a page")
}

func hitsAllocateNothing[K Key](t *testing.T, c *Cache[K, string], key K) {
	if err := c.Put(key, "held", 1); err != nil {
		t.Fatal(err)
	}
	load := got("loaded")
	fetch := fetches("loaded", nil)
	gets := testing.AllocsPerRun(1000, func() {
		_, _ = c.Get(ctx, key, load)
		_, _ = c.GetWith(ctx, key, fetch)
	})
	looks := testing.AllocsPerRun(1000, func() { _, _, _ = c.Look(key) })
	if gets != 0 || looks != 0 {
		t.Fatal(gets, looks)
	}
}

func BenchmarkHit(b *testing.B) {
	c, err := Open[string, string](setup)
	if err != nil {
		b.Fatal(err)
	}
	defer c.Close()
	load := got("loaded")
	b.ReportAllocs()
	for i := 0; i < b.N; i++ {
		_, _ = c.Get(ctx, "a page", load)
	}
}
