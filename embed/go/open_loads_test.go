package rookdresser

// The library hears late of most loads.

import (
	"context"
	"errors"
	"fmt"
	"math/rand"
	"testing"
	"time"

	"rookdresser/internal/refusing"
)

// A caller makes calls by chance, also while its loads are open, and keeps what they return.
type caller struct {
	momentary
	*rand.Rand
	now    int64
	atOnce bool // has the library hear of each load as it begins
	said   []string
}

func (by *caller) call(depth int) {
	by.now += int64(by.Intn(40) / 38)
	key := uint64(by.Intn(6))
	switch what := by.Intn(100); {
	case what < 50:
		by.get(key, depth)
	case what < 60:
		by.many(key, depth)
	case what < 62:
		by.said = append(by.said, line(by.Clear(), by.Clean()))
	case what < 70:
		by.said = append(by.said, line(by.Forget(key)))
	default:
		whats := []string{"look", "put", "put for 10 ms", "drop", "contains", "count"}
		by.said = append(by.said, by.answer(call{whats[what%len(whats)], key, by.now}, fmt.Sprint("put ", by.now)))
	}
}

// within makes calls while a load is open, and returns whether it fails.
func (by *caller) within(depth int) error {
	if by.atOnce {
		_, _ = by.Numbers()
	}
	for n := by.Intn(4); n > 0 && depth > 0; n-- {
		by.call(depth - 1)
	}
	if by.Intn(5) == 0 {
		return errDown
	}
	return nil
}

func (by *caller) get(key uint64, depth int) {
	by.moments.Range(func(of, _ any) bool { by.moments.Store(of, by.now); return true })
	by.said = append(by.said, line(by.Get(ctx, key, func(context.Context) (string, uint32, error) {
		value := fmt.Sprint("got ", len(by.said))
		return value, 1, by.within(depth)
	})))
}

func (by *caller) many(key uint64, depth int) {
	fetch := func(_ context.Context, absent []uint64) (map[uint64]Weighed[string], error) {
		by.said = append(by.said, line(absent))
		return map[uint64]Weighed[string]{key: {fmt.Sprint("one of many ", len(by.said)), 1}}, by.within(depth)
	}
	by.said = append(by.said, line(by.GetMany(ctx, []uint64{key, key + 1, key}, fetch)))
}

// Whatever is called while a load is open, the answers and the counts are those of a library that hears of it at once.
func TestALoadOfWhichTheLibraryHearsLateIsTheSameAsOneAtOnce(t *testing.T) {
	for seed := int64(0); seed < 40; seed++ {
		// No entry is evicted: the library chooses that by what it has heard.
		s := Setup{Entries: 50, Flights: 1 + uint32(seed%4), AfterWrite: 30 * time.Millisecond, Refresh: time.Duration(seed%3) * 7 * time.Millisecond}
		late := &caller{momentary: openMomentary(s), Rand: rand.New(rand.NewSource(seed))}
		atOnce := &caller{momentary: openMomentary(s), Rand: rand.New(rand.NewSource(seed)), atOnce: true}
		for turn := 0; turn < 1500; turn++ {
			late.call(3)
			atOnce.call(3)
			if fmt.Sprint(late.said) != fmt.Sprint(atOnce.said) {
				t.Fatal(seed, turn, late.said, atOnce.said)
			}
			late.said, atOnce.said = nil, nil
		}
		holds(t, late.Cache)
		if mine, theirs := late.seen(), atOnce.seen(); mine != theirs {
			t.Fatal(seed, mine, theirs)
		}
		stats := late.Stats()
		if stats.Loose == 0 || stats.Failed == 0 || stats.Joins == 0 || stats.Refused[ErrTooManyFlights] == 0 && s.Flights < 3 {
			t.Fatal(seed, stats, stats.Refused)
		}
		late.Close()
		atOnce.Close()
	}
}

// The library refuses to hear of an open load, before a call of its key. Then nobody joins the load, and it stores nothing.
func TestALoadOfWhichTheLibraryRefusesToHearStoresNothing(t *testing.T) {
	for _, row := range []struct {
		call func(*Cache[uint64, string]) error
		want error
		then string // the value that is there at the end
	}{
		{func(c *Cache[uint64, string]) error { _, err := c.Get(ctx, 1, got("other")); return err }, ErrOutOfMemory, ""},
		{func(c *Cache[uint64, string]) error { return c.Put(1, "put", 1) }, nil, "put"},
		{func(c *Cache[uint64, string]) error { _, err := c.Drop(1); return err }, nil, ""},
		{func(c *Cache[uint64, string]) error { _, err := c.Forget(1); return err }, nil, ""},
		{func(c *Cache[uint64, string]) error { return c.Clear() }, nil, ""},
		{func(c *Cache[uint64, string]) error { _, err := c.Numbers(); return err }, nil, ""},
	} {
		c := open(t, Setup{Entries: 50})
		v, err := c.Get(ctx, 1, func(context.Context) (string, uint32, error) {
			if !refusing.After(0, func() {
				if err := row.call(c); !errors.Is(err, row.want) {
					t.Error(err)
				}
			}) {
				t.Error("nothing was refused")
			}
			return "loaded", 1, nil
		})
		if v != "loaded" || err != nil {
			t.Fatal(v, err)
		}
		if v, _, _ := c.Look(1); v != row.then || c.Stats().Loose != 1 {
			t.Fatal(v, c.Stats())
		}
		holds(t, c)
	}
}

// The key, the entry and the context that the loader gets.
func TestAGetThatLoadsAllocatesThrice(t *testing.T) {
	c, next := open(t, Setup{Entries: 100, Adaptive: Off}), uint64(0)
	load := got("loaded")
	get := func() { next++; _, _ = c.Get(ctx, next, load) }
	for next < 1000 {
		get()
	}
	if gets := testing.AllocsPerRun(1000, get); gets != 3 {
		t.Fatal(gets)
	}
}

// A load whose value others wait for isn't used again: they read it once they run.
func TestALoadThatWasJoinedIsNotUsedAgain(t *testing.T) {
	c := open(t, Setup{Entries: 50})
	var joined []*load[uint64, string]
	for key := uint64(0); key < 10; key++ {
		together(2, func(int) {
			_, _ = c.Get(ctx, key, func(context.Context) (string, uint32, error) {
				waitForJoins(c, key+1)
				s, _ := c.of(key)
				joined = append(joined, s.table.walk(key, key).load)
				return fmt.Sprint(key), 1, nil
			})
		})
		_, _ = c.Get(ctx, 100+key, got("alone"))
	}
	for key, of := range joined {
		if of.value != fmt.Sprint(key) {
			t.Fatal(key, of.value)
		}
	}
}
