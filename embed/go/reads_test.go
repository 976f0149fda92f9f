package rookdresser

// Hits and puts beside the lock give the answers of those that take it.

import (
	"context"
	"fmt"
	"hash/maphash"
	"math/rand"
	"os"
	"runtime"
	"strings"
	"sync"
	"sync/atomic"
	"testing"
	"time"

	"rookdresser/internal/goroutine"
)

// All tests run in three forms: as the package is, with the library told of more, and with each hit under the lock.
func init() {
	switch form := os.Getenv("ROOKDRESSER_TEST_READS"); form {
	case "soon":
		tellMore()
	case "exact":
		alwaysExact = true
	case "":
	default:
		panic("ROOKDRESSER_TEST_READS is " + form + ", and has to be soon or exact")
	}
}

// tellMore has the library told of every other use beside the lock, two together.
func tellMore() (asBefore func()) {
	in, rarely, after, told, exact := oneIn, rarelyIn, afterMiss, toldTogether, alwaysExact
	oneIn, rarelyIn, afterMiss, toldTogether, alwaysExact = 2, 2, 0, 2, false
	return func() { oneIn, rarelyIn, afterMiss, toldTogether, alwaysExact = in, rarely, after, told, exact }
}

// beside returns how many hits and puts were made beside the lock.
func beside[K comparable, V any](c *Cache[K, V]) (hits, puts uint64) {
	for _, s := range c.shards {
		h, p := s.stripes.made()
		hits, puts = hits+h, puts+p
	}
	return hits, puts
}

// A call of a key at a moment.
type call struct {
	what string
	key  uint64
	now  int64
}

// A cache whose calls have moments of their own, whichever goroutine makes them.
type momentary struct {
	*Cache[uint64, string]
	moments *sync.Map // by goroutine
}

func openMomentary(s Setup) momentary {
	moments := new(sync.Map)
	moments.Store(goroutine.Current(), int64(0))
	s.Clock = func() time.Time {
		now, _ := moments.Load(goroutine.Current())
		return time.UnixMilli(now.(int64))
	}
	c, err := Open[uint64, string](s)
	if err != nil {
		panic(err)
	}
	return momentary{c, moments}
}

// answer makes a call, which stores or loads the value, and returns what it returned.
func (c momentary) answer(of call, value string) string {
	c.moments.Store(goroutine.Current(), of.now)
	switch of.what {
	case "look":
		return line(c.Look(of.key))
	case "get":
		return line(c.Get(ctx, of.key, got(value)))
	case "put":
		return line(c.Put(of.key, value, 1))
	case "put for 10 ms":
		return line(c.PutFor(of.key, value, 1, 10*ms))
	case "drop":
		return line(c.Drop(of.key))
	case "contains":
		return line(c.Contains(of.key))
	}
	return line(c.Stats().Hits)
}

func line(words ...any) string { return strings.TrimSpace(fmt.Sprintln(words...)) }

// seen returns what can be seen of a cache in which nothing goes on.
func (c momentary) seen() string {
	s := c.Stats()
	s.LoadTime = 0
	n, err := c.Numbers()
	values, keys := c.Kept()
	return line(s, s.Refused, n, err, values, keys)
}

// lookedAt returns a cache of one shard with two entries, which was looked at so often.
func lookedAt(s Setup, looks int) momentary {
	c := openMomentary(s)
	c.answer(call{"put", 1, 0}, "one")
	c.answer(call{"put", 2, 8}, "two")
	for i := 0; i < looks; i++ {
		if said := c.answer(call{"look", 2, 8}, ""); said != "two true <nil>" {
			panic(said)
		}
	}
	return c
}

// aged is a setup whose entries expire after ten milliseconds.
var aged = Setup{Entries: 64, AfterWrite: 10 * time.Millisecond}

func exactly(s Setup) Setup { s.Reads = Exact; return s }

func TestSharedReadsAnswerAsExactOnes(t *testing.T) {
	defer tellMore()()
	for round, ages := range [][2]time.Duration{{0, 0}, {40, 0}, {0, 15}, {60, 25}} {
		// No entry is evicted: hits that are told late, or never, change no answer.
		s := Setup{Entries: 128, Shards: 2, AfterWrite: ages[0] * time.Millisecond, Refresh: ages[1] * time.Millisecond}
		c, exact := openMomentary(s), openMomentary(exactly(s))
		random, latest := rand.New(rand.NewSource(int64(round))), int64(10)
		for turn := 0; turn < 100_000; turn++ {
			latest += int64(random.Intn(300) / 299)
			// At times a moment is before the latest one.
			made := call{"get", uint64(random.Intn(24)), latest - int64(random.Intn(4)*random.Intn(3))}
			switch what := random.Intn(200); {
			case what < 4:
				made.what = []string{"put", "drop", "contains", "count"}[what]
			case what < 100:
				made.what = "look"
			}
			if mine, theirs := c.answer(made, fmt.Sprint(turn)), exact.answer(made, fmt.Sprint(turn)); mine != theirs {
				t.Fatal(s, turn, made, mine, theirs)
			}
		}
		if mine, theirs := c.seen(), exact.seen(); mine != theirs {
			t.Fatal(s, mine, theirs)
		}
		if hits, puts := beside(c.Cache); !alwaysExact && (hits < 50_000 || (puts > 0) != (ages == [2]time.Duration{})) {
			t.Fatal(s, hits, puts)
		}
		c.Close()
		exact.Close()
	}
}

func TestAHitBesideTheLockMakesItsMomentTheLatest(t *testing.T) {
	defer tellMore()()
	c := lookedAt(aged, 100)
	defer c.Close()
	for i, made := range []call{{"look", 1, 9}, {"look", 2, 17}} {
		if said := c.answer(made, ""); said != []string{"one", "two"}[i]+" true <nil>" {
			t.Fatal(made, said)
		}
	}
	// 17 was the latest moment.
	if said := c.answer(call{"look", 1, 9}, ""); said != "false <nil>" {
		t.Fatal(said)
	}
}

// Notes of an entry that has expired by the latest moment, that has left, and of one stored again with a shorter life.
func TestAHitThatIsToldLateTakesNoEntryOut(t *testing.T) {
	defer tellMore()()
	oneIn, rarelyIn, toldTogether = 1, 1, mostNotes
	for _, between := range []func(momentary){
		func(c momentary) { c.answer(call{"look", 2, 20}, "") },
		func(c momentary) { c.answer(call{"drop", 1, 10}, "") },
		func(c momentary) { _ = c.PutFor(1, "again", 1, ms); c.answer(call{"look", 2, 20}, "") },
		func(c momentary) { c.answer(call{"drop", 1, 10}, ""); c.answer(call{"put", 3, 10}, "three") },
	} {
		c := lookedAt(Setup{Entries: 64, AfterWrite: 15 * ms}, 13)
		c.answer(call{"look", 1, 10}, "")
		between(c)
		before := holds(t, c.Cache)
		s := c.shards[0]
		s.mu.Lock()
		for i := range s.stripes {
			s.tellAll(&s.stripes[i], 0)
		}
		s.release()
		after, stats := holds(t, c.Cache), c.Stats()
		if after != before || stats.Expired != 0 || stats.Hits != after.Hits {
			t.Fatal(before, after, stats)
		}
		c.Close()
	}
}

func TestNoHitIsBesideTheLockIfEntriesExpireUnusedOrEachHitIsTold(t *testing.T) {
	for _, s := range []Setup{{Entries: 64, AfterAccess: 10 * time.Millisecond}, exactly(aged), exactly(Setup{Entries: 64})} {
		c := lookedAt(s, 100)
		c.answer(call{"put", 1, 9}, "new")
		if hits, puts := beside(c.Cache); hits+puts != 0 {
			t.Fatal(s, hits, puts)
		}
		c.Close()
	}
}

// A put of the same weight over a value that never expires is beside the lock, counted and told at once.
func TestAPutInPlaceIsTheSameAsOneByTheLibrary(t *testing.T) {
	for _, s := range []Setup{{Entries: 4}, exactly(Setup{Entries: 4})} {
		var left []Left[uint64, string]
		c, err := Open(s, OnLeave(func(l Left[uint64, string]) { left = append(left, l) }))
		if err != nil {
			t.Fatal(err)
		}
		mustPut(t, c.Put(1, "a", 1))
		mustPut(t, c.Put(1, "b", 1))
		mustPut(t, c.Put(1, "c", 2))
		mustPut(t, c.PutFor(1, "d", 2, time.Hour))
		mustPut(t, c.Put(1, "e", 2))
		mustPut(t, c.Put(1, "f", 2))
		if there, err := c.Drop(1); !there || err != nil {
			t.Fatal(there, err)
		}
		want := "[{1 a Replaced} {1 b Replaced} {1 c Replaced} {1 d Replaced} {1 e Replaced} {1 f Explicit}]"
		if fmt.Sprint(left) != want {
			t.Fatal(left)
		}
		n, stats := holds(t, c), c.Stats()
		if _, puts := beside(c); stats.Replaced != 5 || stats.Explicit != 1 || n.Step != 7 || n.Lookups != 0 || !alwaysExact && s.Reads == Shared && puts != 2 {
			t.Fatal(n, stats, puts)
		}
		c.Close()
	}
}

func TestAPutInPlaceMakesItsMomentTheLatest(t *testing.T) {
	c := openMomentary(Setup{Entries: 64})
	defer c.Close()
	for _, made := range []call{{"put", 1, 0}, {"put for 10 ms", 2, 0}, {"put", 1, 20}} {
		c.answer(made, "")
	}
	if said := c.answer(call{"look", 2, 3}, ""); said != "false <nil>" {
		t.Fatal(said)
	}
}

// Each value that was put leaves once, as the listener is told.
func TestEachValueLeavesOnceWhoeverReplacesIt(t *testing.T) {
	const goroutines, puts, keys = 6, 20_000, 3
	left := make([]atomic.Uint32, goroutines*puts)
	c, err := Open(Setup{Entries: 64}, OnLeave(func(l Left[uint64, int]) { left[l.Value].Add(1) }))
	if err != nil {
		t.Fatal(err)
	}
	together(goroutines, func(own int) {
		random := rand.New(rand.NewSource(int64(own)))
		for i := 0; i < puts; i++ {
			mustPut(t, c.Put(uint64(random.Intn(keys)), own*puts+i, 1))
			switch random.Intn(50) {
			case 0:
				_, _ = c.Drop(uint64(random.Intn(keys)))
			case 1:
				_ = c.Clear()
			}
		}
	})
	s, n := c.Stats(), holds(t, c)
	if s.Explicit+s.Replaced+n.Entries != goroutines*puts {
		t.Fatal(s, n)
	}
	c.Close()
	for value := range left {
		if times := left[value].Load(); times != 1 {
			t.Fatal(value, times)
		}
	}
}

func TestATableGrowsAndLosesNoKey(t *testing.T) {
	c := open(t, Setup{Entries: 5000, Shards: 1})
	for key := uint64(0); key < 5000; key++ {
		mustPut(t, c.Put(key*1024, fmt.Sprint(key), 1))
	}
	held := 0
	for key := uint64(0); key < 5000; key++ {
		if v, found, _ := c.Look(key * 1024); found && v != fmt.Sprint(key) {
			t.Fatal(key, v)
		} else if found {
			held++
		}
	}
	if holds(t, c); held != 5000 {
		t.Fatal(held)
	}
}

// Six goroutines, each of which alone writes some of the keys. Versions of a key only grow, and the last one is known once its call ended.
func TestNoValueIsReturnedAfterTheCallThatRemovedIt(t *testing.T) {
	alike := func(*Cache[uint64, uint64]) {}
	coarse := func(c *Cache[uint64, uint64]) {
		c.hash = hasher[uint64]{own: func(_ maphash.Seed, key uint64) uint64 { return key / 2 }}
	}
	const keys, goroutines = 12, 6
	for _, row := range []struct {
		shards uint32
		with   func(*Cache[uint64, uint64])
	}{{1, alike}, {4, alike}, {1, coarse}, {4, coarse}} {
		c, err := Open[uint64, uint64](Setup{Entries: 64, Shards: row.shards})
		if err != nil {
			t.Fatal(err)
		}
		row.with(c)
		var least [keys]atomic.Uint64
		var next, looks atomic.Uint64
		together(goroutines, func(own int) {
			random, made := rand.New(rand.NewSource(int64(own))), uint64(0)
			look := func(key uint64) (uint64, bool) {
				v, found, err := c.Look(key)
				if made++; err != nil {
					t.Error(err)
				}
				return v, found
			}
			for turn := 0; turn < stormCalls/4/goroutines; turn++ {
				key := uint64(random.Intn(keys))
				before := least[key].Load()
				if int(key)%goroutines != own || random.Intn(200) != 0 {
					if v, found := look(key); found && v < before {
						t.Error(key, v, before)
					}
					continue
				}
				version := next.Add(1)
				if version%3 == 0 {
					if _, err := c.Drop(key); err != nil {
						t.Error(err)
					}
					if v, found := look(key); found {
						t.Error("nobody else writes the key", key, v)
					}
				}
				if err := c.Put(key, version, 1); err != nil {
					t.Error(err)
				}
				least[key].Store(version)
			}
			looks.Add(made)
		})
		n, s := holds(t, c), c.Stats()
		if s.Hits+s.Misses != looks.Load() || s.Hits != n.Hits || s.Misses != n.Misses || n.Lookups != looks.Load() {
			t.Fatal(s, n, looks.Load())
		}
		hits, puts := beside(c)
		if t.Log(hits, puts, "beside the lock of", looks.Load(), "looks"); !alwaysExact && (hits < looks.Load()/2 || puts == 0) {
			t.Fatal(hits, puts)
		}
		c.Close()
	}
}

func TestOneLoadForAllWhoMissBesideHits(t *testing.T) {
	defer tellMore()()
	c := open(t, Setup{Entries: 64})
	for round := 0; round < 300; round++ {
		var loads atomic.Int32
		together(6, func(int) {
			for i := 0; i < 20; i++ {
				v, err := c.Get(ctx, 1, func(context.Context) (string, uint32, error) {
					loads.Add(1)
					runtime.Gosched()
					return fmt.Sprint(round), 1, nil
				})
				if v != fmt.Sprint(round) || err != nil {
					t.Error(v, err)
				}
			}
		})
		if _, err := c.Drop(1); err != nil || loads.Load() != 1 {
			t.Fatal(err, loads.Load())
		}
	}
	if s := c.Stats(); s.Loads != 300 || s.Hits+s.Misses != 300*6*20 {
		t.Fatal(s)
	}
}

// Of the hits beside the lock the adviser is shown those that the library is told, each once.
func TestTheAdviserIsShownWhatTheLibraryIsTold(t *testing.T) {
	defer tellMore()()
	c := open(t, Setup{Entries: 1024, Shards: 2})
	random, shown := rand.New(rand.NewSource(5)), uint64(0)
	for turn := 0; turn < 50_000; turn++ {
		key := uint64(random.Intn(200))
		if turn%1000 == 0 {
			key += 1000
		}
		before := pendingOf(c.shards[0])
		_, _ = c.Get(ctx, key, got(""))
		if after := pendingOf(c.shards[0]); len(after) < len(before) {
			shown += uint64(len(before))
		}
	}
	told, _ := c.shards[0].lib.numbers()
	if pending := uint64(len(pendingOf(c.shards[0]))); shown+pending < told.Lookups-64 || told.Lookups*3 > 50_000 {
		t.Fatal(shown, pending, told)
	}
}
