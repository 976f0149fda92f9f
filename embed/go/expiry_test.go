package rookdresser

// What is there at which moment: beside a model by hand, and beside the library as it is told each call at once.

import (
	"context"
	"fmt"
	"math/rand"
	"sort"
	"testing"
	"time"
)

var mixes = [][3]int64{
	{0, 0, 0}, {40, 0, 0}, {0, 40, 0}, {0, 0, 40}, {90, 40, 0}, {40, 90, 0}, {90, 0, 40}, {0, 90, 40}, {90, 60, 30}, {90, 30, 60},
}

func mixed(mix [3]int64, entries uint32) (Setup, *hand) {
	ms := func(i int) time.Duration { return time.Duration(mix[i]) * time.Millisecond }
	return timed(Setup{Entries: entries, Flights: 4, AfterWrite: ms(0), AfterAccess: ms(1), Refresh: ms(2)})
}

// step moves the clock on, and at times back.
func (h *hand) step(random *rand.Rand) {
	h.at.Add(int64(random.Intn(4)))
	if random.Intn(20) == 0 {
		h.at.Add(-int64(random.Intn(60)))
	}
}

// A lived entry is what the model knows of one: since when, and its own life if it isn't 0.
type lived struct {
	value               string
	written, used, life int64
}

// someLife returns a life below so many milliseconds, or half of the time 0 for none.
func someLife(random *rand.Rand, below int) int64 { return int64(random.Intn(2) * random.Intn(below)) }

// putFor stores the value with a life, or none.
func putFor(c *Cache[uint64, string], key uint64, value string, life int64) error {
	if life == 0 {
		return c.Put(key, value, 1)
	}
	return c.PutFor(key, value, 1, time.Duration(life)*time.Millisecond)
}

// gotFor returns a value with a life, or none.
func gotFor(value string, life int64) func(context.Context) (string, uint32, time.Duration, error) {
	return func(context.Context) (string, uint32, time.Duration, error) {
		if life == 0 {
			return value, 1, Forever, nil
		}
		return value, 1, time.Duration(life) * time.Millisecond, nil
	}
}

func TestNoExpiredValueIsReturnedAndEachOtherIs(t *testing.T) {
	for _, mix := range mixes {
		random, latest, model := rand.New(rand.NewSource(1)), int64(0), map[uint64]lived{}
		s, clock := mixed(mix, 100)
		c := open(t, s)
		lives := func(key uint64) bool {
			at, there := model[key]
			return there && (mix[0] == 0 || latest-at.written < mix[0]) && (mix[1] == 0 || latest-at.used < mix[1]) &&
				(at.life == 0 || latest-at.written < at.life)
		}
		for turn := 0; turn < 20_000; turn++ {
			clock.step(random)
			if at := clock.at.Load(); at > latest {
				latest = at
			}
			key, value, life := uint64(random.Intn(50)), fmt.Sprint(turn), someLife(random, 80)
			if lives(key) != c.Contains(key) {
				t.Fatal(mix, turn, key, lives(key), model[key])
			}
			switch random.Intn(4) {
			case 0:
				if err := putFor(c, key, value, life); err != nil {
					t.Fatal(err)
				}
				model[key] = lived{value, latest, latest, life}
			case 1:
				if there, err := c.Drop(key); err != nil || there != lives(key) {
					t.Fatal(mix, turn, key, there, err)
				}
				delete(model, key)
			case 2:
				was, live := model[key], lives(key)
				v, err := c.GetFor(ctx, key, gotFor(value, life))
				due := mix[2] != 0 && latest-was.written >= mix[2]
				if err != nil || live && !due && v != was.value || (!live || due) && v != value {
					t.Fatal(mix, turn, key, v, was, err)
				}
				if was.used = latest; !live || due {
					was = lived{value, latest, latest, life}
				}
				model[key] = was
			default:
				v, found, err := c.Look(key)
				if err != nil || found != lives(key) || found && v != model[key].value {
					t.Fatal(mix, turn, key, v, found, model[key], err)
				}
				if found {
					model[key] = lived{v, model[key].written, latest, model[key].life}
				}
			}
			if turn%500 == 0 {
				sameKeys(t, c.Keys(), lives)
			}
		}
		holds(t, c)
	}
}

func sameKeys(t *testing.T, keys []uint64, lives func(uint64) bool) {
	t.Helper()
	seen := map[uint64]bool{}
	for _, key := range keys {
		if seen[key] {
			t.Fatal("twice", key)
		}
		seen[key] = true
	}
	for key := uint64(0); key < 50; key++ {
		if seen[key] != lives(key) {
			t.Fatal(key, seen[key])
		}
	}
}

// A twin is the library, which is told each call at once, with what it told to have left.
type twin struct {
	library
	keys []uint64 // by token
}

func (w *twin) left() (told []string) {
	for i, n := uint64(0), w.notices(); i < n; i++ {
		token, cause := w.notice(i)
		told = append(told, fmt.Sprint(w.keys[token], cause))
	}
	sort.Strings(told)
	return told
}

func (w *twin) token(key uint64) uint64 { w.keys = append(w.keys, key); return uint64(len(w.keys) - 1) }

func TestTheLibraryAnswersAsIfItHadBeenToldEachHitAtOnce(t *testing.T) {
	for _, mix := range mixes {
		random := rand.New(rand.NewSource(2))
		s, clock := mixed(mix, 20)
		s.Reads = Exact
		c, beside := open(t, s), &twin{}
		part, err := s.parts()
		if err != nil {
			t.Fatal(err)
		}
		beside.library, _ = openLibrary(part[0], nil)
		var told []string
		c.Listen(func(left Left[uint64, string]) { told = append(told, fmt.Sprint(left.Key, left.Cause)) })
		for turn := 0; turn < 10_000; turn++ {
			clock.step(random)
			now := c.clock.now()
			key, life, made := uint64(random.Intn(60)), someLife(random, 80), false
			if other := uint64(random.Intn(60)); other < key {
				key = other
			}
			var fault Fault
			told = nil
			switch what := random.Intn(12); {
			case what < 4:
				fault = beside.look(key, now)
				_, found, _ := c.Look(key)
				if found != beside.isHit() {
					t.Fatal(mix, turn, key, found)
				}
			case what < 8:
				fault = beside.seek(key, now)
				hit, leads, id := beside.isHit(), beside.leads(), beside.number()
				wanted := beside.left()
				_, _ = c.GetFor(ctx, key, func(context.Context) (v string, weight uint32, _ time.Duration, _ error) {
					made = true
					_, _, lives, _ := gotFor("", life)(ctx)
					return "", uint32(key % 3), lives, nil
				})
				if made != leads || !leads && !hit {
					t.Fatal(mix, turn, key, made)
				}
				if leads {
					fault = beside.land(id, key, beside.token(key), uint32(key%3), uint32(life), now)
				}
				if sameLeft(t, told, append(wanted, beside.leftIf(leads)...)); fault != 0 {
					t.Fatal(fault)
				}
				continue
			case what < 10:
				fault = beside.put(key, beside.token(key), 1, uint32(life), now)
				_ = putFor(c, key, "", life)
			case what < 11:
				fault = beside.drop(key, now)
				_, _ = c.Drop(key)
			default:
				fault = beside.clean(now)
				_ = c.Clean()
			}
			if sameLeft(t, told, beside.left()); fault != 0 {
				t.Fatal(fault)
			}
			if random.Intn(50) == 0 {
				sameNumbers(t, c, beside)
			}
		}
		sameNumbers(t, c, beside)
		beside.close()
		c.Listen(nil)
	}
}

func sameNumbers(t *testing.T, c *Cache[uint64, string], beside *twin) {
	t.Helper()
	mine, _ := c.Numbers()
	if theirs, _ := beside.numbers(); mine != theirs {
		t.Fatal(mine, theirs)
	}
}

func (w *twin) leftIf(landed bool) []string {
	if landed {
		return w.left()
	}
	return nil
}

func sameLeft(t *testing.T, told, wanted []string) {
	t.Helper()
	sort.Strings(told)
	sort.Strings(wanted)
	if fmt.Sprint(told) != fmt.Sprint(wanted) {
		t.Fatal(told, wanted)
	}
}

func TestWithNoClockTheTimeIsThatSinceTheCacheWasOpened(t *testing.T) {
	c := open(t, Setup{Entries: 10, AfterWrite: time.Hour})
	if err := c.Put(1, "one", 1); err != nil {
		t.Fatal(err)
	}
	if _, found, _ := c.Look(1); !found {
		t.Fatal("it has expired at once")
	}
	c.clock.began = c.clock.began.Add(-time.Hour)
	if _, found, _ := c.Look(1); found || c.Contains(1) || len(c.Keys()) != 0 {
		t.Fatal("it hasn't expired")
	}
	if n, _ := c.Numbers(); n.Latest < 3_600_000 || n.Latest > 7_200_000 {
		t.Fatal(n.Latest)
	}
}
