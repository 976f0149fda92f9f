package rookdresser

import (
	"context"
	"errors"
	"fmt"
	"math/rand"
	"runtime"
	"sync/atomic"
	"testing"
	"time"
)

// Eight goroutines, with expiry, refresh, failing loads, invalidations during loads.
func requests(t *testing.T, c *Cache[string, string], clock *hand, seed int64, each int) error {
	random := rand.New(rand.NewSource(seed))
	for i := 0; i < each; i++ {
		clock.at.Add(int64(random.Intn(4) / 3))
		number := random.Intn(2000)
		if other := random.Intn(2000); other < number {
			number = other
		}
		key, what := fmt.Sprint("page ", number), random.Intn(1000)
		var err error
		switch {
		case what < 750:
			var v string
			v, err = c.Get(ctx, key, func(context.Context) (string, uint32, error) {
				switch {
				case what < 50:
					return "", 0, errDown
				case what < 100:
					if _, err := c.Drop(key); err != nil {
						return "", 0, err
					}
				case what < 150:
					runtime.Gosched()
				}
				return key, uint32(number % 20), nil
			})
			if err == nil && v != key {
				t.Error(v, key)
			}
			if err == errDown || errors.Is(err, ErrTooManyFlights) {
				err = nil
			}
		case what < 830:
			err = c.Put(key, key, 1)
		case what < 960:
			var v string
			var found bool
			if v, found, err = c.Look(key); found && v != key {
				t.Error(v, key)
			}
		case what < 980:
			_, err = c.Drop(key)
		case what < 990:
			_, err = c.Forget(key)
		case what < 999 || random.Intn(20) > 0:
			err = c.Clean()
		default:
			err = c.Clear()
		}
		if err != nil {
			return err
		}
	}
	return nil
}

func TestAfterAHundredThousandRequestsExactlyWhatIsHeldIsKept(t *testing.T) {
	s := Setup{Entries: 500, Flights: 64, Bound: 4000, AfterWrite: 1500 * time.Millisecond, Refresh: 600 * time.Millisecond}
	keepsWhatIsHeld(t, s)
	s.Shards = 4
	keepsWhatIsHeld(t, s)
	s.AfterWrite, s.AfterAccess, s.Refresh = 0, 100*time.Millisecond, 60*time.Millisecond
	keepsWhatIsHeld(t, s)
	s.Entries = 600
	keepsWhatIsHeld(t, s)
	s.AfterWrite, s.AfterAccess, s.Refresh, s.Shards = 1500*time.Millisecond, 0, 600*time.Millisecond, 1
	keepsWhatIsHeld(t, s)
}

func keepsWhatIsHeld(t *testing.T, s Setup) {
	s, clock := timed(s)
	c := openOf[string](t, s)
	var told uint64
	c.Listen(func(Left[string, string]) { atomic.AddUint64(&told, 1) })
	if c.adviser != nil {
		defer restless(c)()
	}
	together(8, func(i int) {
		if err := requests(t, c, clock, int64(i), 12500); err != nil {
			t.Error(err)
		}
	})
	n, counts := holds(t, c), c.Stats()
	t.Log(n, counts)
	if counts.Hits != n.Hits || counts.Misses != n.Misses || counts.Failed != n.Failed || counts.Expired+counts.Size != n.Evicted {
		t.Fatal(n, counts)
	}
	if counts.Explicit+counts.Replaced+counts.Expired+counts.Size != told || counts.Loads == 0 || counts.Refreshes == 0 || counts.Loose == 0 || counts.Expired == 0 || n.Entries == 0 {
		t.Fatal(told, counts)
	}
	c.Close()
	if told != counts.Explicit+counts.Replaced+counts.Expired+counts.Size+n.Entries {
		t.Fatal(told, counts)
	}
}

func TestACacheThatIsClosedWhileInUseLetsGoOfEverything(t *testing.T) {
	s, clock := timed(setup)
	c := openOf[string](t, s)
	together(8, func(i int) {
		if i == 0 {
			for clock := uint64(0); c.Stats().Misses < 1000; clock++ {
				runtime.Gosched()
			}
			c.Close()
		} else if err := requests(t, c, clock, int64(i), 20000); !errors.Is(err, ErrClosed) {
			t.Error(err)
		}
	})
	if values, keys := c.Kept(); values != 0 || keys != 0 || len(waits.of) != 0 {
		t.Fatal(values, keys, len(waits.of))
	}
}
