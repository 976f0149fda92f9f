package rookdresser

// Many goroutines at once, and what has to hold whichever goes first.

import (
	"context"
	"errors"
	"math/rand"
	"runtime"
	"sync"
	"sync/atomic"
	"testing"
	"time"
)

// A source has the versions of six keys, which only grow. low is the latest whose writer has told the cache.
type source struct {
	version, low [6]atomic.Uint64
	writer       [6]sync.Mutex
}

func (s *source) fetch(key int) func(context.Context) (uint64, uint32, error) {
	return func(context.Context) (uint64, uint32, error) {
		v := s.version[key].Load()
		if v%5 == 0 {
			runtime.Gosched()
		}
		return v, 1, nil
	}
}

// write makes a new version, and puts it or drops the old one.
func (s *source) write(c *Cache[int, uint64], key int, puts bool) (err error) {
	s.writer[key].Lock()
	defer s.writer[key].Unlock()
	v := s.version[key].Add(1)
	if puts {
		err = c.Put(key, v, 1)
	} else {
		_, err = c.Drop(key)
	}
	s.low[key].Store(v)
	return err
}

func TestNoGetAndNoLookReturnsAVersionThatWasReplacedBeforeIt(t *testing.T) {
	for _, s := range []Setup{
		{Entries: 4}, {Entries: 64, Seeded: true}, {Entries: 8, Shards: 4}, {Entries: 64, Refresh: time.Millisecond, AfterWrite: 3 * time.Millisecond}, {Entries: 512, Shards: 2},
	} {
		s, clock := timed(s)
		c, err := Open[int, uint64](s)
		if err != nil {
			t.Fatal(err)
		}
		var of source
		together(8, func(i int) {
			random := rand.New(rand.NewSource(int64(i)))
			for turn := 0; turn < stormLoads; turn++ {
				key := random.Intn(6)
				low := of.low[key].Load()
				var v uint64
				err, found := error(nil), true
				switch what := random.Intn(100); {
				case what < 10:
					clock.at.Add(1)
					err, found = of.write(c, key, what < 5), false
				case what < 40:
					v, found, err = c.Look(key)
				default:
					v, err = c.Get(ctx, key, of.fetch(key))
				}
				if err != nil || found && v < low {
					t.Error(key, v, low, err)
					return
				}
			}
		})
		holds(t, c)
		c.Close()
	}
}

func TestAHundredGoroutinesLoadEachOfAHundredKeysOnce(t *testing.T) {
	defer runtime.GOMAXPROCS(runtime.GOMAXPROCS(0))
	for _, processors := range []int{1, 2, 4, 64} {
		runtime.GOMAXPROCS(processors)
		c := open(t, Setup{Entries: 200})
		var loads [100]atomic.Int32
		begin := make(chan bool)
		go func() { runtime.Gosched(); close(begin) }()
		together(100, func(i int) {
			<-begin
			for n := range loads {
				key := (n + i) % len(loads)
				v, err := c.Get(ctx, uint64(key), func(context.Context) (string, uint32, error) {
					loads[key].Add(1)
					runtime.Gosched()
					return "loaded", 1, nil
				})
				if v != "loaded" || err != nil {
					t.Error(v, err)
				}
			}
		})
		for key := range loads {
			if n := loads[key].Load(); n != 1 {
				t.Fatal(key, n)
			}
		}
		holds(t, c)
	}
}

// Each loads its own key, and then asks for the next one's, in two caches by turns.
func TestACircleOfAnyLengthIsTold(t *testing.T) {
	caches := []*Cache[uint64, string]{open(t, Setup{Entries: 100}), open(t, Setup{Entries: 100, Shards: 2, Seeded: true})}
	for _, length := range []int{1, 2, 3, 7, 10, 30, 50} {
		for turn := 0; turn < 20; turn++ {
			var begun sync.WaitGroup
			begun.Add(length)
			var told atomic.Int32
			together(length, func(i int) {
				next := (i + 1) % length
				_, err := caches[i%2].Get(ctx, uint64(i), func(context.Context) (string, uint32, error) {
					begun.Done()
					begun.Wait()
					v, err := caches[next%2].Get(ctx, uint64(next), got("none"))
					if err == ErrWaitsForItself {
						told.Add(1)
						err = nil
					}
					return v, 1, err
				})
				if err != nil {
					t.Error(err)
				}
			})
			if told.Load() != 1 {
				t.Fatal(length, told.Load())
			}
			for _, c := range caches {
				holds(t, c)
				_ = c.Clear()
			}
		}
	}
	if len(waits.of) != 0 {
		t.Fatal(len(waits.of))
	}
}

// Two loads wait for each other through goroutines of their own: nobody sees that, and it lasts until a context ends.
func TestACircleThroughOtherGoroutinesLastsUntilAContextEnds(t *testing.T) {
	c := open(t, setup)
	brief, cancel := context.WithCancel(ctx)
	var begun sync.WaitGroup
	begun.Add(2)
	go func() { waitForJoins(c, 2); cancel() }()
	together(2, func(i int) {
		_, err := c.Get(ctx, uint64(i), func(context.Context) (string, uint32, error) {
			begun.Done()
			begun.Wait()
			child := make(chan error)
			go func() { _, err := c.Get(brief, uint64(1-i), got("none")); child <- err }()
			return "", 1, <-child
		})
		if err != context.Canceled {
			t.Error(err)
		}
	})
	holds(t, c)
}

// What waits gives up at any moment; each load ends all the same.
func TestAStormOfGetsThatGiveUpLeavesNothing(t *testing.T) {
	c := open(t, Setup{Entries: 20})
	together(16, func(i int) {
		random := rand.New(rand.NewSource(int64(i)))
		for turn := 0; turn < 2000; turn++ {
			brief, cancel := context.WithCancel(ctx)
			if random.Intn(2) == 0 {
				cancel()
			} else {
				go func() { runtime.Gosched(); cancel() }()
			}
			v, err := c.Get(brief, uint64(random.Intn(40)), func(lasting context.Context) (string, uint32, error) {
				for n := 0; n < 5; n++ {
					runtime.Gosched()
				}
				return "loaded", 1, lasting.Err()
			})
			if cancel(); err != context.Canceled && (v != "loaded" || err != nil) {
				t.Error(v, err)
			}
		}
	})
	holds(t, c)
	if len(waits.of) != 0 || c.Stats().Failed != 0 {
		t.Fatal(len(waits.of), c.Stats())
	}
}

func TestAStormOfClosingLetsGoOfEverything(t *testing.T) {
	for turn := 0; turn < 50; turn++ {
		c, err := Open[uint64, string](Setup{Entries: 40 + 560*uint32(turn%2), Shards: 1 + uint32(turn%3)})
		if err != nil {
			t.Fatal(err)
		}
		var told atomic.Int64
		c.Listen(func(left Left[uint64, string]) {
			if told.Add(1); left.Key == 7 {
				c.Close()
			}
		})
		together(16, func(i int) {
			random := rand.New(rand.NewSource(int64(turn*16 + i)))
			for n := 0; n < 300; n++ {
				key := uint64(random.Intn(60))
				_, err := c.Get(ctx, key, func(context.Context) (string, uint32, error) {
					if n == 200+i {
						c.Close()
					}
					return "loaded", 1, nil
				})
				if err != nil && !errors.Is(err, ErrClosed) {
					t.Error(err)
				}
			}
		})
		c.Close()
		s := c.Stats()
		values, keys := c.Kept()
		if left := s.Explicit + s.Replaced + s.Expired + s.Size; values != 0 || keys != 0 || left != uint64(told.Load()) || s.Loads-s.Loose != left {
			t.Fatal(values, keys, s, told.Load())
		}
		if c.adviser != nil {
			isClosed(t, c)
		}
	}
}
