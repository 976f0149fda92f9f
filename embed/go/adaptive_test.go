package rookdresser

// The window that follows the stream of look-ups.

import (
	"context"
	"math/rand"
	"reflect"
	"testing"
	"time"

	"rookdresser/internal/refusing"
)

// At first it holds 10 hundredths of the entries, or for good what the setup says, or one in a hundred; each shard's at least one.
func TestTheWindowFollowsIfTheSetupLetsIt(t *testing.T) {
	for _, row := range []struct {
		s       Setup
		follows bool
		window  uint32
	}{
		{Setup{Entries: 63}, false, 1},
		{Setup{Entries: 64}, true, 6},
		{Setup{Entries: 512}, true, 51},
		{Setup{Entries: 512, Adaptive: On}, true, 51},
		{Setup{Entries: 512, Adaptive: Off}, false, 5},
		{Setup{Entries: 512, Window: 7}, false, 7},
		{Setup{Entries: 512, Window: 7, Adaptive: Off}, false, 7},
		{Setup{Entries: 1001, Shards: 3}, true, 100},
		{Setup{Entries: 1001, Shards: 3, Adaptive: Off}, false, 9},
		{Setup{Entries: 1000, Shards: 1000}, true, 1000},
	} {
		c := open(t, row.s)
		if c.Window() != row.window || (c.adviser != nil) != row.follows {
			t.Error(row, c.Window(), c.adviser != nil)
		}
		c.Close()
		if c.Window() != 0 {
			t.Error(row, c.Window())
		}
	}
	if !(Setup{Entries: 4_194_304}).adapts() || (Setup{Entries: 4_194_305}).adapts() {
		t.Error("an adviser takes up to 4,194,304 entries")
	}
}

// look looks a key up as most programs do: what isn't there is put.
func look(t *testing.T, c *Cache[uint64, string], key uint64) {
	t.Helper()
	_, found, err := c.Look(key)
	if err == nil && !found {
		err = c.Put(key, "", 1)
	}
	if err != nil {
		t.Fatal(err)
	}
}

// popular looks 512 keys up in turn, and between them others that never come again. 64 of them are of the sample, for which a small
// cache has 64 entries: with a window of one it holds 63 of them, with one of six 58, with one of 25 39, and none if it is all window.
func popular(t *testing.T, c *Cache[uint64, string], n uint64) {
	for i := uint64(0); i < n; i++ {
		look(t, c, i%512)
		look(t, c, 1_000_000+i)
	}
}

// fading looks each key up a second time once 360 others were, and never again. Of these some 45 are of the sample: more than the window
// of 25 of a small cache holds, and fewer than its entries.
func fading(t *testing.T, c *Cache[uint64, string], n uint64) {
	for i := uint64(0); i < n; i++ {
		look(t, c, 2_000_000+i)
		look(t, c, 2_000_000+i-180)
	}
}

func TestTheWindowFollowsTheStream(t *testing.T) {
	for _, shards := range []uint32{1, 4} {
		fixed, c := open(t, Setup{Entries: 512, Shards: shards, Adaptive: Off}), open(t, Setup{Entries: 512, Shards: shards})
		for turn := 0; turn < 2; turn++ {
			popular(t, c, 10_000)
			popular(t, fixed, 10_000)
			// Of several shards the adviser sees the look-ups in another order, by which a tenth may be as good.
			if window := c.Window(); window != 5 && (window != 51 || shards == 1) {
				t.Error(shards, turn, window)
			}
			fading(t, c, 10_000)
			fading(t, fixed, 10_000)
			if c.Window() != 512 {
				t.Error(shards, turn, c.Window())
			}
		}
		if mine, theirs := c.Stats().Hits, fixed.Stats().Hits; mine < theirs+10_000 {
			t.Error(shards, mine, theirs)
		}
		if fixed.Window() != 5 && shards == 1 {
			t.Error(fixed.Window())
		}
		holds(t, c)
	}
}

// A witness has an adviser of its own, and knows which look-ups of each shard it wasn't shown yet.
type witness struct {
	t       *testing.T
	c       *Cache[uint64, string]
	adviser *adviser
	kept    map[*shard[uint64, string]][]uint64
	changes int
}

// told is called after each call, with the keys that it looked up. What a shard no longer keeps, 32 at least, the adviser was shown.
func (w *witness) told(keys ...uint64) {
	w.t.Helper()
	for _, key := range keys {
		s, _ := w.c.of(key)
		w.kept[s] = append(w.kept[s], key)
	}
	for _, s := range w.c.shards {
		pending := pendingOf(s)
		shown := len(w.kept[s]) - len(pending)
		if shown > 0 {
			w.show(w.kept[s][:shown])
			w.kept[s] = append([]uint64(nil), w.kept[s][shown:]...)
		}
		if shown < 0 || shown > 0 && shown < 32 || len(pending) > 64 || !reflect.DeepEqual(w.kept[s], pending) {
			w.t.Fatal(shown, w.kept[s], pending)
		}
	}
	if mine, theirs := w.adviser.wanted.Load(), w.c.adviser.wanted.Load(); mine != theirs {
		w.t.Fatal(mine, theirs)
	}
}

// show shows the witness's adviser the look-ups one by one.
func (w *witness) show(keys []uint64) {
	before := w.adviser.wanted.Load()
	for _, key := range keys {
		one := as(key, w.c.shards[0].lib.side.seens)
		w.adviser.show(&one, 1)
	}
	if w.adviser.wanted.Load() != before {
		w.changes++
	}
}

// as returns the key as a number of the type of another one, which is C's.
func as[T ~uint64](key uint64, _ T) T { return T(key) }

// pendingOf returns the look-ups that the adviser isn't shown yet: those that the library was told, and the hits that it will be told.
func pendingOf(s *shard[uint64, string]) (keys []uint64) {
	for _, key := range s.lib.side.seen[:s.lib.side.seens] {
		keys = append(keys, uint64(key))
	}
	for _, hit := range s.lib.side.hit[:s.lib.side.hits] {
		keys = append(keys, uint64(hit.key))
	}
	return keys
}

func TestTheAdviserIsShownEachLookUpOnceAndInItsOrder(t *testing.T) {
	for _, s := range []Setup{
		{Entries: 512, Shards: 1}, {Entries: 512, Shards: 3, AfterWrite: 900 * time.Millisecond, Refresh: 300 * time.Millisecond},
		{Entries: 512, Shards: 1, AfterAccess: 500 * time.Millisecond},
	} {
		random := rand.New(rand.NewSource(3))
		s, clock := timed(exactly(s))
		c := open(t, s)
		w := &witness{t: t, c: c, adviser: newAdviser(s), kept: map[*shard[uint64, string]][]uint64{}}
		defer w.adviser.close()
		get := func(key uint64, fetch func(context.Context) (string, uint32, error)) {
			_, _ = c.Get(ctx, key, fetch)
			w.told(key)
		}
		for turn := uint64(0); turn < 40_000; turn++ {
			clock.at.Add(int64(turn % 2))
			key := turn / 2 % 512 // as popular
			if turn/10_000%2 == 1 {
				key = 2_000_000 + turn/2 - 180*(turn%2) // as fading
			} else if turn%2 == 1 {
				key = 1_000_000 + turn
			}
			switch what := random.Intn(100); {
			case what < 40:
				get(key, got("loaded"))
			case what < 45:
				get(key, fails)
			case what < 80:
				_, found, _ := c.Look(key)
				if w.told(key); !found {
					_ = c.Put(key, "put", 1)
				}
			case what < 90:
				_, _ = c.GetMany(ctx, []uint64{key, key}, each(new([][]uint64)))
				w.told(key, key)
			case what < 95:
				_, _ = c.Drop(key)
			case what < 99:
				_, _, _ = c.Contains(key), c.Keys(), c.Clean()
			}
			w.told()
		}
		if holds(t, c); w.changes < 3 {
			t.Fatal(w.changes)
		}
	}
}

// A counter calls one thing after another, and knows how far the window moves and how many steps the library makes.
type counter struct {
	*testing.T
	c *Cache[uint64, string]
}

func (n counter) moves(name string, moves int, steps uint64, call func()) {
	n.Helper()
	before, _ := n.c.Numbers()
	was := n.c.Window()
	call()
	after, _ := n.c.Numbers()
	if moved := int(n.c.Window()) - int(was); moved != moves || after.Step-before.Step != steps {
		n.Errorf("%s moves the border by %d, in %d steps", name, moved, after.Step-before.Step)
	}
}

// wants has the adviser want so many, and forget what it wasn't shown.
func wants(c *Cache[uint64, string], entries uint32) {
	c.adviser.wanted.Store(entries)
	for _, s := range c.shards {
		s.lib.side.seens = 0
	}
}

func TestCallsThatLookUpSeekPutOrLandMakeUpToFourSlides(t *testing.T) {
	c := open(t, exactly(Setup{Entries: 512, Shards: 1}))
	n := counter{t, c}
	hits := func(hits int) func() {
		return func() {
			for i := 0; i < hits; i++ {
				_, _, _ = c.Look(1)
			}
		}
	}
	put := func() { _ = c.Put(1, "one", 1) }
	n.moves("a put where nothing is to do", 0, 1, put)
	wants(c, 77)
	n.moves("a put", 4, 5, put)
	n.moves("a look that misses, which is kept,", 0, 1, func() { _, _, _ = c.Look(2) })
	n.moves("a get, which seeks and lands,", 8, 10, func() { _, _ = c.Get(ctx, 3, got("three")) })
	n.moves("a get that fails", 8, 10, func() { _, _ = c.Get(ctx, 4, fails) })
	n.moves("28 hits, which are kept,", 0, 28, hits(28))
	n.moves("32 hits", 4, 36, hits(32))
	// It is shown these look-ups, and wants what it wanted at first, 51.
	n.moves("the next put", -4, 5, put)
	wants(c, 1)
	n.moves("a drop", 0, 1, func() { _, _ = c.Drop(3) })
	n.moves("a forget", 0, 1, func() { _, _ = c.Forget(3) })
	n.moves("a clean", 0, 1, func() { _ = c.Clean() })
	n.moves("what counts no look-up", 0, 0, func() { _, _, _ = c.Contains(1), c.Keys(), c.Stats() })
	n.moves("a clear", 0, 1, func() { _ = c.Clear() })
	n.moves("a put, narrower,", -4, 5, put)
	n.moves("many puts", -66, 166, func() {
		for i := 0; i < 100; i++ {
			put()
		}
	})
	n.moves("a put at the narrow end", 0, 1, put)
	wants(c, 512)
	n.moves("as many, wider,", 511, 711, func() {
		for i := 0; i < 200; i++ {
			put()
		}
	})
	n.moves("a put at the wide end", 0, 1, put)
}

func TestARefusedCallMovesNoTimeThoughItMovesTheBorder(t *testing.T) {
	s, clock := timed(Setup{Entries: 512, Bound: 10, AfterWrite: 100 * time.Millisecond})
	c := open(t, s)
	_ = c.Put(1, "one", 1)
	c.adviser.wanted.Store(1)
	clock.at.Store(200)
	counter{t, c}.moves("a put that is too heavy", -4, 4, func() {
		if err := c.Put(2, "two", 11); err != ErrTooHeavy {
			t.Error(err)
		}
	})
	clock.at.Store(99)
	if n := holds(t, c); n.Latest != 0 || !c.Contains(1) {
		t.Fatal(n)
	}
}

// Of a call by which more entries leave than the wrapper copies at once, none is lost to a slide.
func TestNoSlideLosesANotice(t *testing.T) {
	c, told := open(t, Setup{Entries: 512, Bound: 100}), uint64(0)
	c.Listen(func(Left[uint64, string]) { told++ })
	for turn := uint64(0); turn < 200; turn++ {
		c.adviser.wanted.Store(1 + uint32(turn%2)*511)
		for key := uint64(0); key < 100; key++ {
			look(t, c, key)
		}
		weight := uint32(60 + turn%40)
		_, _ = c.Get(ctx, 1000+turn, func(context.Context) (string, uint32, error) { return "heavy", weight, nil })
		_ = c.Put(2000+turn, "heavy", weight)
	}
	n, s := holds(t, c), c.Stats()
	if s.Size < 10_000 || s.Size != told || s.Size != n.Evicted {
		t.Fatal(s, told, n)
	}
}

// If memory is refused for it, the cache opens with a window of a hundredth. The first look-ups that are shown open the adviser.
func TestAnAdviserThatIsRefusedMemoryIsOpenedLater(t *testing.T) {
	later := 0
	for n := 0; ; n++ {
		var c *Cache[uint64, string]
		var err error
		if !refusing.After(n, func() { c, err = Open[uint64, string](Setup{Entries: 512, Shards: 1}) }) {
			if err != nil || c.Window() != 51 {
				t.Fatal(err, c.Window())
			}
			c.Close()
			break
		}
		if err != nil {
			if err != ErrOutOfMemory {
				t.Fatal(err)
			}
			continue
		}
		later++
		for key := uint64(0); key < 31; key++ {
			look(t, c, key)
		}
		if c.Window() != 5 {
			t.Fatal(n, c.Window())
		}
		for key := uint64(31); key < 58; key++ {
			look(t, c, key)
		}
		if c.Window() != 51 {
			t.Fatal(n, c.Window())
		}
		c.Close()
	}
	if later < 5 {
		t.Fatal(later)
	}
}

func TestNoCallFailsForASlideThatIsRefusedMemory(t *testing.T) {
	c := open(t, Setup{Entries: 512, Shards: 1})
	for key := uint64(0); key < 512; key++ {
		look(t, c, key)
	}
	n, refused := counter{t, c}, 0
	for key := uint64(1000); key < 1100; key++ {
		wants(c, 1+uint32(key%2)*511)
		fails := func() {
			if _, err := c.Get(ctx, key, fails); err != errDown {
				t.Error(err)
			}
		}
		four := 4 - 8*int(1-key%2)
		if refusing.After(0, func() { n.moves("a get whose first slide is refused memory", four, 6, fails) }) {
			refused++
		}
		n.moves("the next get", 2*four, 10, fails)
	}
	if refused != 100 {
		t.Fatal(refused)
	}
	holds(t, c)
}

// As it is closed, it has 90 look-ups that the adviser wasn't shown, or none.
func TestAClosedCacheHasNoAdviser(t *testing.T) {
	for _, looked := range []uint64{90, 0} {
		c := open(t, Setup{Entries: 512, Shards: 1})
		for i := uint64(0); i < looked; i++ {
			look(t, c, i%60) // at last 30 hits, of which the library isn't told yet
		}
		c.Close()
		for key := uint64(0); key < 1000; key++ {
			if _, _, err := c.Look(key); err != ErrClosed {
				t.Fatal(err)
			}
		}
		isClosed(t, c)
	}
}

// isClosed has the adviser compared with one that was never open.
func isClosed(t *testing.T, c *Cache[uint64, string]) {
	t.Helper()
	if !reflect.ValueOf(c.adviser.side).IsZero() {
		t.Fatal("the adviser is open")
	}
}

// restless has what is wanted move all the time until it is stopped.
func restless[K comparable](c *Cache[K, string]) (stop func()) {
	ended, stopped := make(chan bool), make(chan bool)
	go func() {
		defer close(stopped)
		for random := rand.New(rand.NewSource(1)); ; {
			select {
			case <-ended:
				return
			case <-time.After(time.Millisecond):
				c.adviser.wanted.Store(1 + uint32(random.Intn(int(c.adviser.entries))))
			}
		}
	}()
	return func() { close(ended); <-stopped }
}
