package rookdresser

import (
	"context"
	"runtime"
	"testing"
	"time"
)

func TestAListenerIsToldWhatLeftAndMayUseTheCache(t *testing.T) {
	s, clock := timed(Setup{Entries: 10, AfterWrite: 100 * time.Millisecond})
	c := openOf[string](t, s)
	var told []Left[string, string]
	var again []string
	c.Listen(func(left Left[string, string]) {
		told = append(told, left)
		if left.Cause == Expired {
			v, err := c.Get(ctx, left.Key, got("other"))
			if err != nil {
				t.Error(err)
			}
			again = append(again, v)
		}
	})
	if err := c.Put("a", "first", 1); err != nil {
		t.Fatal(err)
	}
	clock.at.Store(200)
	if v, err := c.Get(ctx, "a", got("second")); v != "second" || err != nil {
		t.Fatal(v, err)
	}
	// The value that the get loaded was there by the time that the listener was called.
	if len(again) != 1 || again[0] != "second" {
		t.Fatal(again)
	}
	if err := c.Put("a", "third", 1); err != nil {
		t.Fatal(err)
	}
	c.Close()
	want := []Left[string, string]{{"a", "first", Expired}, {"a", "second", Replaced}, {"a", "third", Explicit}}
	if len(told) != 3 || told[0] != want[0] || told[1] != want[1] || told[2] != want[2] {
		t.Fatal(told)
	}
}

func TestALoadOrAListenerThatBlocksStopsNoOtherCall(t *testing.T) {
	c, begun, end, ended := open(t, setup), make(chan struct{}), make(chan struct{}), make(chan error)
	block := func() { begun <- struct{}{}; <-end }
	c.Listen(func(Left[uint64, string]) { block() })
	meanwhile := func() {
		<-begun
		if v, err := c.Get(ctx, 2, got("two")); v != "two" || err != nil {
			t.Error(v, err)
		}
		if _, found, err := c.Look(3); found || err != nil {
			t.Error(found, err)
		}
		end <- struct{}{}
	}
	go func() {
		_, err := c.Get(ctx, 1, func(context.Context) (string, uint32, error) { block(); return "one", 1, nil })
		ended <- err
	}()
	meanwhile()
	if err := <-ended; err != nil {
		t.Fatal(err)
	}
	go func() { _, err := c.Drop(1); ended <- err }()
	meanwhile()
	if err := <-ended; err != nil {
		t.Fatal(err)
	}
	holds(t, c)
	c.Listen(nil)
}

func TestAListenerMayCloseTheCache(t *testing.T) {
	c := open(t, setup)
	c.Listen(func(Left[uint64, string]) { c.Close() })
	for key := uint64(0); key < 3; key++ {
		if err := c.Put(key, "held", 1); err != nil {
			t.Fatal(err)
		}
	}
	if there, err := c.Drop(1); !there || err != nil {
		t.Fatal(there, err)
	}
	if values, keys := c.Kept(); values != 0 || keys != 0 {
		t.Fatal(values, keys)
	}
}

func TestAListenerThatPanicsKeepsNothingFromBeingTold(t *testing.T) {
	c := open(t, setup)
	told := 0
	c.Listen(func(Left[uint64, string]) { told++; panic("of the listener") })
	for key := uint64(0); key < 3; key++ {
		if err := c.Put(key, "held", 1); err != nil {
			t.Fatal(err)
		}
	}
	func() {
		defer func() {
			if recover() != "of the listener" {
				t.Error("the panic is passed on")
			}
		}()
		_ = c.Clear()
	}()
	if n := holds(t, c); told != 3 || n.Entries != 0 {
		t.Fatal(told, n)
	}
}

func TestAListenerThatEndsItsGoroutineKeepsNothingFromBeingTold(t *testing.T) {
	c, told, ended := open(t, setup), 0, make(chan bool)
	c.Listen(func(Left[uint64, string]) { told++; runtime.Goexit() })
	for key := uint64(0); key < 3; key++ {
		if err := c.Put(key, "held", 1); err != nil {
			t.Fatal(err)
		}
	}
	go func() {
		defer close(ended)
		_ = c.Clear()
		t.Error("its goroutine has not ended")
	}()
	<-ended
	if n := holds(t, c); told != 3 || n.Entries != 0 {
		t.Fatal(told, n)
	}
}

// framed has twenty kilobytes of stack in use as it calls end.
func framed(end func()) byte {
	var frame [20_000]byte
	end()
	return frame[len(frame)-1]
}

func TestAListenerThatPanicsForEachOfManyEntriesEndsInOnePanic(t *testing.T) {
	const entries = 65_536
	for _, end := range []func(n int){func(n int) { panic(n) }, func(int) { panic(nil) }, func(int) { runtime.Goexit() }} {
		c, told := open(t, Setup{Entries: entries, Shards: 1}), 0
		c.Listen(func(Left[uint64, string]) { told++; framed(func() { end(told) }) })
		for key := uint64(0); key < entries; key++ {
			if err := c.Put(key, "held", 1); err != nil {
				t.Fatal(err)
			}
		}
		why := make(chan any)
		go func() {
			defer func() { why <- recover() }()
			_ = c.Clear()
			t.Error("the call returns")
		}()
		if first := <-why; first != nil && first != 1 || told != entries {
			t.Fatal(first, told)
		}
		holds(t, c)
		c.Listen(nil)
	}
}
