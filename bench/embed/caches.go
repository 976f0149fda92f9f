// caches CACHE KEYS ROUNDS THREADS [WORK [ENTRIES]]: hits, puts, 31 hits to a put and read-through of the keys in a file through Go's
// wrapper or another cache, as calls.c does, or the one of them that is named: a line for each round, with the nanoseconds an operation
// and the misses of the read-through. With one thread they are of processor, the collector's work included; with more they are of time, of
// all threads together. Each thread goes through all keys; in the work `stream`, a read-through too, each takes the next one.
package main

import (
	"context"
	"encoding/binary"
	"fmt"
	"os"
	"runtime"
	"strconv"
	"strings"
	"sync"
	"sync/atomic"
	"syscall"
	"time"

	"rookdresser"
)

const held = 2048

var entries = 4096

type cache interface {
	holds(key uint64) bool
	hit(key uint64)
	put(key uint64)
	readThrough(key uint64)
	close()
}

var ctx, misses = context.Background(), uint64(0)

type ours struct {
	c *rookdresser.Cache[uint64, uint64]
}

func (o ours) holds(key uint64) bool { return o.c.Contains(key) }
func (o ours) hit(key uint64)        { _, _, _ = o.c.Look(key) }
func (o ours) put(key uint64)        { _ = o.c.Put(key, key, 1) }
func (o ours) close()                { o.c.Close() }
func (o ours) readThrough(key uint64) {
	_, _ = o.c.Get(ctx, key, func(context.Context) (uint64, uint32, error) { atomic.AddUint64(&misses, 1); return key, 1, nil })
}

// Other caches by their names, if their packages are there.
var others = map[string]func() cache{}

func open(name string) cache {
	if other := others[name]; other != nil {
		return other()
	}
	setup := rookdresser.Setup{Entries: uint32(entries), Seeded: name == "seeded"}
	if strings.HasPrefix(name, "sharded") {
		setup.Shards = 8
	}
	if strings.HasPrefix(name, "single") {
		setup.Shards = 1
	}
	if strings.HasSuffix(name, "exact") {
		setup.Reads = rookdresser.Exact
	}
	switch name {
	case "fixed":
		setup.Adaptive = rookdresser.Off
	case "fixed-40":
		setup.Window = setup.Entries * 40 / 100
	}
	c, err := rookdresser.Open[uint64, uint64](setup)
	check(err)
	return ours{c}
}

func check(err error) {
	if err != nil {
		fmt.Fprintln(os.Stderr, err)
		os.Exit(1)
	}
}

func now(threads int) time.Duration {
	if threads > 1 {
		return time.Since(begun)
	}
	var used syscall.Rusage
	check(syscall.Getrusage(syscall.RUSAGE_SELF, &used))
	return time.Duration(used.Utime.Nano() + used.Stime.Nano())
}

var begun = time.Now()

// A caller makes the calls of a thread.
type caller func(c cache) func(key uint64)

func hits(c cache) func(uint64)         { return c.hit }
func puts(c cache) func(uint64)         { return c.put }
func readsThrough(c cache) func(uint64) { return c.readThrough }

// mixed makes 31 hits to a put.
func mixed(c cache) func(uint64) {
	n := 0
	return func(key uint64) {
		if n++; n%32 == 0 {
			c.put(key)
		} else {
			c.hit(key)
		}
	}
}

// Each thread goes through all keys, from a place of its own.
func each(c cache, calls caller, keys []uint64, mask uint64, threads int) func(int) {
	return func(t int) {
		call := calls(c)
		from := t * len(keys) / threads
		for _, part := range [][]uint64{keys[from:], keys[:from]} {
			for _, key := range part {
				call(key & mask)
			}
		}
	}
}

// The threads take the keys in turn.
func inTurn(c cache, calls caller, keys []uint64, _ uint64, _ int) func(int) {
	var next int64
	return func(int) {
		call := calls(c)
		for {
			at := atomic.AddInt64(&next, 1) - 1
			if at >= int64(len(keys)) {
				return
			}
			call(keys[at])
		}
	}
}

func round(thread func(int), threads int) time.Duration {
	runtime.GC()
	began := now(threads)
	var all sync.WaitGroup
	for t := 0; t < threads; t++ {
		all.Add(1)
		go func(t int) {
			defer all.Done()
			thread(t)
		}(t)
	}
	all.Wait()
	return (now(threads) - began) / time.Duration(threads)
}

func main() {
	raw, err := os.ReadFile(os.Args[2])
	check(err)
	rounds, err := strconv.Atoi(os.Args[3])
	check(err)
	threads, err := strconv.Atoi(os.Args[4])
	check(err)
	only := ""
	if len(os.Args) > 5 {
		only = os.Args[5]
	}
	if len(os.Args) > 6 {
		entries, err = strconv.Atoi(os.Args[6])
		check(err)
	}
	runtime.GOMAXPROCS(threads)
	keys := make([]uint64, len(raw)/8)
	for i := range keys {
		keys[i] = binary.LittleEndian.Uint64(raw[8*i:])
	}
	for _, work := range []struct {
		name   string
		calls  caller
		mask   uint64
		shared func(cache, caller, []uint64, uint64, int) func(int)
	}{
		{"hit", hits, held - 1, each},
		{"put", puts, held - 1, each},
		{"mixed", mixed, held - 1, each},
		{"read-through", readsThrough, 1<<64 - 1, each},
		{"stream", readsThrough, 1<<64 - 1, inTurn},
	} {
		if only == "" && work.name == "stream" || only != "" && only != work.name {
			continue
		}
		for r := 0; r < rounds; r++ {
			c := open(os.Args[1])
			for key := uint64(0); key < held && work.mask < held; key++ {
				for c.put(key); !c.holds(key); c.put(key) {
					runtime.Gosched() // another cache may store it later, or not at all
				}
			}
			misses = 0
			took := round(work.shared(c, work.calls, keys, work.mask, threads), threads)
			c.close()
			fmt.Printf("%s %d %.2f %d\n", work.name, threads, float64(took)/float64(len(keys)), misses)
		}
	}
}
