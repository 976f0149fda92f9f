package rookdresser

import (
	"runtime"
	"testing"

	"rookdresser/internal/refusing"
)

// Of each call the first, the second or the third allocation is refused, if there are so many. Then the call is refused, or a value
// that was loaded is returned and not stored, or a hit is no use; and the cache is whole.
func TestRefusedMemoryKeepsTheCacheWhole(t *testing.T) {
	keepsWholeWithoutMemory(t, open(t, Setup{Entries: 200, Adaptive: Off, Flights: 16}))
	keepsWholeWithoutMemory(t, open(t, Setup{Entries: 512, Bound: 200, Flights: 16}))
}

// Of a cache with 8-byte keys and values, that is full. Most of it are the key, the entry and the slot; each shard takes 16 bytes an entry
// for its look-ups, its notices, its stripes and itself.
func TestAnEntryOfASmallCacheTakesAtMost146Bytes(t *testing.T) {
	allocated := func() float64 {
		var heap runtime.MemStats
		runtime.GC()
		runtime.GC()
		runtime.ReadMemStats(&heap)
		return float64(heap.HeapAlloc)
	}
	for _, shards := range []uint32{0, 1, 32} {
		before := allocated()
		c, err := Open[uint64, uint64](Setup{Entries: 4096, Shards: shards})
		if err != nil {
			t.Fatal(err)
		}
		for key := uint64(0); key < 16_384; key++ {
			mustPut(t, c.Put(key, key, 1))
		}
		bytes := (allocated() - before) / 4096
		if t.Log(len(c.shards), "shards:", bytes, "bytes an entry"); bytes > 146 {
			t.Error(bytes)
		}
		c.Close()
	}
}

func keepsWholeWithoutMemory(t *testing.T, c *Cache[uint64, string]) {
	var refused, loose, puts uint64
	for i := 0; i < 3000; i++ {
		key, before := uint64(i*7919)%600, c.Stats()
		if c.adviser != nil {
			c.adviser.wanted.Store(1 + uint32(i*271)%512)
		}
		was := refusing.After(i%3, func() {
			switch i % 4 {
			case 0:
				if err := c.Put(key, "put", 1); err == ErrOutOfMemory {
					puts++
				} else if err != nil {
					t.Fatal(err)
				}
			case 1:
				_, _, _ = c.Look(key)
			default:
				if v, err := c.Get(ctx, key, got("loaded")); v == "" && err != ErrOutOfMemory || v != "" && err != nil {
					t.Fatal(v, err)
				}
			}
		})
		after := c.Stats()
		refused += after.Refused[ErrOutOfMemory] - before.Refused[ErrOutOfMemory]
		loose += after.Loose - before.Loose
		if !was && (after.Loose != before.Loose || after.Refused[ErrOutOfMemory] != before.Refused[ErrOutOfMemory]) {
			t.Fatal(i, before, after)
		}
		holds(t, c)
	}
	t.Log(refused, "calls refused,", loose, "values not stored")
	if loose == 0 || puts == 0 {
		t.Fatal(loose, puts)
	}
}
