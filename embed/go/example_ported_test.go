package rookdresser_test

// Programs of the pages of other packages, each line with theirs for which it stands. README.md shows them.

import (
	"context"
	"fmt"
	"time"

	"rookdresser"
)

func Example_golangLRU() {
	l, err := rookdresser.Open[int, any](rookdresser.Setup{Entries: 128}) // l, err := lru.New[int, any](128)
	if err != nil {
		panic(err)
	}
	defer l.Close()
	for i := 0; i < 256; i++ {
		l.Store(i, nil) // l.Add(i, nil)
	}
	if n := len(l.Keys()); n != 128 { // if l.Len() != 128
		panic(fmt.Sprintf("bad len: %v", n))
	}
	fmt.Println(len(l.Keys()))
	// Output: 128
}

func Example_expirable() {
	now := time.Date(2026, 11, 29, 12, 0, 0, 0, time.UTC)
	clock := func() time.Time { return now }
	sleep := func(d time.Duration) { now = now.Add(d) }

	// cache := expirable.NewLRU[string, string](5, nil, time.Millisecond*10)
	cache, err := rookdresser.Open[string, string](rookdresser.Setup{Entries: 5, AfterWrite: time.Millisecond * 10, Clock: clock})
	if err != nil {
		panic(err)
	}
	defer cache.Close()
	cache.Store("key1", "val1")          // cache.Add("key1", "val1")
	r, ok, _ := cache.Look("key1")       // r, ok := cache.Get("key1")
	fmt.Printf("before: %v %q\n", ok, r) // the same
	sleep(time.Millisecond * 12)         // time.Sleep(time.Millisecond * 12)
	r, ok, _ = cache.Look("key1")        // r, ok = cache.Get("key1")
	fmt.Printf("after: %v %q\n", ok, r)  // the same
	cache.Store("key2", "val2")          // cache.Add("key2", "val2")
	fmt.Println(len(cache.Keys()))       // fmt.Println(cache.Len())

	// Output:
	// before: true "val1"
	// after: false ""
	// 1
}

func Example_ristretto() {
	// ristretto.NewCache(&ristretto.Config[string, string]{NumCounters: 1e7, MaxCost: 1 << 30, BufferItems: 64})
	cache, err := rookdresser.Open[string, string](rookdresser.Setup{Entries: 1e6, Bound: 1 << 30})
	if err != nil {
		panic(err)
	}
	defer cache.Close()                  // the same
	cache.Put("key", "value", 1)         // cache.Set("key", "value", 1) and cache.Wait()
	value, found, _ := cache.Look("key") // value, found := cache.Get("key")
	if !found {
		panic("missing value")
	}
	fmt.Println(value) // the same
	cache.Drop("key")  // cache.Del("key")
	// Output: value
}

func Example_singleflight() {
	ctx := context.Background()
	g, err := rookdresser.Open[string, string](rookdresser.Setup{Entries: 1000}) // var g singleflight.Group
	if err != nil {
		panic(err)
	}
	defer g.Close()
	v, err := g.GetWith(ctx, "key", func(ctx context.Context) (string, error) { // v, err, shared := g.Do("key", func() (any, error) {
		return load(ctx, "key") // return load("key")
	})
	fmt.Println(v, err)
	// Output: loaded for key <nil>
}

func load(_ context.Context, key string) (string, error) { return "loaded for " + key, nil }

func Example_groupcache() {
	// thumbNails := groupcache.NewGroup("thumbnail", 64<<20, groupcache.GetterFunc(..))
	thumbNails, err := rookdresser.Open(rookdresser.Setup{Entries: 10_000, Bound: 64 << 20},
		rookdresser.Weigh(func(_ string, data []byte) uint32 { return uint32(len(data)) }))
	if err != nil {
		panic(err)
	}
	defer thumbNails.Close()
	ctx, fileName := context.Background(), "big-file.jpg"

	// thumbNails.Get(ctx, fileName, groupcache.AllocatingByteSliceSink(&data))
	data, err := thumbNails.GetWith(ctx, fileName, func(context.Context) ([]byte, error) {
		return generateThumbnail(fileName), nil // dest.SetBytes(generateThumbnail(fileName))
	})
	fmt.Println(string(data), err)
	// Output: small big-file.jpg <nil>
}

func generateThumbnail(fileName string) []byte { return []byte("small " + fileName) }
