package rookdresser_test

// An example of each call, which TestEachCallHasAnExampleAndEachNameASentence wants.

import (
	"context"
	"errors"
	"fmt"
	"log"
	"sort"
	"strings"
	"time"

	"rookdresser"
)

// opened returns a cache of texts, or ends the program.
func opened(setup rookdresser.Setup) *rookdresser.Cache[string, string] {
	c, err := rookdresser.Open[string, string](setup)
	if err != nil {
		log.Fatal(err)
	}
	return c
}

func ExampleOpen() {
	_, err := rookdresser.Open[string, string](rookdresser.Setup{Entries: 10, Window: 20})
	fmt.Println(errors.Is(err, rookdresser.ErrBadSetup))
	fmt.Println(err)
	// Output:
	// true
	// rookdresser: a setting is out of its range: Window is 20, and has to be from 1 to 10, the Entries
}

func ExampleCache_Get() {
	c := opened(rookdresser.Setup{Entries: 1000})
	defer c.Close()
	fetch := func(context.Context) (string, uint32, error) {
		fmt.Println("fetching")
		return "a text", 1, nil
	}
	for i := 0; i < 2; i++ {
		text, err := c.Get(context.Background(), "a page", fetch)
		fmt.Println(text, err)
	}
	// Output:
	// fetching
	// a text <nil>
	// a text <nil>
}

func ExampleCache_Get_timeout() {
	c := opened(rookdresser.Setup{Entries: 1000})
	defer c.Close()
	fetch := func(context.Context) (string, uint32, error) {
		// Another goroutine would wait for this load for a millisecond.
		ctx, cancel := context.WithTimeout(context.Background(), time.Millisecond)
		defer cancel()
		waited := make(chan error)
		go func() {
			_, err := c.Get(ctx, "a page", func(context.Context) (string, uint32, error) { return "", 1, nil })
			waited <- err
		}()
		fmt.Println("the other:", <-waited)
		return "a text", 1, nil
	}
	fmt.Println(c.Get(context.Background(), "a page", fetch))
	// Output:
	// the other: context deadline exceeded
	// a text <nil>
}

func ExampleCache_Look() {
	c := opened(rookdresser.Setup{Entries: 1000})
	defer c.Close()
	_, found, err := c.Look("a page")
	fmt.Println(found, err)
	_ = c.Put("a page", "a text", 1)
	fmt.Println(c.Look("a page"))
	// Output:
	// false <nil>
	// a text true <nil>
}

func ExampleCache_Put() {
	c := opened(rookdresser.Setup{Entries: 1000, Bound: 64})
	defer c.Close()
	fmt.Println(c.Put("a page", "a text", 64))
	err := c.Put("another", "a longer text", 65)
	fmt.Println(errors.Is(err, rookdresser.ErrTooHeavy), c.Contains("another"))
	// Output:
	// <nil>
	// true false
}

func ExampleCache_Drop() {
	c := opened(rookdresser.Setup{Entries: 1000})
	defer c.Close()
	_ = c.Put("a page", "a text", 1)
	fmt.Println(c.Drop("a page"))
	fmt.Println(c.Drop("a page"))
	// Output:
	// true <nil>
	// false <nil>
}

func ExampleCache_Forget() {
	c := opened(rookdresser.Setup{Entries: 1000})
	defer c.Close()
	text, err := c.Get(context.Background(), "a page", func(context.Context) (string, uint32, error) {
		forgot, err := c.Forget("a page")
		fmt.Println(forgot, err)
		return "a text", 1, nil
	})
	fmt.Println(text, err, c.Contains("a page"))
	// Output:
	// true <nil>
	// a text <nil> false
}

func ExampleCache_Contains() {
	c := opened(rookdresser.Setup{Entries: 1000})
	defer c.Close()
	_ = c.Put("a page", "a text", 1)
	fmt.Println(c.Contains("a page"), c.Contains("another"), c.Stats().Hits)
	// Output: true false 0
}

func ExampleCache_Keys() {
	c := opened(rookdresser.Setup{Entries: 1000})
	defer c.Close()
	_ = c.Put("b", "", 1)
	_ = c.Put("a", "", 1)
	keys := c.Keys()
	sort.Strings(keys)
	fmt.Println(keys)
	// Output: [a b]
}

func ExampleCache_Clear() {
	c := opened(rookdresser.Setup{Entries: 1000})
	defer c.Close()
	_ = c.Put("a page", "a text", 1)
	fmt.Println(c.Clear(), len(c.Keys()), c.Stats().Explicit)
	// Output: <nil> 0 1
}

func ExampleCache_Clean() {
	now := time.Date(2026, 11, 28, 12, 0, 0, 0, time.UTC)
	c := opened(rookdresser.Setup{Entries: 1000, AfterWrite: time.Minute, Clock: func() time.Time { return now }})
	defer c.Close()
	_ = c.Put("a page", "a text", 1)
	now = now.Add(time.Minute)
	fmt.Println(c.Contains("a page"))
	fmt.Println(c.Clean(), c.Stats().Expired)
	// Output:
	// false
	// <nil> 1
}

func ExampleCache_Listen() {
	c := opened(rookdresser.Setup{Entries: 1})
	c.Listen(func(left rookdresser.Left[string, string]) { fmt.Println(left.Key, left.Value, left.Cause) })
	_ = c.Put("a page", "a text", 1)
	c.Close()
	// Output: a page a text Explicit
}

func ExampleOnLeave() {
	c, err := rookdresser.Open(rookdresser.Setup{Entries: 1},
		rookdresser.OnLeave(func(left rookdresser.Left[string, string]) { fmt.Println(left.Key, left.Value, left.Cause) }))
	if err != nil {
		log.Fatal(err)
	}
	_ = c.Store("a page", "a text")
	_ = c.Store("a page", "a new text")
	_ = c.Store("another", "its text")
	c.Close()
	// Output:
	// a page a text Replaced
	// a page a new text Size
	// another its text Explicit
}

func ExampleCache_Close() {
	c := opened(rookdresser.Setup{Entries: 1000})
	c.Close()
	fmt.Println(errors.Is(c.Put("a page", "a text", 1), rookdresser.ErrClosed))
	// Output: true
}

func ExampleCache_Numbers() {
	c := opened(rookdresser.Setup{Entries: 1000})
	defer c.Close()
	_ = c.Put("a page", "a text", 7)
	numbers, err := c.Numbers()
	fmt.Println(numbers.Entries, numbers.Weight, err)
	// Output: 1 7 <nil>
}

func ExampleCache_Window() {
	c := opened(rookdresser.Setup{Entries: 1000})
	defer c.Close()
	fixed := opened(rookdresser.Setup{Entries: 1000, Adaptive: rookdresser.Off})
	defer fixed.Close()
	// The one follows the look-ups, of which there are none yet.
	fmt.Println(c.Window(), fixed.Window())
	// Output: 100 10
}

func ExampleCache_Kept() {
	c := opened(rookdresser.Setup{Entries: 1000})
	defer c.Close()
	_ = c.Put("a page", "a text", 1)
	fmt.Println(c.Kept())
	// Output: 1 1
}

func ExampleStats_HitRatio() {
	c := used()
	defer c.Close()
	fmt.Printf("%.2f\n", c.Stats().HitRatio())
	// Output: 0.33
}

func ExampleStats_String() {
	c := used()
	defer c.Close()
	stats := c.Stats()
	stats.LoadTime = 30 * time.Millisecond
	fmt.Println(stats)
	// Output: hits 1 misses 2 hit-ratio 0.333 joins 0 refreshes 0 loads 1 loose 0 failed 1 load-time 30ms explicit 0 replaced 0 expired 0 size 0 refused 0 beside 0 given-up 0 late 0
}

func ExampleFault_Error() {
	c := opened(rookdresser.Setup{Entries: 1000, Bound: 64})
	defer c.Close()
	err := c.Put("a page", "a text", 65)
	var fault rookdresser.Fault
	fmt.Println(errors.As(err, &fault), fault == rookdresser.ErrTooHeavy)
	fmt.Println(err)
	// Output:
	// true true
	// rookdresser: the value is heavier than the bound
}

func ExampleCause_String() {
	fmt.Println(rookdresser.Explicit, rookdresser.Replaced, rookdresser.Expired, rookdresser.Size)
	// Output: Explicit Replaced Expired Size
}

func ExampleChoice_String() {
	fmt.Println(rookdresser.Default, rookdresser.On, rookdresser.Off)
	// Output: Default On Off
}

func ExampleCache_Abandon() {
	c := opened(rookdresser.Setup{Entries: 1000, LoadTimeout: time.Minute})
	defer c.Close()
	_, err := c.GetWith(context.Background(), "a page", func(ctx context.Context) (string, error) {
		go c.Abandon("a page") // as somebody may who finds that it hangs
		<-ctx.Done()           // as the call of a source does
		return "", ctx.Err()
	})
	fmt.Println(err)
	// Output: rookdresser: the load was abandoned
}

func ExampleInBackground() {
	loaded := make(chan bool)
	load := func(_ context.Context, key string) (string, error) {
		defer close(loaded)
		return "a new text of " + key, nil
	}
	now := time.UnixMilli(0)
	c, err := rookdresser.Open(rookdresser.Setup{Entries: 1000, Refresh: time.Minute, Clock: func() time.Time { return now }},
		rookdresser.InBackground(load))
	if err != nil {
		panic(err)
	}
	defer c.Close()
	c.Store("a page", "a text")
	now = now.Add(time.Minute)
	fmt.Println(c.GetWith(context.Background(), "a page", func(ctx context.Context) (string, error) { return load(ctx, "a page") }))
	<-loaded
	// Output: a text <nil>
}

func ExampleCache_Loads() {
	c := opened(rookdresser.Setup{Entries: 1000})
	defer c.Close()
	_, _ = c.GetWith(context.Background(), "a page", func(context.Context) (string, error) {
		for _, load := range c.Loads() {
			fmt.Println(load.Key, load.Age > 0, load.Waiting)
		}
		return "a text", nil
	})
	// Output: a page true 0
}

func ExampleCache_Describe() {
	c := opened(rookdresser.Setup{Entries: 1000})
	defer c.Close()
	lines := strings.Split(c.Describe(), "\n")
	fmt.Println(lines[0])
	// Output: *rookdresser.Cache[string,string]
}

func ExampleAtLimit_String() {
	fmt.Println(rookdresser.Setup{}.AtLimit, rookdresser.Refuse)
	// Output: LoadBeside Refuse
}

func ExampleReads_String() {
	fmt.Println(rookdresser.Setup{}.Reads, rookdresser.Exact)
	// Output: Shared Exact
}

func ExampleWeigh() {
	c, err := rookdresser.Open(rookdresser.Setup{Entries: 1000, Bound: 10},
		rookdresser.Weigh(func(_, text string) uint32 { return uint32(len(text)) }))
	if err != nil {
		log.Fatal(err)
	}
	defer c.Close()
	fmt.Println(c.Store("a page", "a text"))
	fmt.Println(c.Store("another", "a longer text"))
	numbers, _ := c.Numbers()
	fmt.Println(numbers.Weight)
	// Output:
	// <nil>
	// rookdresser: the value is heavier than the bound
	// 6
}

func ExampleCache_PutFor() {
	now := time.UnixMilli(0)
	c := opened(rookdresser.Setup{Entries: 1000, Clock: func() time.Time { return now }})
	defer c.Close()
	if err := c.PutFor("a session", "a name", 1, time.Minute); err != nil {
		log.Fatal(err)
	}
	now = now.Add(time.Minute - 1)
	fmt.Println(c.Look("a session"))
	now = now.Add(1)
	fmt.Println(c.Look("a session"))
	// Output:
	// a name true <nil>
	//  false <nil>
}

func ExampleCache_GetFor() {
	now := time.UnixMilli(0)
	c := opened(rookdresser.Setup{Entries: 1000, Clock: func() time.Time { return now }})
	defer c.Close()
	fetch := func(context.Context) (string, uint32, time.Duration, error) {
		maxAge := time.Minute // of an answer by HTTP
		return "a page", 1, maxAge, nil
	}
	fmt.Println(c.GetFor(context.Background(), "an address", fetch))
	now = now.Add(time.Minute)
	fmt.Println(c.Contains("an address"))
	// Output:
	// a page <nil>
	// false
}

func ExampleLife() {
	now := time.UnixMilli(0)
	c, err := rookdresser.Open(rookdresser.Setup{Entries: 1000, Clock: func() time.Time { return now }},
		rookdresser.Life(func(_ string, text string) time.Duration {
			if text == "" {
				return time.Second // There may soon be one.
			}
			return rookdresser.Forever
		}))
	if err != nil {
		log.Fatal(err)
	}
	defer c.Close()
	for _, key := range []string{"", "a text"} {
		if err := c.Store(key, key); err != nil {
			log.Fatal(err)
		}
	}
	now = now.Add(time.Second)
	fmt.Printf("%q\n", c.Keys())
	// Output: ["a text"]
}

func ExampleCache_Store() {
	c := opened(rookdresser.Setup{Entries: 1000})
	defer c.Close()
	fmt.Println(c.Store("a page", "a text"), c.Contains("a page"))
	// Output: <nil> true
}

func ExampleCache_GetWith() {
	c := opened(rookdresser.Setup{Entries: 1000})
	defer c.Close()
	fetch := func(context.Context) (string, error) {
		fmt.Println("fetching")
		return "a text", nil
	}
	for i := 0; i < 2; i++ {
		fmt.Println(c.GetWith(context.Background(), "a page", fetch))
	}
	// Output:
	// fetching
	// a text <nil>
	// a text <nil>
}

func ExampleCache_GetMany() {
	c := opened(rookdresser.Setup{Entries: 1000, Bound: 1000})
	defer c.Close()
	texts, err := c.GetMany(context.Background(), []string{"a"}, func(_ context.Context, absent []string) (map[string]rookdresser.Weighed[string], error) {
		return map[string]rookdresser.Weighed[string]{"a": {Value: "a heavy text", Weight: 100}}, nil
	})
	fmt.Println(texts, err)
	// Output: map[a:a heavy text] <nil>
}
