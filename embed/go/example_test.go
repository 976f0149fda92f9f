package rookdresser_test

// The code of README.md, which TestTheCodeOfTheReadmeIsThatOfTheExamples compares.

import (
	"context"
	"encoding/json"
	"expvar"
	"fmt"
	"hash/maphash"
	"log"
	"net/http"
	"net/http/httptest"
	"os"
	"sort"
	"strings"
	"time"

	"rookdresser"
)

type Page struct{ text string }

var fetches int

func fetch(ctx context.Context, url string) (Page, error) {
	fetches++
	return Page{"the text of " + url}, ctx.Err()
}

func first(ctx context.Context, url string) (Page, error) {
	c, err := rookdresser.Open(rookdresser.Setup{Entries: 1000, AfterWrite: time.Minute},
		rookdresser.OnLeave(func(left rookdresser.Left[string, Page]) { log.Println(left.Key, left.Cause) }))
	if err != nil {
		return Page{}, err
	}
	defer c.Close()
	page, err := c.GetWith(ctx, url, func(ctx context.Context) (Page, error) {
		return fetch(ctx, url) // once for all goroutines that ask meanwhile
	})
	return page, err
}

func Example() {
	log.SetFlags(0)
	log.SetOutput(os.Stdout)
	page, err := first(context.Background(), "a page")
	fmt.Println(page.text, err)
	// Output:
	// a page Explicit
	// the text of a page <nil>
}

type Point struct {
	Map  string
	X, Y int
}

func ExampleOpenHashed() {
	hash := func(seed maphash.Seed, p Point) uint64 {
		return maphash.String(seed, fmt.Sprint(p.X, p.Y, p.Map))
	}
	c, err := rookdresser.OpenHashed[Point, string](rookdresser.Setup{Entries: 1000}, hash)
	if err != nil {
		fmt.Println(err)
		return
	}
	defer c.Close()
	err = c.Put(Point{"a map", 1, 2}, "a hill", 1)
	hill, found, _ := c.Look(Point{"a map", 1, 2})
	fmt.Println(err, hill, found, c.Contains(Point{"a map", 2, 1}))
	// Output: <nil> a hill true false
}

func many(ctx context.Context, c *rookdresser.Cache[string, Page], urls []string) (map[string]Page, error) {
	pages, err := c.GetManyWith(ctx, urls, func(ctx context.Context, absent []string) (map[string]Page, error) {
		loaded := map[string]Page{}
		for _, url := range absent {
			page, err := fetch(ctx, url)
			if err != nil {
				return nil, err
			}
			loaded[url] = page
		}
		return loaded, nil
	})
	return pages, err
}

func ExampleCache_GetManyWith() {
	c, err := rookdresser.Open[string, Page](rookdresser.Setup{Entries: 1000})
	if err != nil {
		fmt.Println(err)
		return
	}
	defer c.Close()
	err = c.Put("b", Page{"put"}, 1)
	fetches = 0
	pages, second := many(context.Background(), c, []string{"a", "b", "c"})
	keys := c.Keys()
	sort.Strings(keys)
	fmt.Println(err, second, pages["a"].text, pages["b"].text, pages["c"].text, fetches, keys)
	// Output: <nil> <nil> the text of a put the text of c 2 [a b c]
}

// used is a cache after a hit, two misses, a load that failed and one that didn't.
func used() *rookdresser.Cache[string, Page] {
	c, err := rookdresser.Open[string, Page](rookdresser.Setup{Entries: 1000})
	if err != nil {
		log.Fatal(err)
	}
	fails := func(context.Context) (Page, uint32, error) { return Page{}, 0, fmt.Errorf("down") }
	loads := func(context.Context) (Page, uint32, error) { return Page{}, 1, nil }
	_, _ = c.Get(context.Background(), "a page", fails)
	_, _ = c.Get(context.Background(), "a page", loads)
	_, _ = c.Get(context.Background(), "a page", loads)
	return c
}

func ExampleCache_Stats() {
	c := used()
	defer c.Close()
	expvar.Publish("pages", expvar.Func(func() any { return c.Stats() }))

	var shown struct{ Hits, Misses, Loads, Failed int }
	err := json.Unmarshal([]byte(expvar.Get("pages").String()), &shown)
	fmt.Println(shown, err)
	// Output: {1 2 1 1} <nil>
}

func ExampleCache_Stats_prometheus() {
	c := used()
	defer c.Close()
	metrics := func(w http.ResponseWriter, _ *http.Request) {
		s := c.Stats()
		counter := func(name string, n any) {
			fmt.Fprintf(w, "# TYPE pages_%s_total counter\npages_%[1]s_total %v\n", name, n)
		}
		counter("hits", s.Hits)
		counter("misses", s.Misses)
		counter("loads", s.Loads)
		counter("load_failures", s.Failed)
		counter("evictions", s.Expired+s.Size)
		counter("loads_given_up", s.GivenUp)
		counter("loads_beside", s.Beside)
		fmt.Fprintln(w, "# TYPE pages_load_duration_seconds histogram")
		loads := uint64(0)
		for i, count := range s.LoadTimes {
			loads += count
			bound := "+Inf"
			if i < len(rookdresser.LoadTimeBounds) {
				bound = fmt.Sprint(rookdresser.LoadTimeBounds[i].Seconds())
			}
			fmt.Fprintf(w, "pages_load_duration_seconds_bucket{le=%q} %d\n", bound, loads)
		}
		fmt.Fprintf(w, "pages_load_duration_seconds_sum %v\npages_load_duration_seconds_count %d\n", s.LoadTime.Seconds(), loads)
		fmt.Fprintf(w, "# TYPE pages_oldest_load_seconds gauge\npages_oldest_load_seconds %v\n", s.OldestLoad.Seconds())
	}

	told := httptest.NewRecorder()
	metrics(told, nil)
	for _, row := range strings.Split(told.Body.String(), "\n") {
		if strings.HasSuffix(row, "{le=\"+Inf\"} 2") || strings.Contains(row, "_total ") && !strings.HasPrefix(row, "# ") || strings.Contains(row, "_count ") {
			fmt.Println(row)
		}
	}
	// Output:
	// pages_hits_total 1
	// pages_misses_total 2
	// pages_loads_total 1
	// pages_load_failures_total 1
	// pages_evictions_total 0
	// pages_loads_given_up_total 0
	// pages_loads_beside_total 0
	// pages_load_duration_seconds_bucket{le="+Inf"} 2
	// pages_load_duration_seconds_count 2
}
