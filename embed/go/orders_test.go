//go:build turns

package rookdresser

// Two goroutines make calls in every order.

import (
	"fmt"
	"testing"

	"rookdresser/internal/goroutine"
)

// merges returns the orders of the calls of two goroutines, as the goroutine of each.
func merges(a, b int) (all [][]int) {
	if a+b == 0 {
		return [][]int{nil}
	}
	if a > 0 {
		for _, rest := range merges(a-1, b) {
			all = append(all, append([]int{0}, rest...))
		}
	}
	if b > 0 {
		for _, rest := range merges(a, b-1) {
			all = append(all, append([]int{1}, rest...))
		}
	}
	return all
}

// A made call is one with its answer, and when it began and ended.
type made struct {
	began, ended int
	said         string
}

// An outcome is what the calls of an order, one after another, return, and what is seen at the end.
type outcome struct {
	order []int // the goroutine of each call
	said  []string
	seen  string
}

func valueOf(own, at int) string { return fmt.Sprint(100*(own+1) + at) }

func outcomesOf(s Setup, looks int, calls [2][]call) (all []outcome) {
	for _, order := range merges(len(calls[0]), len(calls[1])) {
		c, next, of := lookedAt(exactly(s), looks), [2]int{}, outcome{order: order}
		for _, own := range order {
			of.said = append(of.said, c.answer(calls[own][next[own]], valueOf(own, next[own])))
			next[own]++
		}
		of.seen = c.seen()
		c.Close()
		all = append(all, of)
	}
	return all
}

// fits tells whether the calls returned this, in an order in which none comes before one that had ended when it began.
func (of outcome) fits(calls [2][]made, seen string) bool {
	latest, next := 0, [2]int{}
	for i, own := range of.order {
		call := calls[own][next[own]]
		if next[own]++; call.began > latest {
			latest = call.began
		}
		if call.said != of.said[i] || call.ended <= latest {
			return false
		}
	}
	return of.seen == seen
}

// haveAnOrder has two goroutines make their calls in every order. Each time their answers, and what is seen at the end, are those of a
// cache that tells each hit at once, to which the calls are made one after another.
func haveAnOrder(t *testing.T, s Setup, looks int, calls [2][]call, most int) int {
	t.Helper()
	outcomes := outcomesOf(s, looks, calls)
	return everyOrder(most, func() ([2]func(), func()) {
		c, time := lookedAt(s, looks), 0
		var mades [2][]made
		of := func(own int) func() {
			return func() {
				c.moments.Store(goroutine.Current(), int64(0))
				for at, call := range calls[own] {
					loseTurn(step{})
					time++
					made := made{began: time}
					made.said = c.answer(call, valueOf(own, at))
					time++
					made.ended = time
					mades[own] = append(mades[own], made)
				}
			}
		}
		return [2]func(){of(0), of(1)}, func() {
			seen := c.seen()
			c.Close()
			for _, of := range outcomes {
				if of.fits(mades, seen) {
					return
				}
			}
			t.Fatal(looks, calls, mades, seen, outcomes)
		}
	})
}

// The library hears of none, or of some, before the calls are made.
var looksBefore = []int{0, 13}

func TestThreeCallsOfTwoGoroutinesHaveAnOrderIfFourTurnsAreLost(t *testing.T) {
	defer tellMore()()
	firsts, orders := []call{{"look", 1, 9}, {"look", 2, 17}, {"put", 1, 5}}, 0
	for _, looks := range looksBefore {
		for _, first := range firsts {
			for _, second := range firsts {
				for _, other := range []call{{"look", 2, 17}, {"drop", 2, 9}, {what: "count"}} {
					orders += haveAnOrder(t, aged, looks, [2][]call{{first, second}, {other}}, 4)
				}
			}
		}
	}
	if t.Log(orders, "orders"); orders < 1000 {
		t.Fatal(orders)
	}
}

func TestSixCallsOfTwoGoroutinesHaveAnOrderIfTwoTurnsAreLost(t *testing.T) {
	defer tellMore()()
	orders := 0
	for _, calls := range [][2][]call{
		{{{"look", 2, 9}, {"put", 1, 5}, {"look", 1, 9}}, {{"look", 1, 9}, {"look", 2, 9}, {"drop", 1, 9}}},
		{{{"look", 2, 9}, {"look", 1, 9}, {"look", 2, 17}}, {{"look", 1, 16}, {"put", 2, 9}, {"look", 2, 9}}},
		{{{"look", 2, 9}, {"look", 2, 9}, {"look", 1, 9}}, {{"look", 2, 9}, {what: "count"}, {"look", 2, 9}}},
	} {
		for _, looks := range looksBefore {
			orders += haveAnOrder(t, aged, looks, calls, 2)
		}
	}
	if t.Log(orders, "orders"); orders < 500 {
		t.Fatal(orders)
	}
}

// What stores or removes counts as at one moment for all: at that of each hit which came before, be it of the same key, of one that leaves
// by it, or of any other.
func TestAStoreBesideAHitOfALaterMomentHasAnOrder(t *testing.T) {
	defer tellMore()()
	orders, one := 0, Setup{Entries: 1, AfterWrite: aged.AfterWrite}
	for _, at := range []int64{5, 9, 12} {
		for _, what := range []string{"put", "drop"} {
			for _, looks := range [][]call{{{"look", 1, 9}, {"look", 1, 18}}, {{"look", 2, 17}, {"look", 2, 26}}} {
				orders += haveAnOrder(t, aged, 13, [2][]call{looks, {{what, looks[0].key, at}}}, 3)
			}
		}
		orders += haveAnOrder(t, aged, 13, [2][]call{{{"look", 2, 8}, {"look", 1, 8}}, {{"put", 2, at}}}, 3)
		orders += haveAnOrder(t, one, 0, [2][]call{{{"look", 2, 17}, {"look", 3, 10 + at}}, {{"put", 3, at}}}, 3)
		orders += haveAnOrder(t, aged, 13, [2][]call{{{"look", 2, 17}}, {{"put", 2, at}, {"look", 5, 17}, {"look", 2, 10 + at}}}, 3)
	}
	if t.Log(orders, "orders"); orders < 500 {
		t.Fatal(orders)
	}
}

// Nothing expires here, so that puts are in place.
func TestAPutInPlaceBesideOtherCallsHasAnOrder(t *testing.T) {
	defer tellMore()()
	orders := 0
	for _, other := range []call{{"look", 2, 17}, {"put", 2, 9}, {"drop", 2, 9}, {"get", 2, 20}, {what: "count"}} {
		for _, second := range []call{{"look", 2, 9}, {"put", 2, 9}, {"put", 3, 9}} {
			orders += haveAnOrder(t, Setup{Entries: 64}, 13, [2][]call{{{"put", 2, 9}, second}, {other, {"look", 2, 9}}}, 3)
		}
	}
	if t.Log(orders, "orders"); orders < 500 {
		t.Fatal(orders)
	}
}

// A put in place leaves the word as it was, so a hit that moves the time can't tell whether one came in between. If the hit returned the
// value of before, it would come before the put, and key 3 would have expired for the look-up after the put.
func TestAHitOfALaterMomentBesideAPutInPlaceHasAnOrder(t *testing.T) {
	defer tellMore()()
	looks, puts := []call{{"put for 10 ms", 3, 8}, {"look", 1, 20}}, []call{{"put", 1, 8}, {"look", 3, 8}}
	orders := haveAnOrder(t, Setup{Entries: 64}, 0, [2][]call{looks, puts}, 3)
	if t.Log(orders, "orders"); orders < 20 {
		t.Fatal(orders)
	}
}
