//go:build turns

package rookdresser

// Two goroutines that run one at a time, in every order.
//
// A goroutine may lose its turn before it begins a call, takes a lock, or uses what others write without one. What it does up to the
// next such place can't be told apart from one step, since the other sees it only by those. everyOrder runs both again and again, and
// chooses otherwise each time. Of orders that differ only in steps that use different things, it runs one.

import (
	"sync"
	"sync/atomic"

	"rookdresser/internal/goroutine"
)

// A step uses a thing, or nil if it comes before or after all others. A lock that it waits for has to be free.
type step struct {
	of    any
	waits bool
}

type turns struct {
	mu   sync.Mutex
	bell sync.Cond
	who  [2]uintptr // the goroutines
	turn int
	next [2]step
	over [2]bool
	// Whether the second one's first step was chosen, by the first one.
	secondBegun bool
	held        map[any]bool
	// Whether the second of two choices was made at each place, and how many places there were so far.
	choices []bool
	at      int
	left    int // how often the second one may still be made
	asleep  int // a goroutine whose next step was tried here before: to take it now makes no difference; or -1
	// Nothing more is chosen: the run is like an earlier one.
	isLikeAnother bool
}

var played atomic.Pointer[turns]

// mine returns the turns of this goroutine, and which of both it is; -1 if it is neither.
func mine() (*turns, int) {
	if t := played.Load(); t != nil {
		for own, who := range t.who {
			if who == goroutine.Current() {
				return t, own
			}
		}
	}
	return nil, -1
}

func (t *turns) mayGoOn(own int) bool {
	return !t.over[own] && !(t.next[own].waits && t.held[t.next[own].of])
}

// choose returns who makes the next step.
func (t *turns) choose(own int) int {
	var able, awake []int
	for _, i := range []int{own, 1 - own} {
		if t.mayGoOn(i) {
			able = append(able, i)
			if t.asleep != i {
				awake = append(awake, i)
			}
		}
	}
	if len(able) == 0 {
		panic("nobody gives the lock back")
	}
	if t.isLikeAnother || len(awake) == 0 {
		t.isLikeAnother = true
		return able[0]
	}
	if len(awake) == 1 || t.left == 0 {
		return awake[0]
	}
	if t.at++; t.at > len(t.choices) {
		t.choices = append(t.choices, false)
	}
	if !t.choices[t.at-1] {
		return awake[0]
	}
	t.left--
	t.asleep = awake[0]
	return awake[1]
}

// loseTurn is called before each step.
func loseTurn(next step) {
	t, own := mine()
	if t == nil {
		return
	}
	t.mu.Lock()
	defer t.mu.Unlock()
	t.next[own] = next
	isChosen := own == 1 && !t.secondBegun
	t.secondBegun = t.secondBegun || own == 1
	if !isChosen && t.choose(own) != own {
		t.pass(own)
		for t.turn != own {
			t.bell.Wait()
		}
	}
	if other := t.next[1-own]; next.of == other.of || next.of == nil || other.of == nil {
		t.asleep = -1
	}
}

func (t *turns) pass(own int) {
	t.turn = 1 - own
	t.bell.Broadcast()
}

func hold(of any, isHeld bool) {
	if t, _ := mine(); t != nil {
		t.mu.Lock()
		defer t.mu.Unlock()
		t.held[of] = isHeld
	}
}

// play has the goroutine make its calls as it gets its turns.
func (t *turns) play(own int, calls func()) {
	t.mu.Lock()
	t.who[own] = goroutine.Current()
	t.bell.Broadcast()
	for t.who[1-own] == 0 || t.turn != own {
		t.bell.Wait()
	}
	t.mu.Unlock()
	defer func() {
		t.mu.Lock()
		defer t.mu.Unlock()
		t.over[own] = true
		t.isLikeAnother = t.isLikeAnother || t.asleep == 1-own && !t.over[1-own]
		t.pass(own)
	}()
	calls()
}

// everyOrder runs both goroutines in every order, each time on something new, which is checked then. In a run the turn is lost at so
// many places at most. It returns how many orders were checked.
func everyOrder(most int, begin func() (calls [2]func(), check func())) (orders int) {
	var choices []bool
	for {
		calls, check := begin()
		t := &turns{choices: choices, left: most, held: map[any]bool{}, asleep: -1}
		t.bell.L = &t.mu
		played.Store(t)
		together(2, func(own int) { t.play(own, calls[own]) })
		played.Store(nil)
		if !t.isLikeAnother {
			check()
			orders++
		}
		// The last place at which the second choice wasn't made yet.
		choices = t.choices[:t.at]
		for len(choices) > 0 && choices[len(choices)-1] {
			choices = choices[:len(choices)-1]
		}
		if len(choices) == 0 {
			return orders
		}
		choices[len(choices)-1] = true
	}
}
