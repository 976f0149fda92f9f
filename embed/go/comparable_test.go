//go:build go1.21

package rookdresser

// Keys whose comparison may panic: interfaces, and what holds them. Go has them as keys from 1.20 on; in a module that names an earlier
// version, as this one does, a file may use them from 1.21 on, by the line above.

import (
	"hash/maphash"
	"testing"
)

type boxed struct{ of any }

func TestAKeyThatCannotBeComparedPanicsWithNoLockHeldAndMovesNothing(t *testing.T) {
	of, _ := timed(setup)
	c, err := OpenHashed[any, string](of, func(maphash.Seed, any) uint64 { return 7 })
	mustPut(t, err)
	held := []any{1, "1", int8(1), nil, boxed{1}, boxed{"1"}, [2]any{1, nil}}
	for i, key := range held {
		mustPut(t, c.Put(key, string(rune('A'+i)), 1))
	}
	for _, key := range []any{[]int{1}, map[int]int{}, func() {}, boxed{[]int{1}}, boxed{boxed{[]int{1}}}, [2]any{1, []int{1}}} {
		for name, call := range callsOf(c, key) {
			before, _ := c.Numbers()
			if panicOf(call) == nil || !isFree(c.shards[0]) {
				t.Fatalf("%s of %v panics, and a lock is held: %v", name, key, !isFree(c.shards[0]))
			}
			if after := holds(t, c); before != after {
				t.Fatal(name, key, before, after)
			}
		}
	}
	for i, key := range held {
		if v, found, err := c.Look(key); v != string(rune('A'+i)) || !found || err != nil {
			t.Fatal(key, v, found, err)
		}
	}
	c.Close()
}
