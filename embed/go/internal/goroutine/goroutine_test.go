//go:build amd64

package goroutine

import "testing"

// grown returns the number from a stack so deep that it was moved.
func grown(depth int) uintptr {
	var frame [1024]byte
	if depth == 0 {
		return Current()
	}
	frame[depth] = 1
	return grown(depth-1) + uintptr(frame[depth-1])
}

func TestAGoroutineKeepsItsNumberAndNoOtherThatLivesHasIt(t *testing.T) {
	const goroutines = 1000
	numbers, end := make(chan uintptr), make(chan struct{})
	for i := 0; i < goroutines; i++ {
		go func() {
			me := Current()
			if grown(200) != me {
				t.Error("its number has changed")
			}
			numbers <- me
			<-end
		}()
	}
	seen := map[uintptr]bool{0: true}
	for i := 0; i < goroutines; i++ {
		if me := <-numbers; seen[me] {
			t.Error("two have the number", me)
		} else {
			seen[me] = true
		}
	}
	close(end)
}
