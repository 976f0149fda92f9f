//go:build cgo && linux && amd64

package rookdresser

import "time"

// LoadTimeBounds are the bounds of Stats.LoadTimes. Don't change them.
var LoadTimeBounds = [...]time.Duration{
	time.Millisecond, 5 * time.Millisecond, 10 * time.Millisecond, 25 * time.Millisecond, 50 * time.Millisecond, 100 * time.Millisecond,
	250 * time.Millisecond, 500 * time.Millisecond, time.Second, 2500 * time.Millisecond, 5 * time.Second, 10 * time.Second,
}

// LoadTimes are counts of loads, by how long they took: the first of those up to the first bound, each next one of those beyond that and up
// to the next bound, and the last of those beyond all bounds.
type LoadTimes [len(LoadTimeBounds) + 1]uint64

// isCounted is the time of a load that was counted with another one of its batch.
const isCounted time.Duration = -1

// took counts the time of a load.
func (s *Stats) took(time time.Duration) {
	if time == isCounted {
		return
	}
	s.LoadTime += time
	i := 0
	for i < len(LoadTimeBounds) && time > LoadTimeBounds[i] {
		i++
	}
	s.LoadTimes[i]++
}
