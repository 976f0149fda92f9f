//go:build cgo && linux && amd64

package rookdresser

// The latest moment of a shard and a version, in one word.
//
// Whoever takes the shard alone makes the version odd, and even again at the end: meanwhile nobody else moves the time, so that a call
// that stores or removes counts as at one moment for all. A hit that moves the time reads the word before the entry, and moves it by one
// compare-exchange: then nothing was stored or removed in between.
//
// A moment takes 44 bits, which is enough for the longest time.Duration in milliseconds. The version takes the other 20: it comes
// again once half a million calls have had the shard alone, all at one moment. A hit would have to take as long between two steps.
type latest struct{ word word }

const (
	versionBits = 20
	versions    = 1<<versionBits - 1
)

func momentOf(word uint64) uint64   { return word >> versionBits }
func standsStill(word uint64) bool  { return word&1 != 0 }
func nextVersion(was uint64) uint64 { return was&^versions | (was+1)&versions }

func (l *latest) moment() uint64 { return momentOf(l.word.Load()) }

// stop has the time stand still for all others.
func (l *latest) stop() {
	for {
		if was := l.word.Load(); l.word.CompareAndSwap(was, nextVersion(was)) {
			return
		}
	}
}

// goOn undoes stop, if that was called.
func (l *latest) goOn() {
	if was := l.word.Load(); standsStill(was) {
		l.word.Store(nextVersion(was))
	}
}

// pass makes a moment the latest, unless a later one is. Whoever has the lock may call it. The word is written only if it changes, which
// takes as long as some hits.
func (l *latest) pass(now uint64) {
	for {
		was := l.word.Load()
		if now <= momentOf(was) || l.passFrom(was, now) {
			return
		}
	}
}

// passFrom makes a later moment the latest, if the word is still as it was.
func (l *latest) passFrom(was, now uint64) bool {
	return l.word.CompareAndSwap(was, now<<versionBits|was&versions)
}
