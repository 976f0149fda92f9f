//go:build cgo && linux && amd64

package rookdresser

import (
	"runtime"
	"sync/atomic"
	"unsafe"
)

// They are variables since a test has the library hear of more uses.
var (
	// Of the uses that are made beside the lock the library is told one in so many, if an entry was evicted since the last one; else one
	// in rarelyIn.
	oneIn, rarelyIn uint64 = 16, 256
	// So many uses of a stripe are told for sure after a miss.
	afterMiss uint64 = 16
	// So many notes are told together.
	toldTogether uint64 = mostNotes
	// Whether all caches are Exact.
	alwaysExact bool
)

const (
	mostStripes = 64
	mostNotes   = 12 // of a stripe, kept while another goroutine has the library
	// A shard has a stripe for each so many entries at most: it takes as much memory as some of them.
	entriesOfStripe = 32
)

// A stripe has the counts and the notes of a few goroutines. Stripes are whole pairs of lines, which processors fetch together.
type stripe struct {
	hits, puts    atomic.Uint64 // all that were made beside the lock
	state         word          // of the notes
	evictedBefore atomic.Uint32 // how many were evicted as the latest note was made
	notes         [mostNotes]note
	_             [4]byte
}

const _ uintptr = -(unsafe.Sizeof(stripe{}) % 128) // else it isn't compiled

// A note is a use of which the library is still to be told. It keeps no value alive.
type note struct {
	token  int32
	number uint32 // the lower half of the key's, which tells most keys apart that had the token in turn
}

// The state of a stripe's notes is a word: whether a goroutine writes or tells them, how many there are, and how many of the next uses are
// noted for sure. Nobody waits for a goroutine that writes them: a note is lost then.
const isBusy = 1

func stateOf(kept, sure uint64) uint64 { return sure<<16 | kept<<1 }
func keptOf(state uint64) uint64       { return state >> 1 & 0x7fff }
func sureOf(state uint64) uint64       { return state >> 16 }

// takeNotes makes the stripe busy if it was not, and its state is still as it was.
func (of *stripe) takeNotes(was uint64) bool {
	return was&isBusy == 0 && of.state.CompareAndSwap(was, was|isBusy)
}

// The stripes of a shard.
type stripes []stripe

// newStripes returns two stripes for each processor; none if each hit takes the lock.
func newStripes(s Setup) stripes {
	if s.Reads == Exact || s.AfterAccess != 0 || alwaysExact {
		return nil
	}
	n := uint32(1)
	for n < 2*uint32(runtime.GOMAXPROCS(0)) && n < mostStripes && n*entriesOfStripe < s.Entries {
		n *= 2
	}
	return make(stripes, n)
}

// probes say which stripes the goroutines of each hash write, in all caches. One that meets another there goes elsewhere from then on.
var probes [256]atomic.Uint32

// own returns the stripe that this goroutine writes, and what to change so that it writes another one.
func (all stripes) own() (*stripe, *atomic.Uint32) {
	hash := hashOfGoroutine()
	probe := &probes[hash]
	return &all[(int(hash)+int(probe.Load()))&(len(all)-1)], probe
}

// countHit counts a hit, and returns its stripe, and how many hits that had before.
func (all stripes) countHit() (of *stripe, before uint64) {
	for {
		of, probe := all.own()
		before = of.hits.Load()
		if of.hits.CompareAndSwap(before, before+1) {
			return of, before
		}
		probe.Add(1)
	}
}

// countPut is the same of a put.
func (all stripes) countPut() (of *stripe, before uint64) {
	of, _ = all.own()
	return of, of.puts.Add(1) - 1
}

// mayNote returns whether a use may be one of which the library is told, by how many came before it.
func (of *stripe) mayNote(before uint64) bool {
	return sureOf(of.state.Load()) > 0 || isOneIn(oneIn, before)
}

// isOneIn returns whether a use is one in n, by how many came before it. Which they are looks random: each 16th would be of the same keys
// if all goroutines went round the same keys.
func isOneIn(n, before uint64) bool { return before*0x9e3779b97f4a7c15>>32*n < 1<<32 }

// note keeps a use. One that isn't noted for sure counts little as long as nothing is evicted: then few are kept.
func (s *shard[K, V]) note(of *stripe, before uint64, use note) {
	was := of.state.Load()
	kept, sure := keptOf(was), sureOf(was)
	if sure > 0 {
		sure--
	} else {
		evicted := s.evicted.Load()
		if evicted == of.evictedBefore.Load() && !isOneIn(rarelyIn, before) {
			return
		}
		of.evictedBefore.Store(evicted)
	}
	if !of.takeNotes(was) {
		return
	}
	if kept == mostNotes {
		kept = 0
	}
	of.notes[kept] = use
	kept++
	if kept >= toldTogether && s.mu.TryLock() {
		s.tell(of.notes[:kept])
		s.release()
		kept = 0
	}
	of.state.Store(stateOf(kept, sure))
}

// tellOwn tells what this goroutine's stripe has noted, and has its next uses noted for sure: a miss may evict what they use. Whoever has
// the lock calls it.
func (s *shard[K, V]) tellOwn() {
	of, _ := s.stripes.own()
	s.tellAll(of, afterMiss)
}

// tellAll tells what a stripe has noted, and has so many of the next uses noted for sure.
func (s *shard[K, V]) tellAll(of *stripe, sure uint64) {
	if was := of.state.Load(); was != stateOf(0, sure) && of.takeNotes(was) {
		s.tell(of.notes[:keptOf(was)])
		of.state.Store(stateOf(0, sure))
	}
}

// tell tells the library of uses, before its next call. Of one whose entry has left, or has expired by the latest moment, it isn't told: it
// would count a miss, or take the entry out. Whoever has the lock, and has made the stripe busy, tells.
func (s *shard[K, V]) tell(notes []note) {
	latest := s.latest.moment()
	for _, use := range notes {
		n := s.table.slots[use.token].node
		if n == nil || n.token != use.token || uint32(n.number) != use.number {
			continue
		}
		if latest < n.entry.Load().until {
			s.lib.queue(n.number, latest)
			s.told++
		}
	}
}

// made returns how many hits and puts were made beside the lock.
func (all stripes) made() (hits, puts uint64) {
	for i := range all {
		hits += all[i].hits.Load()
		puts += all[i].puts.Load()
	}
	return hits, puts
}
