//go:build cgo && linux && amd64

package rookdresser

import (
	"math"
	"sync/atomic"
	"time"
)

// A shard is one cache of the library, which goroutines take alone. Those that surely hit, or put in place, walk its table beside
// whoever has it, and count in a stripe.
type shard[K comparable, V any] struct {
	mu      lock
	lib     library
	stats   Stats
	told    uint64        // uses made beside the lock of which the library has heard
	evicted atomic.Uint32 // how many entries; it may turn over
	_       [64]byte      // what whoever has the lock writes is apart from what each hit reads
	// As the library has them, never being the greatest: the durations, and how long a value without a life is sure to be found and not due.
	afterWrite, afterAccess, sureFor uint64
	stripes                          stripes // none if each hit takes the lock
	latest                           latest  // of each call as it is made. The library needn't have heard of it.
	table                            table[K, V]
	loads                            openLoads[K, V]
	refuses                          bool                          // at the limit of open loads
	beside                           map[uintptr]*besideLoad[K, V] // the latest one of each goroutine that loads beside the cache
	isClosed                         bool
}

func newShard[K comparable, V any](s Setup, lib library) *shard[K, V] {
	of := &shard[K, V]{
		lib: lib, stripes: newStripes(s),
		afterWrite: orNever(s.AfterWrite), afterAccess: orNever(s.AfterAccess), sureFor: orNever(s.Refresh),
	}
	of.table.open()
	of.loads.most = s.Flights
	of.refuses = s.AtLimit == Refuse
	if of.afterWrite < of.sureFor {
		of.sureFor = of.afterWrite
	}
	// If an entry's age counts from its use, no hit is sure: it may be refused memory, and the library would know of no use.
	if of.afterAccess != never {
		of.sureFor = 0
	}
	return of
}

const never = math.MaxUint64

func orNever(d time.Duration) uint64 {
	if d == 0 {
		return never
	}
	return wholeMilliseconds(d)
}

// take takes the shard alone for a call that may store or remove, and has the time stand still for all others. A look-up or a seek takes
// the lock without that.
func (s *shard[K, V]) take() {
	s.mu.Lock()
	if s.stripes != nil {
		s.latest.stop()
	}
}

// release gives the lock back, whichever call took it.
func (s *shard[K, V]) release() {
	s.latest.goOn()
	s.mu.Unlock()
}

// moment returns a moment as the library counts it: one before the latest counts as the latest. Each call below is given such, by
// whoever has the lock.
func (s *shard[K, V]) moment(now uint64) uint64 {
	if latest := s.latest.moment(); now < latest {
		return latest
	}
	return now
}

// made counts a refusal, or else moves the time.
func (s *shard[K, V]) made(fault Fault, now uint64) error {
	if fault != 0 {
		s.stats.refuse(fault)
		return fault
	}
	s.latest.pass(now)
	return nil
}

// find finds the key's node under the lock, which is given back if the comparison of two keys panics. A key that can't be compared
// panics before that, as it is hashed, and so none is known that comes as far as this.
func (s *shard[K, V]) find(key K, hash uint64) (n *node[K, V], number uint64) {
	returns := false
	defer func() {
		if !returns {
			s.release()
		}
	}()
	n, number = s.table.find(key, hash)
	returns = true
	return n, number
}

// isThere tells whether the node has an entry that hasn't expired.
func (s *shard[K, V]) isThere(n *node[K, V], now uint64) bool {
	if n == nil || n.token == none {
		return false
	}
	of := &s.table.slots[n.token]
	age := now - of.written
	return age < s.afterWrite && now-of.used < s.afterAccess && (of.life == 0 || age < uint64(of.life))
}

// sureHit returns the value of the node if a look-up or a seek surely hits, with nothing due and nothing leaving. The library is told
// before its next call, so that most hits don't cross into C. The value is read once the time has moved, since another may be put in its
// place meanwhile, at the moment before.
func (s *shard[K, V]) sureHit(n *node[K, V], now uint64) (v V, sure bool) {
	if n == nil {
		return v, false
	}
	of := n.entry.Load()
	if of == nil || now >= of.until {
		return v, false
	}
	s.latest.pass(now)
	s.stats.Hits++
	s.lib.queue(n.number, now)
	return n.entry.Load().value, true
}

// surelyMisses returns whether a look-up or a seek of the node's key, or of one without a node, surely finds no entry, and removes none.
func (s *shard[K, V]) surelyMisses(n *node[K, V]) bool {
	return !s.isClosed && (n == nil || n.token == none)
}

// missed counts a look-up or a seek that surely misses.
func (s *shard[K, V]) missed(now uint64) {
	s.latest.pass(now)
	s.stats.Misses++
}

// looked counts what the latest look-up or seek found, and returns it.
func (s *shard[K, V]) looked(now uint64) (v V, found bool) {
	if !s.lib.isHit() {
		s.stats.Misses++
		return v, false
	}
	s.stats.Hits++
	of := &s.table.slots[s.lib.token()]
	of.used = now
	return of.node.entry.Load().value, true
}

// newEntry returns an entry that is written at a moment.
func (s *shard[K, V]) newEntry(v V, weight, life uint32, now uint64) *entry[V] {
	sureFor := s.sureFor
	if life != 0 && uint64(life) < sureFor {
		sureFor = uint64(life)
	}
	until := now + sureFor
	if until < now {
		until = never
	}
	return &entry[V]{value: v, until: until, weight: weight}
}

func (s *shard[K, V]) put(key K, hash uint64, v V, weight, life uint32, now uint64) error {
	n, number := s.find(key, hash)
	_ = s.tellOfLoad(n)
	token := s.table.keep(s.newEntry(v, weight, life, now), life, now)
	if err := s.made(s.lib.put(number, token, weight, life, now), now); err != nil {
		s.table.drop(token)
		return err
	}
	s.table.store(token, s.table.hold(n, key, hash, number))
	return nil
}

// left takes out what the latest call told to have left, and returns it if there is a listener.
func (s *shard[K, V]) left(listens bool) (left []Left[K, V]) {
	for i, n := uint64(0), s.lib.notices(); i < n; i++ {
		token, cause := s.lib.notice(i)
		value, of := s.table.drop(token)
		s.stats.leave(cause)
		if cause == Size {
			s.evicted.Add(1)
		}
		if listens {
			left = append(left, Left[K, V]{of.key, value, cause})
		}
		s.table.letGo(of)
	}
	return left
}

func (s *shard[K, V]) close(listens bool) []Left[K, V] {
	s.take()
	defer s.release()
	_ = s.lib.clear(0)
	left := s.left(listens)
	_ = s.lib.close()
	s.lib.by = nil
	s.isClosed = true
	return left
}

func (s *shard[K, V]) keys(keys []K, now uint64) []K {
	s.take()
	defer s.release()
	now = s.moment(now)
	for i := range s.table.slots {
		// No look-up finds a key that doesn't equal itself, as a NaN.
		if n := s.table.slots[i].node; n != nil && n.key == n.key && s.isThere(n, now) {
			keys = append(keys, n.key)
		}
	}
	return keys
}

// numbers returns the library's numbers, as if it had heard of each use. To it a put in place is a look-up that hits.
func (s *shard[K, V]) numbers() (Numbers, Fault) {
	s.tellOfLoads()
	n, fault := s.lib.numbers()
	if fault != 0 {
		return n, fault
	}
	hits, puts := s.stripes.made()
	n.Lookups += hits - s.told
	n.Hits += hits - s.told
	n.Step += hits + puts - s.told
	if latest := s.latest.moment(); latest > n.Latest {
		n.Latest = latest
	}
	return n, 0
}
