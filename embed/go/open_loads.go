//go:build cgo && linux && amd64

package rookdresser

// Open loads are those of a shard that haven't landed, in the order in which they began, and a few that landed, to be used again. Whoever
// has the shard's lock uses them.
//
// Most loads are of a key that has neither an entry nor a load, and nobody else asks for the key until they land. So the library hears of
// such a load only as it lands, of its seek and its landing in one crossing; or before the next call that the load makes a difference to.
type openLoads[K comparable, V any] struct {
	first, last *load[K, V]
	count, most uint32
	landed      *load[K, V]
	landedCount uint32
}

// mostLanded is how many loads of a shard are kept to be used again.
const mostLanded = 4

// begin returns a load, the last of those that are open.
func (all *openLoads[K, V]) begin() *load[K, V] {
	l := all.landed
	if l == nil {
		l = new(load[K, V])
	} else {
		all.landed, l.next = l.next, nil
		all.landedCount--
	}
	if l.before = all.last; l.before == nil {
		all.first = l
	} else {
		l.before.next = l
	}
	all.last = l
	all.count++
	return l
}

// end takes out a load that has ended. If only its own goroutine knows it, and that ends it, another load will use its memory.
func (all *openLoads[K, V]) end(l *load[K, V], isOwn bool) {
	if l.before == nil {
		all.first = l.next
	} else {
		l.before.next = l.next
	}
	if l.next == nil {
		all.last = l.before
	} else {
		l.next.before = l.before
	}
	all.count--
	if isOwn && l.done == nil && all.landedCount < mostLanded {
		*l = load[K, V]{next: all.landed}
		all.landed = l
		all.landedCount++
	}
}

// surelyLeads returns whether a seek of the node's key, or of one without a node, surely opens a load and finds no entry.
func (s *shard[K, V]) surelyLeads(n *node[K, V]) bool {
	return s.surelyMisses(n) && s.loads.count < s.loads.most && (n == nil || n.load == nil)
}

// tellOfLoad tells the library of the node's load, if it hasn't heard of it: before a call of the node's key.
func (s *shard[K, V]) tellOfLoad(n *node[K, V]) Fault {
	if n == nil || n.load == nil || n.load.isTold {
		return 0
	}
	return s.tellOf(n.load)
}

// tellOfLoads tells the library of each load of which it hasn't heard.
func (s *shard[K, V]) tellOfLoads() {
	for l := s.loads.first; l != nil; l = l.next {
		if !l.isTold {
			_ = s.tellOf(l)
		}
	}
}

// tellOf tells the library of a load. If it refuses, the load is none of the library's: nobody joins it, and it stores nothing.
func (s *shard[K, V]) tellOf(l *load[K, V]) Fault {
	l.isTold = true
	fault := s.lib.openLoad(l.number, s.moment(l.now))
	if fault == 0 {
		l.id = s.lib.number()
	}
	return fault
}
