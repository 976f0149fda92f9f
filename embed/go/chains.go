//go:build cgo && linux && amd64

package rookdresser

// The chains of a table: each node is in that of its hash. Whoever has the shard's lock links and unlinks nodes, while others walk the
// chains without a lock. They read each link at once, and a node that was unlinked still leads on.

type chains[K comparable, V any] struct {
	shift uint8
	first []pointer[node[K, V]]
}

func newChains[K comparable, V any](bits uint8) *chains[K, V] {
	return &chains[K, V]{shift: 64 - bits, first: make([]pointer[node[K, V]], 1<<bits)}
}

// of returns where the chain of a hash begins.
func (c *chains[K, V]) of(hash uint64) *pointer[node[K, V]] { return &c.first[c.place(hash)] }

// place takes another factor than that by which a shard is chosen, or a shard's keys would share few chains.
func (c *chains[K, V]) place(hash uint64) uint64 { return hash * 0xd6e8feb86659fd93 >> (c.shift & 63) }

// walk returns the key's node, if there is one. Without the shard's lock it may miss one while the table grows.
func (t *table[K, V]) walk(key K, hash uint64) *node[K, V] {
	n := t.chains.Load().of(hash).Load()
	for n != nil && !n.is(key, hash) {
		n = n.next.Load()
	}
	return n
}

// is returns whether the node is that of a key, in the chain of the key's hash.
func (n *node[K, V]) is(key K, hash uint64) bool {
	return (n.number == hash || n.isMoved) && n.key == key
}

// isNumber returns whether a key in use has its hash, this one, as its number.
func (t *table[K, V]) isNumber(hash uint64) bool {
	n := t.chains.Load().of(hash).Load()
	for n != nil && n.number != hash {
		n = n.next.Load()
	}
	return n != nil
}

func (t *table[K, V]) link(n *node[K, V]) {
	// An eighth more, since a cache of as many entries as chains has a few more keys in use.
	if chains := len(t.chains.Load().first); t.nodes >= chains+chains/8 {
		t.grow()
	}
	t.nodes++
	t.chains.Load().put(n, t.hashOf(n))
}

func (c *chains[K, V]) put(n *node[K, V], hash uint64) {
	first := c.of(hash)
	n.next.Store(first.Load())
	first.Store(n)
}

func (t *table[K, V]) unlink(n *node[K, V]) {
	at := t.chains.Load().of(t.hashOf(n))
	for at.Load() != n {
		at = &at.Load().next
	}
	at.Store(n.next.Load())
	t.nodes--
}

// grow moves each node into one of twice as many chains. A goroutine that walks meanwhile may be led from an old chain into a new one, and
// miss a key. It finds none that isn't its own, and comes to an end, since each new chain does at all times.
func (t *table[K, V]) grow() {
	old := t.chains.Load()
	grown := newChains[K, V](64 - old.shift + 1)
	for i := range old.first {
		for n := old.first[i].Load(); n != nil; {
			next := n.next.Load()
			grown.put(n, t.hashOf(n))
			n = next
		}
	}
	t.chains.Store(grown)
}
