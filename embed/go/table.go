//go:build cgo && linux && amd64

package rookdresser

// none is the token of no entry.
const none = -1

// A node is a key in use, with its number in the library. Goroutines that hit read it without a lock: its key and its number never
// change, and no node is used again for another key. The collector frees one once nobody can be at it.
type node[K comparable, V any] struct {
	next    pointer[node[K, V]] // of its chain
	entry   pointer[entry[V]]   // nil if there is none
	key     K
	number  uint64 // the key's hash, unless isMoved
	isMoved bool
	// Of whoever has the shard's lock:
	uses  uint16 // one for its entry, and one for each load of it, of which there are at most 4,096
	token int32  // that of its entry, or none
	load  *load[K, V]
}

// An entry is a value as it was stored. It never changes: another value is another entry.
type entry[V any] struct {
	value  V
	until  uint64 // a look-up or a seek surely hits before this moment; never, if the value never expires and is never due
	weight uint32
	token  int32
}

// A slot is what the library holds, or is handed. Its place is the token.
type slot[K comparable, V any] struct {
	node          *node[K, V] // nil until it is stored
	entry         *entry[V]   // what its node doesn't show: it isn't stored yet, or was replaced
	written, used uint64      // as the library has them
	life          uint32      // in milliseconds since it was written; 0 is none
}

// A table keeps the keys and the values of one cache of the library. Whoever has the shard's lock changes it, and others walk it
// meanwhile.
//
// A key's number is its hash, or the next that is free where another key in use has that. So a key that comes again is counted
// with its earlier uses.
type table[K comparable, V any] struct {
	chains    pointer[chains[K, V]]
	_         [64]byte // what each new key writes is apart from what each hit reads
	nodes     int
	slots     []slot[K, V]
	freeSlots []int32
	moved     map[uint64]uint64 // the numbers in use that aren't their key's hash, each with that hash
}

func (t *table[K, V]) open() {
	t.moved = map[uint64]uint64{}
	t.chains.Store(newChains[K, V](3))
}

// find returns the key's node and its number, or nil and the number that it would get.
func (t *table[K, V]) find(key K, hash uint64) (*node[K, V], uint64) {
	isTaken := false
	n := t.chains.Load().of(hash).Load()
	for n != nil && !n.is(key, hash) {
		isTaken = isTaken || n.number == hash
		n = n.next.Load()
	}
	if n != nil {
		return n, n.number
	}
	number := hash
	for isTaken || t.isMovedTo(number) {
		number++
		isTaken = t.isNumber(number)
	}
	return nil, number
}

// isMovedTo returns whether a key whose hash is another one has the number.
func (t *table[K, V]) isMovedTo(number uint64) bool {
	if len(t.moved) == 0 {
		return false
	}
	_, moved := t.moved[number]
	return moved
}

// hashOf returns the hash of a node's key.
func (t *table[K, V]) hashOf(n *node[K, V]) uint64 {
	if n.isMoved {
		return t.moved[n.number]
	}
	return n.number
}

// hold returns the key's node, which has one use more. find returned n and number.
func (t *table[K, V]) hold(n *node[K, V], key K, hash, number uint64) *node[K, V] {
	if n == nil {
		n = &node[K, V]{key: key, number: number, isMoved: number != hash, token: none}
		if n.isMoved {
			t.moved[number] = hash
		}
		t.link(n)
	}
	n.uses++
	return n
}

// letGo gives up one use of a node.
func (t *table[K, V]) letGo(n *node[K, V]) {
	if n.uses--; n.uses > 0 {
		return
	}
	t.unlink(n)
	if n.isMoved {
		delete(t.moved, n.number)
	}
}

// keep returns a token for an entry that isn't stored yet, and is written at a moment.
func (t *table[K, V]) keep(of *entry[V], life uint32, now uint64) uint64 {
	if last := len(t.freeSlots) - 1; last >= 0 {
		of.token, t.freeSlots = t.freeSlots[last], t.freeSlots[:last]
	} else {
		of.token, t.slots = int32(len(t.slots)), append(t.slots, slot[K, V]{})
	}
	t.slots[of.token] = slot[K, V]{entry: of, written: now, used: now, life: life}
	return uint64(of.token)
}

// store has the node show the token's entry, to which one of the node's uses belongs from now on. The entry that it showed, the latest
// of those that were put in place of each other, goes back to its own token, which leaves.
func (t *table[K, V]) store(token uint64, n *node[K, V]) {
	of := &t.slots[token]
	replaced := n.entry.Swap(of.entry)
	if replaced != nil {
		t.slots[replaced.token].entry = replaced
	}
	of.node, of.entry, n.token = n, nil, int32(token)
}

// drop gives the token up, and returns its value and its node. No node shows the value any more.
func (t *table[K, V]) drop(token uint64) (V, *node[K, V]) {
	was := t.slots[token]
	if was.entry == nil {
		was.entry, was.node.token = was.node.entry.Swap(nil), none
	}
	t.slots[token] = slot[K, V]{}
	t.freeSlots = append(t.freeSlots, int32(token))
	return was.entry.value, was.node
}

// kept returns how many values and keys there are.
func (t *table[K, V]) kept() (values, keys int) {
	return len(t.slots) - len(t.freeSlots), t.nodes
}
