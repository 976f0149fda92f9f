package main

import (
	"sync/atomic"

	"github.com/dgraph-io/ristretto"
)

func init() {
	others["ristretto"] = func() cache {
		c, err := ristretto.NewCache(&ristretto.Config{NumCounters: int64(10 * entries), MaxCost: int64(entries), BufferItems: 64})
		check(err)
		return tiny{c}
	}
}

type tiny struct{ c *ristretto.Cache }

func (o tiny) holds(key uint64) bool {
	_, found := o.c.Get(key)
	return found
}

func (o tiny) hit(key uint64) { o.c.Get(key) }
func (o tiny) put(key uint64) { o.c.Set(key, key, 1) }
func (o tiny) close()         { o.c.Close() }
func (o tiny) readThrough(key uint64) {
	if _, found := o.c.Get(key); !found {
		atomic.AddUint64(&misses, 1)
		o.c.Set(key, key, 1)
	}
}
