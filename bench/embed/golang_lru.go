package main

import (
	"sync/atomic"

	lru "github.com/hashicorp/golang-lru"
)

func init() {
	others["golang-lru"] = func() cache {
		c, err := lru.New(entries)
		check(err)
		return theirs{c}
	}
}

type theirs struct{ c *lru.Cache }

func (o theirs) holds(key uint64) bool { return o.c.Contains(key) }

func (o theirs) hit(key uint64) { o.c.Get(key) }
func (o theirs) put(key uint64) { o.c.Add(key, key) }
func (o theirs) close()         {}
func (o theirs) readThrough(key uint64) {
	if _, found := o.c.Get(key); !found {
		atomic.AddUint64(&misses, 1)
		o.c.Add(key, key)
	}
}
