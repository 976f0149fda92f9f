// Replays lines of letter G on golang-lru or ristretto: peers lru|2q|arc|ristretto ENTRIES < trace
package main

import (
	"bufio"
	"fmt"
	"io/ioutil"
	"os"
	"strconv"

	"github.com/dgraph-io/ristretto"
	lru "github.com/hashicorp/golang-lru"
)

type cache interface {
	get(key uint64) (interface{}, bool)
	add(key uint64, version uint64)
}

type plain struct{ c *lru.Cache }

func (p plain) get(key uint64) (interface{}, bool) { return p.c.Get(key) }
func (p plain) add(key uint64, version uint64)     { p.c.Add(key, version) }

type twoQueues struct{ c *lru.TwoQueueCache }

func (p twoQueues) get(key uint64) (interface{}, bool) { return p.c.Get(key) }
func (p twoQueues) add(key uint64, version uint64)     { p.c.Add(key, version) }

type arc struct{ c *lru.ARCCache }

func (p arc) get(key uint64) (interface{}, bool) { return p.c.Get(key) }
func (p arc) add(key uint64, version uint64)     { p.c.Add(key, version) }

type tiny struct{ c *ristretto.Cache }

func (p tiny) get(key uint64) (interface{}, bool) { return p.c.Get(key) }
func (p tiny) add(key uint64, version uint64)     { p.c.Set(key, version, 1) }

func cacheOf(name string, entries int) cache {
	switch name {
	case "lru":
		c, _ := lru.New(entries)
		return plain{c}
	case "2q":
		c, _ := lru.New2Q(entries)
		return twoQueues{c}
	case "arc":
		c, _ := lru.NewARC(entries)
		return arc{c}
	}
	c, _ := ristretto.NewCache(&ristretto.Config{NumCounters: int64(10 * entries), MaxCost: int64(entries), BufferItems: 64})
	return tiny{c}
}

func main() {
	entries, _ := strconv.Atoi(os.Args[2])
	held := cacheOf(os.Args[1], entries)
	trace, _ := ioutil.ReadAll(os.Stdin)
	out := bufio.NewWriterSize(os.Stdout, 1<<20)
	var line, hits uint64
	for at := 0; at < len(trace); at++ {
		for trace[at] != 'G' {
			at++
		}
		var key uint64
		for at += 2; trace[at] != '\n'; at++ {
			key = 10*key + uint64(trace[at]-'0')
		}
		line++
		if version, found := held.get(key); found {
			hits++
			fmt.Fprintln(out, line, "hit", version)
		} else {
			held.add(key, line)
			fmt.Fprintln(out, line, "load")
		}
	}
	fmt.Fprintln(out, "hits", hits)
	out.Flush()
}
