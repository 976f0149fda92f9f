//go:build cgo && linux && amd64

package rookdresser

import (
	"encoding/binary"
	"hash/maphash"
	"math/rand"
	"reflect"
	"unsafe"
)

// A Key is a string or a whole number, also of a type of your own. The library gets the hash of a string under a random seed of the
// cache's own. It gets a number unchanged, unless the Setup says Seeded. OpenHashed takes keys of all other types.
type Key interface {
	~string | ~int | ~int8 | ~int16 | ~int32 | ~int64 | ~uint | ~uint8 | ~uint16 | ~uint32 | ~uint64 | ~uintptr
}

// A hasher makes the number of 64 bits of a key.
type hasher[K comparable] struct {
	kind    reflect.Kind
	isPlain bool // whether it is the key itself
	isWord  bool // whether that is one of 64 bits
	seed    maphash.Seed
	own     func(maphash.Seed, K) uint64
}

func hasherOfKind[K Key](seeded bool) hasher[K] {
	kind := reflect.TypeOf(*new(K)).Kind()
	isPlain := !seeded && kind != reflect.String
	return hasher[K]{kind: kind, seed: maphash.MakeSeed(), isPlain: isPlain, isWord: isPlain && unsafe.Sizeof(*new(K)) == 8}
}

func (h *hasher[K]) of(key K) uint64 {
	if h.isWord {
		return *(*uint64)(unsafe.Pointer(&key))
	}
	return h.ofOther(key)
}

func (h *hasher[K]) ofOther(key K) uint64 {
	if h.isPlain {
		return h.whole(key)
	}
	if h.own != nil {
		return h.ofOwn(key)
	}
	if h.kind == reflect.String {
		return maphash.String(h.seed, *(*string)(unsafe.Pointer(&key)))
	}
	var bytes [8]byte
	binary.LittleEndian.PutUint64(bytes[:], h.whole(key))
	return maphash.Bytes(h.seed, bytes[:])
}

// ofOwn compares the key first, so that one that can't be compared panics while no lock is held. One that doesn't equal itself is
// never found, whatever its number.
func (h *hasher[K]) ofOwn(key K) uint64 {
	if key != key {
		return rand.Uint64()
	}
	return h.own(h.seed, key)
}

// whole returns a key that is a whole number, as 64 bits. The kind says what the key is in memory.
func (h *hasher[K]) whole(key K) uint64 {
	at := unsafe.Pointer(&key)
	switch h.kind {
	case reflect.Int:
		return uint64(*(*int)(at))
	case reflect.Int8:
		return uint64(*(*int8)(at))
	case reflect.Int16:
		return uint64(*(*int16)(at))
	case reflect.Int32:
		return uint64(*(*int32)(at))
	case reflect.Uint:
		return uint64(*(*uint)(at))
	case reflect.Uint8:
		return uint64(*(*uint8)(at))
	case reflect.Uint16:
		return uint64(*(*uint16)(at))
	case reflect.Uint32:
		return uint64(*(*uint32)(at))
	case reflect.Uintptr:
		return uint64(*(*uintptr)(at))
	}
	return *(*uint64)(at)
}
