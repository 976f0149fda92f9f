//go:build amd64

// Package goroutine tells goroutines apart. It is assembly, which a package that calls C can't have, and x86-64 alone, as the library.
package goroutine

// Current returns a number that no other goroutine has while this one lives: the address of what the runtime knows of it.
func Current() uintptr
