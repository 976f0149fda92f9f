//go:build !race

package rookdresser

// So many calls are checked for values that had left before, and so many of each goroutine in a storm of loads.
const stormCalls, stormLoads = 12_000_000, 60_000
