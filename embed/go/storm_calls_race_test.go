//go:build race

package rookdresser

// The detector of races takes ten times as long.
const stormCalls, stormLoads = 200_000, 10_000
