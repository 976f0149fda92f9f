//go:build !cgo || !linux || !amd64

package rookdresser

// The package calls librookdresser, which is built for Linux on x86-64, by cgo. No other build of it has anything but this.
var _ = rookdresser_needs_cgo_on_linux_amd64
