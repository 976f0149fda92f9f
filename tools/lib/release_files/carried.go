//go:build cgo && linux && amd64

package rookdresser

// The library lies in this folder, so CGO_CFLAGS and CGO_LDFLAGS need not name it.

// #cgo LDFLAGS: ${SRCDIR}/librookdresser.a
import "C"
