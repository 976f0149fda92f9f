// Package refusing lets a test refuse memory to the library. Whoever imports it has malloc and realloc of its own.
package refusing

/*
#include <stddef.h>

// How many allocations of this thread succeed before one is refused; less than 0, none is.
static __thread long left = -1;

void *__libc_malloc(size_t n);
void *__libc_realloc(void *at, size_t n);

static int is_refused(void) { return left >= 0 && left-- == 0; }

void *malloc(size_t n) { return is_refused() ? 0 : __libc_malloc(n); }
void *realloc(void *at, size_t n) { return is_refused() ? 0 : __libc_realloc(at, n); }

static void refuse_after(long n) { left = n; }
static long still_left(void) { return left; }
*/
import "C"

import "runtime"

// After makes a call in which an allocation of C's is refused after so many others, and returns whether it came to that.
func After(allocations int, call func()) bool {
	runtime.LockOSThread()
	defer runtime.UnlockOSThread()
	C.refuse_after(C.long(allocations))
	call()
	was := C.still_left() < 0
	C.refuse_after(-1)
	return was
}
