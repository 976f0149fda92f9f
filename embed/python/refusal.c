/* Memory that is refused, for test_memory.py and test_window.py: the module is linked with this and -Wl,--wrap=malloc,--wrap=realloc,--wrap=free. */
#include <stddef.h>
void *__real_malloc(size_t size);
void *__real_realloc(void *memory, size_t size);
void __real_free(void *memory);

static long left = -1, refused, given;

/* From the nth request on, the library is refused memory; never if n is negative. Returns how many were refused before. */
__attribute__((visibility("default"))) long refuse_after(long n) {
    long before = refused;
    left = n, refused = 0;
    return before;
}

/* How many blocks of memory the library has now. */
__attribute__((visibility("default"))) long blocks(void) { return given; }

static int is_refused(void) {
    if (left < 0) return 0;
    if (left > 0) return left--, 0;
    return refused++, 1;
}

void *__wrap_malloc(size_t size) {
    void *memory = is_refused() ? NULL : __real_malloc(size);
    given += memory != NULL;
    return memory;
}

void *__wrap_realloc(void *memory, size_t size) {
    void *moved = is_refused() ? NULL : __real_realloc(memory, size);
    given += !memory && moved;
    return moved;
}

void __wrap_free(void *memory) {
    given -= memory != NULL;
    __real_free(memory);
}
