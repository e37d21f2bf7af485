// Loaded before the C library: refuses the chosen growths of memory.
#include "counting.h"
#include <stddef.h>

void *__libc_malloc(size_t size);
void *__libc_calloc(size_t count, size_t size);
void *__libc_realloc(void *old, size_t size);
void *__libc_memalign(size_t alignment, size_t size);

void *malloc(size_t size) { return is_chosen() ? NULL : __libc_malloc(size); }

void *calloc(size_t count, size_t size) { return is_chosen() ? NULL : __libc_calloc(count, size); }

void *realloc(void *old, size_t size) { return is_chosen() ? NULL : __libc_realloc(old, size); }

void *aligned_alloc(size_t alignment, size_t size) {
    return is_chosen() ? NULL : __libc_memalign(alignment, size);
}
