// The allocator's functions, linked before those of the C library: each allocation is a block until its release.
#include "recorder.h"
#include <errno.h>
#include <malloc.h>
#include <stdlib.h>

// Whether a task of the program allocates here, and not the OpenMP run-time.
static bool is_told(void) { return me && me->task && !me->in_runtime; }

static void *born(void *block, size_t size) {
    block_born((uintptr_t)block, size, is_told());
    return block;
}

void *malloc(size_t size) { return born(__libc_malloc(size), size); }

void *calloc(size_t count, size_t size) { return born(__libc_calloc(count, size), count * size); }

void free(void *block) {
    if (!block) return;
    block_released((uintptr_t)block, is_told());
    __libc_free(block);
}

// The old block is read and released, the new one born and written, also if it stays in place.
void *realloc(void *old, size_t size) {
    if (!old) return malloc(size);
    if (size == 0) {
        free(old);
        return NULL;
    }
    size_t kept = block_size((uintptr_t)old);
    if (kept == 0) kept = malloc_usable_size(old);
    if (kept > size) kept = size;
    void *new = malloc(size);
    if (!new) return NULL;
    note(old, kept, READ, CALLER);
    note(new, kept, WRITE, CALLER);
    __real_memcpy(new, old, kept);
    free(old);
    return new;
}

void *reallocarray(void *old, size_t count, size_t size) {
    size_t bytes;
    if (__builtin_mul_overflow(count, size, &bytes)) {
        errno = ENOMEM;
        return NULL;
    }
    return realloc(old, bytes);
}

void *memalign(size_t alignment, size_t size) { return born(__libc_memalign(alignment, size), size); }

void *aligned_alloc(size_t alignment, size_t size) { return memalign(alignment, size); }

int posix_memalign(void **out, size_t alignment, size_t size) {
    if (alignment % sizeof(void *) != 0 || (alignment & (alignment - 1)) != 0 || alignment == 0) return EINVAL;
    void *block = memalign(alignment, size);
    if (!block) return ENOMEM;
    *out = block;
    return 0;
}

void *valloc(size_t size) { return memalign(4096, size); }

void *pvalloc(size_t size) { return memalign(4096, (size + 4095) & ~(size_t)4095); }
