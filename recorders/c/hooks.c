// What the compiler calls for each plain access, under -fsanitize=thread.
#include "recorder.h"

#define ACCESSES(n) \
    void __tsan_read##n(void *a) { note(a, n, READ, CALLER); } \
    void __tsan_write##n(void *a) { note(a, n, WRITE, CALLER); } \
    void __tsan_unaligned_read##n(void *a) { note(a, n, READ, CALLER); } \
    void __tsan_unaligned_write##n(void *a) { note(a, n, WRITE, CALLER); } \
    void __tsan_volatile_read##n(void *a) { note(a, n, READ, CALLER); } \
    void __tsan_volatile_write##n(void *a) { note(a, n, WRITE, CALLER); } \
    void __tsan_unaligned_volatile_read##n(void *a) { note(a, n, READ, CALLER); } \
    void __tsan_unaligned_volatile_write##n(void *a) { note(a, n, WRITE, CALLER); } \
    void __tsan_read_write##n(void *a) { note(a, n, READ, CALLER); note(a, n, WRITE, CALLER + 1); } \
    void __tsan_unaligned_read_write##n(void *a) { note(a, n, READ, CALLER); note(a, n, WRITE, CALLER + 1); }
ACCESSES(1)
ACCESSES(2)
ACCESSES(4)
ACCESSES(8)
ACCESSES(16)

void __tsan_read_range(void *a, unsigned long size) { note(a, size, READ, CALLER); }
void __tsan_write_range(void *a, unsigned long size) { note(a, size, WRITE, CALLER); }

// The pointer to an object's virtual functions. A destructor stores the same one again: that changes nothing.
void __tsan_vptr_update(void **a, void *value) {
    if (*a != value) note(a, sizeof *a, WRITE, CALLER);
}
void __tsan_vptr_read(void **a) { note(a, sizeof *a, READ, CALLER); }

void __tsan_init(void) {}
void __tsan_func_entry(void *caller) { (void)caller; }
void __tsan_func_exit(void) {}
void __tsan_ignore_thread_begin(void) {}
void __tsan_ignore_thread_end(void) {}

// Memory functions that the program calls: the linker's --wrap sends them here.
static void note_copy(void *to, const void *from, size_t size, uintptr_t caller) {
    note(from, size, READ, caller);
    note(to, size, WRITE, caller);
}

void *__wrap_memcpy(void *to, const void *from, size_t size) {
    note_copy(to, from, size, CALLER);
    return __real_memcpy(to, from, size);
}
void *__wrap_memmove(void *to, const void *from, size_t size) {
    note_copy(to, from, size, CALLER);
    return __real_memmove(to, from, size);
}
void *__wrap_memset(void *to, int byte, size_t size) {
    note(to, size, WRITE, CALLER);
    return __real_memset(to, byte, size);
}

// The names by which newer compilers call them.
void *__tsan_memcpy(void *to, const void *from, size_t size) {
    note_copy(to, from, size, CALLER);
    return __real_memcpy(to, from, size);
}
void *__tsan_memmove(void *to, const void *from, size_t size) {
    note_copy(to, from, size, CALLER);
    return __real_memmove(to, from, size);
}
void *__tsan_memset(void *to, int byte, size_t size) {
    note(to, size, WRITE, CALLER);
    return __real_memset(to, byte, size);
}
