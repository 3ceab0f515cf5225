// What the compiler calls for atomic accesses of 1, 2, 4, 8 and 16 bytes. An update that wrote is an atomic write, a
// comparison that failed an atomic read. All use the strongest memory order, whichever was requested.
#include "recorder.h"

#define ORDER __ATOMIC_SEQ_CST

#define UPDATE(bits, type, name) \
    type __tsan_atomic##bits##_##name(volatile type *a, type value, int order) { \
        (void)order; \
        note(a, sizeof(type), ATOMIC_WRITE, CALLER); \
        return __atomic_##name(a, value, ORDER); \
    }

#define COMPARE(bits, type, name) \
    int __tsan_atomic##bits##_##name(volatile type *a, type *expected, type value, int order, int failure_order) { \
        (void)order, (void)failure_order; \
        bool wrote = __atomic_compare_exchange_n(a, expected, value, false, ORDER, ORDER); \
        note(a, sizeof(type), wrote ? ATOMIC_WRITE : ATOMIC_READ, CALLER); \
        return wrote; \
    }

#define ATOMIC(bits, type) \
    type __tsan_atomic##bits##_load(const volatile type *a, int order) { \
        (void)order; \
        note(a, sizeof(type), ATOMIC_READ, CALLER); \
        return __atomic_load_n(a, ORDER); \
    } \
    void __tsan_atomic##bits##_store(volatile type *a, type value, int order) { \
        (void)order; \
        note(a, sizeof(type), ATOMIC_WRITE, CALLER); \
        __atomic_store_n(a, value, ORDER); \
    } \
    type __tsan_atomic##bits##_exchange(volatile type *a, type value, int order) { \
        (void)order; \
        note(a, sizeof(type), ATOMIC_WRITE, CALLER); \
        return __atomic_exchange_n(a, value, ORDER); \
    } \
    UPDATE(bits, type, fetch_add) \
    UPDATE(bits, type, fetch_sub) \
    UPDATE(bits, type, fetch_and) \
    UPDATE(bits, type, fetch_or) \
    UPDATE(bits, type, fetch_xor) \
    UPDATE(bits, type, fetch_nand) \
    COMPARE(bits, type, compare_exchange_strong) \
    COMPARE(bits, type, compare_exchange_weak) \
    type __tsan_atomic##bits##_compare_exchange_val(volatile type *a, type expected, type value, int order, int failure) { \
        (void)order, (void)failure; \
        bool wrote = __atomic_compare_exchange_n(a, &expected, value, false, ORDER, ORDER); \
        note(a, sizeof(type), wrote ? ATOMIC_WRITE : ATOMIC_READ, CALLER); \
        return expected; \
    }

ATOMIC(8, uint8_t)
ATOMIC(16, uint16_t)
ATOMIC(32, uint32_t)
ATOMIC(64, uint64_t)

// Sixteen bytes are compared and swapped by an instruction of the processor; the rest is built on that.
#if defined(__SIZEOF_INT128__) && defined(__GCC_HAVE_SYNC_COMPARE_AND_SWAP_16)
typedef unsigned __int128 u128;

static u128 swap_if(volatile u128 *a, u128 expected, u128 value) { return __sync_val_compare_and_swap(a, expected, value); }

#define UPDATE_128(name, result) \
    u128 __tsan_atomic128_##name(volatile u128 *a, u128 value, int order) { \
        (void)order; \
        note(a, sizeof(u128), ATOMIC_WRITE, CALLER); \
        u128 old = swap_if(a, 0, 0), seen; \
        while ((seen = swap_if(a, old, result)) != old) old = seen; \
        return old; \
    }
UPDATE_128(exchange, value)
UPDATE_128(fetch_add, old + value)
UPDATE_128(fetch_sub, old - value)
UPDATE_128(fetch_and, old & value)
UPDATE_128(fetch_or, old | value)
UPDATE_128(fetch_xor, old ^ value)
UPDATE_128(fetch_nand, ~(old & value))

u128 __tsan_atomic128_load(const volatile u128 *a, int order) {
    (void)order;
    note(a, sizeof(u128), ATOMIC_READ, CALLER);
    return swap_if((volatile u128 *)a, 0, 0);
}

void __tsan_atomic128_store(volatile u128 *a, u128 value, int order) {
    (void)order;
    note(a, sizeof(u128), ATOMIC_WRITE, CALLER);
    u128 old = swap_if(a, 0, 0), seen;
    while ((seen = swap_if(a, old, value)) != old) old = seen;
}

static u128 compare_128(volatile u128 *a, u128 expected, u128 value, uintptr_t caller) {
    u128 old = swap_if(a, expected, value);
    note(a, sizeof(u128), old == expected ? ATOMIC_WRITE : ATOMIC_READ, caller);
    return old;
}

int __tsan_atomic128_compare_exchange_strong(volatile u128 *a, u128 *expected, u128 value, int order, int failure) {
    (void)order, (void)failure;
    u128 old = compare_128(a, *expected, value, CALLER);
    bool wrote = old == *expected;
    *expected = old;
    return wrote;
}

int __tsan_atomic128_compare_exchange_weak(volatile u128 *a, u128 *expected, u128 value, int order, int failure) {
    (void)order, (void)failure;
    u128 old = compare_128(a, *expected, value, CALLER);
    bool wrote = old == *expected;
    *expected = old;
    return wrote;
}

u128 __tsan_atomic128_compare_exchange_val(volatile u128 *a, u128 expected, u128 value, int order, int failure) {
    (void)order, (void)failure;
    return compare_128(a, expected, value, CALLER);
}
#endif

void __tsan_atomic_thread_fence(int order) {
    (void)order;
    __atomic_thread_fence(ORDER);
}
void __tsan_atomic_signal_fence(int order) {
    (void)order;
    __atomic_signal_fence(ORDER);
}
