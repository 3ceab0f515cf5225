// Each width and kind of access, on one allocation.
// status: 0
#include <stdatomic.h>
#include <stdint.h>
#include <stdlib.h>
#include <string.h>

struct Forty {
    char bytes[40];
};
struct Packed {
    char byte;
    int four;
    long eight;
} __attribute__((packed));

int main(void) {
    char *a = malloc(256);
    *a = 1;
    *(uint16_t *)(a + 2) = 2;
    *(uint32_t *)(a + 4) = *(uint16_t *)(a + 2);
    *(uint64_t *)(a + 8) = *(uint32_t *)(a + 4);
    *(volatile uint64_t *)(a + 16) = 3;
    ((struct Packed *)(a + 24))->four = 4;
    ((struct Packed *)(a + 24))->eight = ((struct Packed *)(a + 24))->four;
    *(struct Forty *)(a + 48) = *(struct Forty *)(a + 96);
    memset(a + 136, 5, 8);
    memcpy(a + 144, a + 136, 8);
    memmove(a + 145, a + 144, 8);
    for (int i = 0; i < 5; i++) a[160 + 2 * i] = 6;
    for (int i = 4; i >= 0; i--) a[180 + i] = 7;
    atomic_fetch_add((_Atomic uint8_t *)(a + 192), 1);
    atomic_fetch_or((_Atomic uint16_t *)(a + 194), 1);
    atomic_exchange((_Atomic uint32_t *)(a + 196), 1);
    atomic_store((_Atomic uint64_t *)(a + 200), 1);
    __sync_fetch_and_nand((uint64_t *)(a + 200), 1);
    uint64_t zero = atomic_load((_Atomic uint64_t *)(a + 200)) * 0;
    atomic_compare_exchange_strong((_Atomic uint32_t *)(a + 208), (uint32_t *)(a + 212), 1);
    (void)zero;
    return 0;
}
