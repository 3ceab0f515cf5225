// Atomic accesses of sixteen bytes: gcc sends these to the recorder under -mcx16 alone.
// words: -mcx16
// status: 0
#include <stdio.h>
#include <stdlib.h>

int main(void) {
    __int128 *a = aligned_alloc(16, 32);
    a[0] = 1;
    if (!__sync_bool_compare_and_swap(a, 1, 2)) return 1;
    if (__sync_bool_compare_and_swap(a, 1, 3)) return 1;
    if (__sync_fetch_and_add(a, 5) != 2) return 1;
    return a[0] != 7;
}
