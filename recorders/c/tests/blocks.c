// An address that is used again is another block: tasks that no join orders write there, each its own allocation.
// words: -fopenmp
// status: 0
#include <stdint.h>
#include <stdlib.h>

static uintptr_t places[8];

static void use(int task) {
    long *block = malloc(48);
    places[task] = (uintptr_t)block;
    block[0] = 1;
    block = realloc(block, 4096);
    block[100] = block[0];
    free(block);
}

// One thread runs all tasks, so the allocator gives them one address.
int main(void) {
    int is_used_again = 0;
#pragma omp parallel num_threads(1)
    for (int task = 0; task < 8; task++) {
#pragma omp task
        use(task);
    }
    for (int task = 1; task < 8; task++) is_used_again |= places[task] == places[0];
    return !is_used_again;
}
