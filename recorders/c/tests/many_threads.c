// More threads than a process may have files, a few at once: each goes on with the file of one that is over.
// status: 0
// found: races 0
#include <pthread.h>
#include <stdlib.h>

enum { ROUNDS = 1500, AT_ONCE = 4 };

static void *set(void *cell) {
    *(int *)cell = 1;
    return NULL;
}

int main(void) {
    int *cells = calloc(AT_ONCE, sizeof *cells), sum = 0;
    for (int round = 0; round < ROUNDS; round++) {
        pthread_t threads[AT_ONCE];
        for (int k = 0; k < AT_ONCE; k++) pthread_create(&threads[k], NULL, set, &cells[k]);
        for (int k = 0; k < AT_ONCE; k++) pthread_join(threads[k], NULL);
        for (int k = 0; k < AT_ONCE; k++) sum += cells[k];
    }
    return sum != ROUNDS * AT_ONCE;
}
