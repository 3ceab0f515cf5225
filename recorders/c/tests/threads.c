// Threads that spawn threads, joined first in first out; one ends by pthread_exit, one is detached.
// status: 0
#include <pthread.h>
#include <stdlib.h>

static int *cells;

static void *leaf(void *place) {
    cells[(long)place] = 1;
    pthread_exit(NULL);
}

static void *branch(void *place) {
    pthread_t left, right;
    pthread_create(&left, NULL, leaf, place);
    pthread_create(&right, NULL, leaf, (char *)place + 1);
    pthread_join(left, NULL);
    pthread_join(right, NULL);
    cells[(long)place] += cells[(long)place + 1];
    return NULL;
}

int main(void) {
    pthread_t first, second;
    cells = calloc(8, sizeof *cells);
    pthread_create(&first, NULL, branch, (void *)0);
    pthread_join(first, NULL);
    pthread_create(&second, NULL, branch, (void *)2);
    pthread_join(second, NULL);
    return cells[0] + cells[2] != 4;
}
