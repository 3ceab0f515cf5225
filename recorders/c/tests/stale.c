// A block is read after the thread that released it was joined; and a block is released while another thread reads it.
// status: 12
// found: races 8
// found: stale 1
#include <pthread.h>
#include <stdlib.h>

static long *early, *late;

static void *release(void *unused) {
    free(early);
    free(late);
    return unused;
}

int main(void) {
    pthread_t thread;
    early = malloc(sizeof *early);
    late = malloc(sizeof *late);
    long *kept = early, *also = late;
    *kept = *also = 1;
    pthread_create(&thread, NULL, release, NULL);
    long sum = *(volatile long *)also;
    pthread_join(thread, NULL);
    sum += *(volatile long *)kept;
    return sum == 7;
}
