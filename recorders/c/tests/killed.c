// Two threads race, and then the process is killed: the race stands in what is left of the log.
// status: 12
// ends: 137
#include <pthread.h>
#include <signal.h>
#include <stdlib.h>

static int *cell;

static void *set(void *unused) {
    *cell = 1;
    return unused;
}

int main(void) {
    pthread_t first, second;
    cell = malloc(sizeof *cell);
    pthread_create(&first, NULL, set, NULL);
    pthread_create(&second, NULL, set, NULL);
    pthread_join(second, NULL);
    pthread_join(first, NULL);
    raise(SIGKILL);
    return 0;
}
