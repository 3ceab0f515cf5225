// The program ends while a thread runs on: the log is one that was cut.
// status: 14
#include <pthread.h>
#include <stdatomic.h>
#include <unistd.h>

static atomic_int has_begun;

static void *run_on(void *unused) {
    has_begun = 1;
    for (;;) pause();
    return unused;
}

int main(void) {
    pthread_t thread;
    pthread_create(&thread, NULL, run_on, NULL);
    while (!has_begun) {}
    return 0;
}
