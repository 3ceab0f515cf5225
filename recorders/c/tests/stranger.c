// A thread that its sibling joins.
// status: 11
#include <pthread.h>
#include <stddef.h>

static pthread_t first;

static void *nothing(void *unused) { return unused; }
static void *join(void *unused) {
    pthread_join(first, NULL);
    return unused;
}

int main(void) {
    pthread_t second;
    pthread_create(&first, NULL, nothing, NULL);
    pthread_create(&second, NULL, join, NULL);
    pthread_join(second, NULL);
    return 0;
}
