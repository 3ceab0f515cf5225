// A process that forks: what the child does is no part of the log.
// status: 0
#include <stdlib.h>
#include <sys/wait.h>
#include <unistd.h>

int main(void) {
    int *cell = malloc(sizeof *cell);
    *cell = 1;
    if (fork() == 0) {
        *cell = 2;
        exit(0);
    }
    wait(NULL);
    return *cell != 1;
}
