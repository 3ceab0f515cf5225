// A taskwait that leaves a grandchild running: forks and joins don't order it.
// words: -fopenmp
// status: 11
#include <stdio.h>

int main(void) {
    static int a, b;
#pragma omp parallel
#pragma omp single
    {
#pragma omp task
        {
#pragma omp task
            a = 1;
            b = 2;
        }
#pragma omp taskwait
        b++;
    }
    return a + b != 4;
}
