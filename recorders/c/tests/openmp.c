// What OpenMP has for teams and tasks, but for dependences, without a race; with -DRACE a barrier is missing.
// words: -fopenmp
// status: 0
// status with -DRACE: 12
#include <omp.h>
#include <stdio.h>
#include <stdlib.h>
static int a[1000], b[1000];
int fib(int n) { int x, y; if (n < 2) return n;
#pragma omp task shared(x) if(n > 5)
  x = fib(n - 1);
#pragma omp task shared(y) final(n < 8)
  y = fib(n - 2);
#pragma omp taskwait
  return x + y; }
int main() {
  long s = 0, u = 0; double d = 0; int c = 0;
#pragma omp parallel for schedule(dynamic, 10) reduction(+:s,d)
  for (int i = 0; i < 1000; i++) { a[i] = i; s += i; d += 1; }
#pragma omp parallel
  {
#pragma omp for schedule(guided)
    for (int i = 0; i < 1000; i++) b[i] = a[999 - i];
#pragma omp for schedule(static) nowait
    for (int i = 0; i < 1000; i++) a[i] = b[999 - i] + 1;
#ifndef RACE
#pragma omp barrier
#endif
#pragma omp for schedule(runtime)
    for (int i = 0; i < 1000; i++) b[i] += a[999 - i];
    int w;
#pragma omp single copyprivate(w)
    { w = 5; c = fib(12); }
#pragma omp atomic
    u += w;
#pragma omp sections
    {
#pragma omp section
      a[0] = 1;
#pragma omp section
      a[1] = 1;
    }
    a[10 + omp_get_thread_num()] = a[0] + a[1];
#pragma omp single
    {
#pragma omp taskgroup
      {
        for (int i = 0; i < 10; i++) {
#pragma omp task
          { a[100 + i] = i;
#pragma omp task
          b[100 + i] = a[100 + i]; }
        }
      }
      for (int i = 0; i < 10; i++) c += b[100 + i];
    }
  }
#pragma omp parallel num_threads(2)
  {
    a[omp_get_thread_num()] = 3;
#pragma omp parallel num_threads(2)
    b[omp_get_thread_num() + 10 * omp_get_ancestor_thread_num(1)] = 4;
  }
#pragma omp parallel sections
  {
#pragma omp section
  a[5] = 1;
#pragma omp section
  a[6] = 1;
  }
  printf("%ld %g %d %ld\n", s, d, c, u); return 0; }
