// Merge sort by OpenMP tasks. With -DRACE the right half of one level uses a scratch array that starts a place too early.
#include <stdio.h>
#include <stdlib.h>

enum { GRAIN = 256, RACING_LENGTH = 1024 };

static void merge(int *a, int n, int half, int *scratch) {
    int i = 0, j = half;
    for (int k = 0; k < n; k++) scratch[k] = j == n || (i < half && a[i] <= a[j]) ? a[i++] : a[j++];
    for (int k = 0; k < n; k++) a[k] = scratch[k];
}

static int *right_scratch(int *scratch, int n, int half) {
#ifdef RACE
    if (n == RACING_LENGTH) return scratch + half - 1;
#endif
    (void)n;
    return scratch + half;
}

static void sort(int *a, int n, int *scratch) {
    int half = n / 2;
    if (n < 2) return;
    if (n <= GRAIN) {
        sort(a, half, scratch);
        sort(a + half, n - half, scratch);
    } else {
#pragma omp task
        sort(a, half, scratch);
        sort(a + half, n - half, right_scratch(scratch, n, half));
#pragma omp taskwait
    }
    merge(a, n, half, scratch);
}

int main(int count, char **words) {
    int n = count > 1 ? atoi(words[1]) : 1 << 15;
    int *a = malloc(n * sizeof *a), *scratch = malloc(n * sizeof *scratch);
    unsigned x = 1;
    for (int i = 0; i < n; i++) {
        x = x * 1664525 + 1013904223;
        a[i] = x >> 8;
    }
#pragma omp parallel
#pragma omp single
    sort(a, n, scratch);
    int wrong = 0;
    for (int i = 1; i < n; i++) wrong += a[i - 1] > a[i];
    printf("%d wrong\n", wrong);
    free(a);
    free(scratch);
    return 0;
}
