// The product of two matrices by threads, each of which has some rows. With -DRACE they share the row between them, in
// which both write the same numbers.
#include <pthread.h>
#include <stdio.h>
#include <stdlib.h>

enum { PARTS = 4 };

static double *left, *right, *product;
static int n;

static void multiply_row(int row) {
    for (int column = 0; column < n; column++) {
        double sum = 0;
        for (int k = 0; k < n; k++) sum += left[row * n + k] * right[k * n + column];
        product[row * n + column] = sum;
    }
}

static void *multiply_rows(void *place) {
    long part = (long)place;
    int end = (int)((part + 1) * n / PARTS);
#ifdef RACE
    if (part + 1 < PARTS) end++;
#endif
    for (int row = (int)(part * n / PARTS); row < end; row++) multiply_row(row);
    return NULL;
}

int main(int count, char **words) {
    n = count > 1 ? atoi(words[1]) : 96;
    left = malloc(n * n * sizeof *left);
    right = malloc(n * n * sizeof *right);
    product = malloc(n * n * sizeof *product);
    for (int i = 0; i < n * n; i++) {
        left[i] = i % 5;
        right[i] = i % 3;
    }
    pthread_t threads[PARTS];
    for (long part = 0; part < PARTS; part++) pthread_create(&threads[part], NULL, multiply_rows, (void *)part);
    for (int part = 0; part < PARTS; part++) pthread_join(threads[part], NULL);
    printf("%g\n", product[n * n - 1]);
    free(left);
    free(right);
    free(product);
    return 0;
}
