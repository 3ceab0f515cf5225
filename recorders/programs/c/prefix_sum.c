// Prefix sums by threads: sums of parts, their offsets, then each part. With -DRACE one part is a place too long.
#include <pthread.h>
#include <stdio.h>
#include <stdlib.h>

enum { PARTS = 4 };

static long *numbers, *sums, offsets[PARTS + 1];
static int n;

static int part_end(long part) { return (int)((part + 1) * n / PARTS); }

static void *add_up(void *place) {
    long part = (long)place, sum = 0;
    for (int k = part_end(part - 1); k < part_end(part); k++) sum += numbers[k];
    offsets[part + 1] = sum;
    return NULL;
}

static void *write_sums(void *place) {
    long part = (long)place, sum = offsets[part];
    int end = part_end(part);
#ifdef RACE
    if (part == 1) end++;
#endif
    for (int k = part_end(part - 1); k < end; k++) {
        sum += numbers[k];
        sums[k] = sum;
    }
    return NULL;
}

static void on_all_parts(void *work(void *)) {
    pthread_t threads[PARTS];
    for (long part = 0; part < PARTS; part++) pthread_create(&threads[part], NULL, work, (void *)part);
    for (int part = 0; part < PARTS; part++) pthread_join(threads[part], NULL);
}

int main(int count, char **words) {
    n = count > 1 ? atoi(words[1]) : 1 << 19;
    numbers = malloc(n * sizeof *numbers);
    sums = malloc(n * sizeof *sums);
    for (int i = 0; i < n; i++) numbers[i] = i % 7;
    on_all_parts(add_up);
    for (int part = 0; part < PARTS; part++) offsets[part + 1] += offsets[part];
    on_all_parts(write_sums);
    printf("%ld\n", sums[n - 1]);
    free(numbers);
    free(sums);
    return 0;
}
