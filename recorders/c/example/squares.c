#include <stdio.h>
int a[1001];
int main(void) {
#pragma omp parallel for num_threads(2)
    for (int half = 0; half < 2; half++)
        for (int i = 500 * half; i <= 500 * half + 500; i++)
            a[i] = i * i;
    printf("%d\n", a[500]);
    return 0;
}
