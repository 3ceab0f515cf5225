// Tasks that depend on one another.
// words: -fopenmp
// status: 11
int main(void) {
    static int a;
#pragma omp parallel
#pragma omp single
    {
#pragma omp task depend(out : a)
        a = 1;
#pragma omp task depend(in : a)
        a++;
    }
    return a != 2;
}
