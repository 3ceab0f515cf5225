// Ways to place queens on a board, by OpenMP tasks for the first rows. With -DRACE a task copies its parent's board, which
// the parent goes on to change, when the task runs and not when it is made.
#include <stdio.h>
#include <stdlib.h>

enum { MOST = 16, TASK_ROWS = 3 };

typedef struct {
    int columns[MOST];
} Board;

static int n;

static int is_free(const Board *board, int row, int column) {
    for (int k = 0; k < row; k++) {
        int other = board->columns[k];
        if (other == column || other - column == row - k || column - other == row - k) return 0;
    }
    return 1;
}

static long count_from(Board *board, int row);

static long count_in_tasks(Board *board, int row) {
    long ways[MOST] = {0}, sum = 0;
    for (int column = 0; column < n; column++) {
        if (!is_free(board, row, column)) continue;
        board->columns[row] = column;
#ifdef RACE
#pragma omp task shared(ways) firstprivate(column)
        {
            Board own = *board;
            own.columns[row] = column;
            ways[column] = count_from(&own, row + 1);
        }
#else
        Board own = *board;
#pragma omp task shared(ways) firstprivate(column, own)
        ways[column] = count_from(&own, row + 1);
#endif
    }
#pragma omp taskwait
    for (int column = 0; column < n; column++) sum += ways[column];
    return sum;
}

static long count_from(Board *board, int row) {
    if (row == n) return 1;
    if (row < TASK_ROWS) return count_in_tasks(board, row);
    long sum = 0;
    for (int column = 0; column < n; column++) {
        if (!is_free(board, row, column)) continue;
        board->columns[row] = column;
        sum += count_from(board, row + 1);
    }
    return sum;
}

int main(int count, char **words) {
    n = count > 1 ? atoi(words[1]) : 8;
    long ways = 0;
#pragma omp parallel
#pragma omp single
    {
        Board board = {{0}};
        ways = count_from(&board, 0);
    }
    printf("%ld\n", ways);
    return 0;
}
