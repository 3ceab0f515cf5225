// Breadth-first search of a grid by OpenMP, level by level. A cell is claimed by compare and swap; with -DRACE by a read
// and a write, which most often does no harm.
#include <stdio.h>
#include <stdlib.h>

static int width, *distance, *frontier, *following, following_count;

static int claim(int cell, int level) {
#ifdef RACE
    if (distance[cell] >= 0) return 0;
    distance[cell] = level;
    return 1;
#else
    int unseen = -1;
    return __atomic_compare_exchange_n(&distance[cell], &unseen, level, 0, __ATOMIC_RELAXED, __ATOMIC_RELAXED);
#endif
}

static void visit(int cell, int level) {
    if (claim(cell, level)) following[__atomic_fetch_add(&following_count, 1, __ATOMIC_RELAXED)] = cell;
}

static void visit_neighbours(int cell, int level) {
    int row = cell / width, column = cell % width;
    if (row > 0) visit(cell - width, level);
    if (row + 1 < width) visit(cell + width, level);
    if (column > 0) visit(cell - 1, level);
    if (column + 1 < width) visit(cell + 1, level);
}

int main(int count, char **words) {
    width = count > 1 ? atoi(words[1]) : 150;
    int cells = width * width, frontier_count = 1, level = 0;
    distance = malloc(cells * sizeof *distance);
    frontier = malloc(4 * cells * sizeof *frontier);
    following = malloc(4 * cells * sizeof *following);
    for (int i = 0; i < cells; i++) distance[i] = -1;
    frontier[0] = cells / 2 + width / 2;
    distance[frontier[0]] = 0;
    while (frontier_count > 0) {
        level++;
        following_count = 0;
#pragma omp parallel for
        for (int i = 0; i < frontier_count; i++) visit_neighbours(frontier[i], level);
        int *old = frontier;
        frontier = following;
        following = old;
        frontier_count = following_count;
    }
    printf("%d levels\n", level);
    free(distance);
    free(frontier);
    free(following);
    return 0;
}
