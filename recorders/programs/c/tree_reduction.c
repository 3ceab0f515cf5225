// The sum of a tree's leaves by OpenMP tasks, kept in its nodes. With -DRACE one node reads its left child's sum while
// that is added up.
#include <stdio.h>
#include <stdlib.h>

enum { GRAIN = 5, RACING_DEPTH = 7 };

typedef struct Node {
    struct Node *left, *right;
    long sum;
} Node;

static Node *grow(int depth, long leaf) {
    Node *node = malloc(sizeof *node);
    *node = (Node){NULL, NULL, leaf};
    if (depth > 0) {
        node->left = grow(depth - 1, 2 * leaf);
        node->right = grow(depth - 1, 2 * leaf + 1);
    }
    return node;
}

static void cut(Node *node) {
    if (!node) return;
    cut(node->left);
    cut(node->right);
    free(node);
}

static void add_up(Node *node, int depth, int is_leftmost) {
    if (depth == 0) return;
    long early = 0;
    if (depth <= GRAIN) {
        add_up(node->left, depth - 1, 0);
        add_up(node->right, depth - 1, 0);
    } else {
#pragma omp task
        add_up(node->left, depth - 1, is_leftmost);
#ifdef RACE
        if (is_leftmost && depth == RACING_DEPTH) early = node->left->sum;
#endif
        add_up(node->right, depth - 1, 0);
#pragma omp taskwait
    }
    node->sum = node->left->sum + node->right->sum;
    if (early < 0) abort();
}

int main(int count, char **words) {
    int depth = count > 1 ? atoi(words[1]) : 14;
    Node *root = grow(depth, 1);
#pragma omp parallel
#pragma omp single
    add_up(root, depth, 1);
    printf("%ld\n", root->sum);
    cut(root);
    return 0;
}
