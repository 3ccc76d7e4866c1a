/* Analyses, factorises and solves once, by CHOLMOD, the stiffness matrix of a generated line of pipe: six freedoms a node, straights
 * of 3 m, the same section, anchors of 10^10 at the first node of each loop and a support of 10^8 under the third. Writes the
 * seconds that this took. usage: cholmod NODES
 */
#include <cholmod.h>
#include <math.h>
#include <stdio.h>
#include <stdlib.h>
#include <string.h>
#include <time.h>

static const double PI = 3.14159265358979323846;

/* Adds to the lower triangle. */
static void add(cholmod_triplet *t, int row, int column, double value) {
    if (row < column || value == 0) return;
    ((int *)t->i)[t->nnz] = row;
    ((int *)t->j)[t->nnz] = column;
    ((double *)t->x)[t->nnz] = value;
    t->nnz++;
}

/* The rank-one part of a spring: its stiffness times its shape vector times itself. */
static void spring(cholmod_triplet *t, int from, double stiffness, const double w[12]) {
    for (int i = 0; i < 12; i++)
        for (int j = 0; j <= i; j++)
            add(t, 6 * from + i, 6 * from + j, stiffness * w[i] * w[j]);
}

/* A straight along a unit vector in the plane, as springs: axial, torsion, bending about two axes, shear along two. */
static void straight(cholmod_triplet *t, int from, double x, double y) {
    const double e = 2e11, outer = 0.1683, wall = 0.00711, length = 3;
    const double inner = outer - 2 * wall;
    const double area = PI * (outer * outer - inner * inner) / 4;
    const double inertia = PI * (pow(outer, 4) - pow(inner, 4)) / 64;
    const double shear = e / 2.6;
    const double axes[3][3] = {{x, y, 0}, {-y, x, 0}, {0, 0, 1}};
    const double stretch[3] = {e * area / length, 12 * e * inertia / pow(length, 3), 12 * e * inertia / pow(length, 3)};
    const double turn[3] = {2 * shear * inertia / length, e * inertia / length, e * inertia / length};
    for (int k = 0; k < 3; k++) {
        double along[12] = {0}, about[12] = {0};
        const double *a = axes[k];
        /* Half the length times the sum of both rotations moves the ends apart sideways. */
        const double side[3] = {length / 2 * (y * a[2]), length / 2 * (-x * a[2]), length / 2 * (x * a[1] - y * a[0])};
        for (int i = 0; i < 3; i++) {
            along[i] = -a[i];
            along[6 + i] = a[i];
            about[3 + i] = -a[i];
            about[9 + i] = a[i];
            if (k > 0) {
                along[3 + i] = -side[i];
                along[9 + i] = -side[i];
            }
        }
        spring(t, from, stretch[k], along);
        spring(t, from, turn[k], about);
    }
}

int main(int count, char **words) {
    int nodes = count > 1 ? atoi(words[1]) : 0;
    if (nodes < 5 || nodes % 4 != 1) {
        fprintf(stderr, "usage: cholmod NODES, with NODES of the form 4 M + 1\n");
        return 2;
    }
    cholmod_common common;
    cholmod_start(&common);
    cholmod_triplet *t = cholmod_allocate_triplet(6 * nodes, 6 * nodes, 1000 * (size_t)nodes, -1, CHOLMOD_REAL, &common);
    const double ways[4][2] = {{1, 0}, {0, 1}, {1, 0}, {0, -1}};
    for (int n = 0; n + 1 < nodes; n++) straight(t, n, ways[n % 4][0], ways[n % 4][1]);
    for (int n = 0; n < nodes; n++) {
        for (int f = 0; n % 4 == 0 && f < 6; f++) add(t, 6 * n + f, 6 * n + f, 1e10);
        if (n % 4 == 2) add(t, 6 * n + 2, 6 * n + 2, 1e8);
    }
    cholmod_sparse *a = cholmod_triplet_to_sparse(t, 0, &common);
    cholmod_dense *b = cholmod_ones(6 * nodes, 1, CHOLMOD_REAL, &common);
    struct timespec begin, end;
    clock_gettime(CLOCK_MONOTONIC, &begin);
    cholmod_factor *l = cholmod_analyze(a, &common);
    cholmod_factorize(a, l, &common);
    cholmod_dense *x = cholmod_solve(CHOLMOD_A, l, b, &common);
    clock_gettime(CLOCK_MONOTONIC, &end);
    if (common.status != CHOLMOD_OK || x == NULL) {
        fprintf(stderr, "CHOLMOD gave up with status %d\n", common.status);
        return 1;
    }
    printf("%.9f\n", (end.tv_sec - begin.tv_sec) + (end.tv_nsec - begin.tv_nsec) * 1e-9);
    cholmod_free_dense(&x, &common);
    cholmod_free_factor(&l, &common);
    cholmod_free_dense(&b, &common);
    cholmod_free_sparse(&a, &common);
    cholmod_free_triplet(&t, &common);
    cholmod_finish(&common);
    return 0;
}
