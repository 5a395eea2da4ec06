/*
 * Four problems over one matrix, from C:
 *
 *     maximise 2 x0 + x1   where   x0 + x1 <= b0,  x0 <= b1,  x1 <= b2
 *
 * with right sides of its own in each lane; y0 to y2 are the prices of the rows. The memory is what ipm_sizes says, and
 * no more. Then calls that are refused: with one number less of working memory, and with a centring that is not a
 * number. Ends with status 0 if every x is the known best one and b.y is c.x (what a lane gets is the price of its
 * limits), and if each refusal names its question.
 */
#include <inttypes.h>
#include <math.h>
#include <stdio.h>
#include <stdlib.h>

#include "ipm.h"

enum { M = 3, N = 2, S = 3, T = 4, LIMIT = 100 };

static const uint32_t offsets[M + 1] = {0, 2, 3, 4};
static const uint32_t columns[T] = {0, 1, 0, 1};
static const double values[T] = {1.0, 1.0, 1.0, 1.0};
static const double b[IPM_LANES * M] = {
    4.0, 5.0, 2.0, 10.0, /* x0 + x1, lanes 0 to 3 */
    3.0, 3.0, 3.0, 1.0,  /* x0 */
    2.0, 2.0, 2.0, 1.0,  /* x1 */
};
static const double c[IPM_LANES * N] = {2.0, 2.0, 2.0, 2.0, 1.0, 1.0, 1.0, 1.0};
static const double tolerances[3 * IPM_LANES] = {
    1e-8, 1e-8, 1e-8, 1e-8, /* primal, lanes 0 to 3 */
    1e-8, 1e-8, 1e-8, 1e-8, /* dual */
    1e-8, 1e-8, 1e-8, 1e-8, /* optimality */
};
static const double best[IPM_LANES * N] = {3.0, 3.0, 2.0, 1.0, 1.0, 2.0, 0.0, 1.0};
static const double near = 1e-6;
static const uint8_t no_file[1]; /* a pointer is never NULL; examples/c/carry.c lends a file */

/* The memory lent to every solve: W words of index and F numbers of work. */
struct memory {
    double x[IPM_LANES * N], prices[IPM_LANES * M];
    uint32_t *index;
    uint64_t index_len;
    double *work;
    uint64_t work_len;
};

static uint64_t solve(size_t b_len, size_t limit, double centring, struct memory *lent) {
    return ipm_solve(M, N, S, offsets, M + 1, columns, T, values, T, b, b_len, c, IPM_LANES * N, tolerances,
                     3 * IPM_LANES, limit, centring, IPM_DAMPING, 0, no_file, 0, lent->x, IPM_LANES * N, lent->prices,
                     IPM_LANES * M, lent->index, lent->index_len, lent->work, lent->work_len);
}

static void print_no(FILE *out, uint64_t answer) {
    fprintf(out, "question %u, place %u, lane %u: %s\n", ipm_question(answer), (unsigned)ipm_place(answer),
            ipm_lane(answer), ipm_text(answer));
}

static int failed(uint64_t answer) {
    print_no(stderr, answer);
    return EXIT_FAILURE;
}

static int is_refused_at(unsigned question, uint64_t answer) {
    print_no(stdout, answer);
    return ipm_question(answer) == question;
}

/*
 * Whether one number less of working memory is refused; and a centring that is not a number, at an earlier question if
 * that has a no too.
 */
static int refuses(struct memory *lent) {
    size_t b_len = IPM_LANES * M;
    struct memory less = *lent;
    less.work_len--;
    int right = is_refused_at(IPM_WORK, solve(b_len, LIMIT, IPM_CENTRING, &less));
    right = is_refused_at(IPM_FRACTIONS, solve(b_len, LIMIT, NAN, lent)) && right;
    right = is_refused_at(IPM_LIMIT, solve(b_len, 0, NAN, lent)) && right;
    return is_refused_at(IPM_LENGTHS, solve(b_len - 1, LIMIT, NAN, lent)) && right;
}

/* The lane's sum of p times q. */
static double product(const double *p, const double *q, size_t entries, size_t lane) {
    double sum = 0.0;
    for (size_t k = 0; k < entries; k++) sum += p[IPM_LANES * k + lane] * q[IPM_LANES * k + lane];
    return sum;
}

/* Whether the lane's x is the best one, no price is below zero, and b.y is c.x. */
static int is_right(const double *x, const double *y, size_t lane) {
    int right = fabs(product(b, y, M, lane) - product(c, x, N, lane)) < near;
    for (size_t k = lane; k < IPM_LANES * N; k += IPM_LANES) right = right && fabs(x[k] - best[k]) < near;
    for (size_t k = lane; k < IPM_LANES * M; k += IPM_LANES) right = right && y[k] > -near;
    return right;
}

static void print_lane(const char *name, const double *p, size_t entries, size_t lane) {
    for (size_t k = 0; k < entries; k++) printf("  %s%zu = %.6f", name, k, p[IPM_LANES * k + lane]);
}

static int show(uint64_t answer, const struct memory *lent) {
    printf("done at test %u, %zu prices\n", (unsigned)ipm_place(answer), ipm_length(answer));
    int right = ipm_length(answer) == IPM_LANES * M;
    for (size_t lane = 0; lane < IPM_LANES; lane++) {
        printf("lane %zu:", lane);
        print_lane("x", lent->x, N, lane);
        print_lane("y", lent->prices, M, lane);
        printf("\n");
        right = right && is_right(lent->x, lent->prices, lane);
    }
    return right ? EXIT_SUCCESS : EXIT_FAILURE;
}

int main(void) {
    struct memory lent = {.index = NULL};
    uint64_t e, s, d;
    uint64_t answer = ipm_sizes(M, N, S, offsets, M + 1, columns, T, &e, &s, &d, &lent.index_len, &lent.work_len);
    if (ipm_question(answer) != IPM_YES) return failed(answer);
    printf("E %" PRIu64 ", S %" PRIu64 ", D %" PRIu64 ": %" PRIu64 " index words, %" PRIu64 " working numbers\n", e,
           s, d, lent.index_len, lent.work_len);
    lent.index = malloc(lent.index_len * sizeof *lent.index);
    lent.work = malloc(lent.work_len * sizeof *lent.work);
    if (!lent.index || !lent.work) return EXIT_FAILURE;

    answer = solve(IPM_LANES * M, LIMIT, IPM_CENTRING, &lent);
    int status = ipm_question(answer) == IPM_YES ? show(answer, &lent) : failed(answer);
    if (!refuses(&lent)) status = EXIT_FAILURE;
    free(lent.index);
    free(lent.work);
    return status;
}
