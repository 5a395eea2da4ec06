// Times three ways to the sum of four roots and prints the best time of each in nanoseconds: on operands that do not wait for each other,
// and in a chain where each operand waits for the roots before it, as on the diagonal of a factor.
#include <emmintrin.h>
#include <stdint.h>
#include <stdio.h>
#include <string.h>
#include <time.h>

double root_sum_together(double a, double b, double c, double d);
double root_sum_one_by_one(double a, double b, double c, double d);

__attribute__((noinline)) static double root_sum_hardware(double a, double b, double c, double d) {
    __m128d p = _mm_sqrt_pd(_mm_set_pd(b, a));
    __m128d q = _mm_sqrt_pd(_mm_set_pd(d, c));
    double r[4];
    _mm_storeu_pd(r, p);
    _mm_storeu_pd(r + 2, q);
    return r[0] + r[1] + (r[2] + r[3]);
}

// A run is short, so that the best of many is one that nothing else on the machine disturbed.
enum { ENTRIES = 1024, ROUNDS = 4, RUNS = 500 };

static double operands[4 * ENTRIES];

// Positive normal numbers, their patterns spread over the exponents from 2 ^ -64 to 2 ^ 64.
static void fill(void) {
    uint64_t state = 0x9E3779B97F4A7C15u;
    for (int i = 0; i < 4 * ENTRIES; i++) {
        state ^= state << 13;
        state ^= state >> 7;
        state ^= state << 17;
        uint64_t exponent = 1023 - 64 + (state >> 52) % 128;
        uint64_t bits = exponent << 52 | (state & 0x000FFFFFFFFFFFFFu);
        memcpy(&operands[i], &bits, sizeof bits);
    }
}

typedef double Sum(double, double, double, double);

static double seconds(void) {
    struct timespec t;
    clock_gettime(CLOCK_MONOTONIC, &t);
    return (double)t.tv_sec + 1e-9 * (double)t.tv_nsec;
}

// The time of one call in nanoseconds; the sum of all results goes to `total`.
static double timed(Sum *sum, double *total) {
    double start = seconds();
    double all = 0.0;
    for (int round = 0; round < ROUNDS; round++) {
        for (int i = 0; i < 4 * ENTRIES; i += 4) {
            all += sum(operands[i], operands[i + 1], operands[i + 2], operands[i + 3]);
        }
    }
    *total = all;
    return (seconds() - start) * 1e9 / ((double)ROUNDS * ENTRIES);
}

// The time of one link of a chain in nanoseconds: four roots, their sum, a division, a square and a difference. The last operand goes to `total`.
static double chained(Sum *sum, double *total) {
    double start = seconds();
    double v = 3.0;
    for (int i = 0; i < ROUNDS * ENTRIES; i++) {
        double t = 3.0 / sum(v, v + 0.25, v + 0.5, v + 0.75);
        v = 3.0 + (double)i / ENTRIES - t * t;
    }
    *total = v;
    return (seconds() - start) * 1e9 / ((double)ROUNDS * ENTRIES);
}

enum { WAYS = 3 };

int main(void) {
    static const char *const names[WAYS] = {"together", "one after the other", "hardware"};
    Sum *const ways[WAYS] = {root_sum_together, root_sum_one_by_one, root_sum_hardware};
    double best[WAYS] = {1e9, 1e9, 1e9}, link[WAYS] = {1e9, 1e9, 1e9};
    double total[WAYS], last[WAYS];
    fill();
    for (int run = 0; run < RUNS; run++) {
        for (int way = 0; way < WAYS; way++) {
            double t = timed(ways[way], &total[way]);
            if (t < best[way]) best[way] = t;
            t = chained(ways[way], &last[way]);
            if (t < link[way]) link[way] = t;
        }
    }
    for (int way = 0; way < WAYS; way++) printf("%-20s %7.1f ns for four roots, %7.1f ns a link of a chain\n", names[way], best[way], link[way]);
    int same = total[0] == total[1] && total[1] == total[2] && last[0] == last[1] && last[1] == last[2];
    printf("%s\n", same ? "the three sums are the same" : "THE SUMS DIFFER");
    return same ? 0 : 1;
}
