/* Times the proved calls beside the plain ones, on the same inputs, and prints the ratios. */
#include <stdint.h>
#include <stdio.h>
#include <stdlib.h>
#include <time.h>
#include "plain.h"

uint32_t timed_product(uint32_t p, uint32_t a, uint32_t b);
uint32_t timed_power_of_x(uint32_t p, uint64_t e);
uint32_t timed_polynomial_of(uint32_t cells, uint32_t vector);
uint32_t timed_steps(uint32_t cells, uint32_t vector, uint32_t state, uint32_t count);
uint32_t timed_jump(uint32_t cells, uint32_t vector, uint32_t state, uint64_t length);
uint32_t timed_vectors(uint32_t p);

#define P 0x80000009u /* x^31 + x^3 + 1 */
#define MASK 0x7fffffffu
#define ROUNDS 9

static double now(void) {
    struct timespec t;
    clock_gettime(CLOCK_MONOTONIC, &t);
    return t.tv_sec * 1e9 + t.tv_nsec;
}

static uint32_t next_word(uint32_t s) { return s * 1664525u + 1013904223u; }

/* Each round feeds an answer into the next call, so that calls cannot overlap. */
#define ROUND(name, count, call)                                   \
    static double name(uint32_t *sum) {                            \
        uint32_t s = 1, r = 1;                                     \
        double start = now();                                      \
        for (int i = 0; i < (count); i++) {                        \
            s = next_word(s);                                      \
            r = (call);                                            \
        }                                                          \
        *sum = r;                                                  \
        return (now() - start) / (count);                          \
    }

ROUND(proved_product, 200000, timed_product(P, s & MASK, r))
ROUND(c_product, 200000, plain_product(P, s & MASK, r))
ROUND(proved_power, 4000, timed_power_of_x(P, ((uint64_t)s << 30 | 1ull << 62) ^ r))
ROUND(c_power, 4000, plain_power_of_x(P, ((uint64_t)s << 30 | 1ull << 62) ^ r))
ROUND(proved_polynomial, 400000, timed_polynomial_of(31, (s ^ r) & MASK))
ROUND(c_polynomial, 400000, plain_polynomial_of(31, (s ^ r) & MASK))

ROUND(proved_steps, 40, timed_steps(31, 2108737247u, (s ^ r) & MASK, 10000))
ROUND(c_steps, 40, plain_steps(31, 2108737247u, (s ^ r) & MASK, 10000))
ROUND(proved_jump, 4000, timed_jump(31, 2108737247u, (s ^ r) & MASK, (uint64_t)s << 30 | 1ull << 62))
ROUND(c_jump, 4000, plain_jump(31, 2108737247u, (s ^ r) & MASK, (uint64_t)s << 30 | 1ull << 62))

ROUND(proved_vectors, 4000, timed_vectors(s | 1u << 31))
ROUND(c_vectors, 4000, plain_vectors(s | 1u << 31))

static int failures;

/* The best of several rounds each, taken in turn. */
static void compare(const char *what, double (*proved)(uint32_t *), double (*plain)(uint32_t *)) {
    double best = 1e18, best_plain = 1e18;
    for (int i = 0; i < ROUNDS; i++) {
        uint32_t a, b;
        double t = proved(&a), u = plain(&b);
        if (a != b) {
            printf("%s: the answers differ\n", what);
            failures++;
        }
        if (t < best) best = t;
        if (u < best_plain) best_plain = u;
    }
    printf("%-34s %9.1f ns  plain C %9.1f ns  ratio %.2f\n", what, best, best_plain, best / best_plain);
}

/* The search against trial of all 2^31 vectors. */
static void against_trial(uint32_t p) {
    double start = now();
    uint32_t a = tried_vectors(p);
    double trial = now() - start;
    start = now();
    uint32_t b = timed_vectors(p);
    double search = now() - start;
    if (a != b) {
        printf("trial of all vectors: the answers differ\n");
        failures++;
    }
    printf("%-34s %9.1f ns  plain C %9.1f s   %.0f times faster\n", "all vectors, against trial of all", search, trial / 1e9, trial / search);
}

int main(void) {
    compare("product modulo p, degree 31", proved_product, c_product);
    compare("x^e modulo p, e about 2^62", proved_power, c_power);
    compare("polynomial of a vector, 31 cells", proved_polynomial, c_polynomial);
    compare("10,000 steps of a ring, 31 cells", proved_steps, c_steps);
    compare("jump of about 2^62, 31 cells", proved_jump, c_jump);
    compare("all vectors, random degree 31", proved_vectors, c_vectors);
    against_trial(P);
    return failures == 0 ? 0 : 1;
}
