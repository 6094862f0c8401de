/* Matrices over GF(2) with packed rows, of this library beside M4RI (Debian's libm4ri-dev), on one core.
 *
 *   gcc -O2 -o bits bench/bits.c build/lib/libbinary_field.a -lm4ri -lm && ./bits [SAMPLES] [MOST]
 *
 * The first line names the processor whose form of the library is called; BINARY_FIELD_PROCESSOR=x86-64-v2 in the environment lowers it.
 * A number is processor time in milliseconds, the least of the samples taken by turns, of n by n matrices drawn from a seed up to n = MOST
 * (4,096). An inverse is the reduced row echelon form of the matrix and, beside it, the identity, and a solution that of the matrix and one
 * column more; copies are within the times, and M4RI's are mzd_inv_m4ri and mzd_solve_left. Products, echelon forms and inverses are compared.
 */
#include <m4ri/m4ri.h>
#include <stdint.h>
#include <stdio.h>
#include <stdlib.h>
#include <string.h>
#include <time.h>

const char *bf_processor(void);
uint32_t bf_bit_matrix_multiply(const uint64_t *left, size_t left_length, const uint64_t *right, size_t right_length, uint64_t *product,
                                size_t product_length, size_t rows, size_t inner, size_t columns);
uint32_t bf_bit_matrix_row_reduce(uint64_t *matrix, size_t matrix_length, size_t rows, size_t columns, size_t *pivots, size_t pivots_length,
                                  size_t *rank);

static size_t n, words, *pivots;
static uint64_t *matrix, *other, *result, *beside;
static mzd_t *theirs, *their_other, *their_result;

static double now(void) {
    struct timespec time;
    clock_gettime(CLOCK_PROCESS_CPUTIME_ID, &time);
    return time.tv_sec * 1e3 + time.tv_nsec * 1e-6;
}

static void check(int is_right, const char *what) {
    if (!is_right) {
        printf("%s differs\n", what);
    }
}

static void multiply(void) { check(bf_bit_matrix_multiply(matrix, n * words, other, n * words, result, n * words, n, n, n) == 0, "status"); }
static void their_multiply(void) { mzd_mul(their_result, theirs, their_other, 0); }

static void reduce(void) {
    size_t rank;
    memcpy(result, matrix, n * words * 8);
    check(bf_bit_matrix_row_reduce(result, n * words, n, n, pivots, n, &rank) == 0, "status");
}
static void their_reduce(void) {
    mzd_copy(their_result, theirs);
    mzd_echelonize(their_result, 1);
}

/* The matrix and the identity beside it, which is where whole words begin, since n is a multiple of 64. */
static void invert(void) {
    size_t rank;
    for (size_t row = 0; row < n; row++) {
        memcpy(beside + 2 * words * row, matrix + words * row, words * 8);
        memset(beside + 2 * words * row + words, 0, words * 8);
        beside[2 * words * row + words + row / 64] = (uint64_t)1 << row % 64;
    }
    check(bf_bit_matrix_row_reduce(beside, 2 * n * words, n, 2 * n, pivots, n, &rank) == 0, "status");
    for (size_t row = 0; row < n; row++) {
        memcpy(result + words * row, beside + 2 * words * row + words, words * 8);
    }
}
static void their_invert(void) { mzd_inv_m4ri(their_result, theirs, 0); }

static void solve(void) {
    size_t rank;
    for (size_t row = 0; row < n; row++) {
        memcpy(beside + (words + 1) * row, matrix + words * row, words * 8);
        beside[(words + 1) * row + words] = other[words * row] & 1;
    }
    check(bf_bit_matrix_row_reduce(beside, n * (words + 1), n, n + 1, pivots, n, &rank) == 0, "status");
}
static void their_solve(void) {
    mzd_t *left = mzd_copy(NULL, theirs), *right = mzd_submatrix(NULL, their_other, 0, 0, n, 1);
    mzd_solve_left(left, right, 0, 0);
    mzd_free(left), mzd_free(right);
}

static void row(const char *name, void (*ours)(void), void (*m4ri)(void), int samples, int is_compared) {
    double least[2] = {1e18, 1e18};
    for (int sample = 0; sample < samples; sample++) {
        for (int side = 0; side < 2; side++) {
            int calls = 1 + 400000000 / (n * n * n);
            double begin = now();
            for (int call = 0; call < calls; call++) {
                side == 0 ? ours() : m4ri();
            }
            double taken = (now() - begin) / calls;
            least[side] = taken < least[side] ? taken : least[side];
        }
    }
    if (is_compared) {
        for (size_t i = 0; i < n; i++) {
            check(memcmp(result + words * i, their_result->rows[i], words * 8) == 0, name);
        }
    }
    printf("%-14s %5zu  ours %9.4f  M4RI %9.4f  ratio %.2f\n", name, n, least[0], least[1], least[0] / least[1]);
    fflush(stdout);
}

int main(int count, char **arguments) {
    int samples = count > 1 ? atoi(arguments[1]) : 10;
    size_t most = count > 2 ? strtoul(arguments[2], NULL, 10) : 4096;
    puts(bf_processor());
    for (n = 64; n <= most; n *= 4) {
        words = n / 64;
        matrix = malloc(n * words * 8), other = malloc(n * words * 8), result = malloc(n * words * 8), beside = malloc(2 * n * words * 8 + 8 * n);
        pivots = malloc(n * sizeof *pivots);
        theirs = mzd_init(n, n), their_other = mzd_init(n, n), their_result = mzd_init(n, n);
        do { /* a matrix that has an inverse */
            mzd_randomize(theirs), mzd_randomize(their_other);
            mzd_copy(their_result, theirs);
        } while (mzd_echelonize(their_result, 0) != (rci_t)n);
        for (size_t i = 0; i < n; i++) {
            memcpy(matrix + words * i, theirs->rows[i], words * 8), memcpy(other + words * i, their_other->rows[i], words * 8);
        }
        row("product", multiply, their_multiply, samples, 1);
        row("echelon form", reduce, their_reduce, samples, 1);
        row("inverse", invert, their_invert, samples, 1);
        row("solution", solve, their_solve, samples, 0);
    }
    return 0;
}
