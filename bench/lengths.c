/* Products and inverses of slices of the tower, and inverses of slices of polynomials, by the length of the slice, on one core.
 *
 *   gcc -O2 -Iinclude -o lengths bench/lengths.c build/lib/libbinary_field.a && ./lengths [SAMPLES]
 *
 * The first line names the processor whose form of the library is called; BINARY_FIELD_PROCESSOR=x86-64-v2 in the environment lowers it.
 * A number is processor time in nanoseconds an element, the least of so many samples (40), each of as many calls as take some 65,536
 * elements.
 */
#include "binary_field.h"
#include <stdio.h>
#include <stdlib.h>
#include <time.h>

enum { MOST = 65536, WIDEST = 16 };

static const size_t lengths[] = {16, 31, 32, 64, 80, 100, 128, 300, 1024, MOST};
static void *left, *right, *results;

#define PRODUCT(call, word) \
    static uint32_t run_##call(size_t n) { return bf_##call((word *)left, n, (word *)right, n, (word *)results, n); }
#define INVERSE(call, word) \
    static uint32_t run_##call(size_t n) { return bf_##call((word *)left, n, (word *)results, n); }
#define LEVEL(field, word) PRODUCT(field##_multiply, word) INVERSE(field##_inverse, word)
#define POLYNOMIALS(field, word) INVERSE(field##_inverse, word) INVERSE(field##_batch_inverse, word)
LEVEL(t8, uint8_t)
LEVEL(t16, uint16_t)
LEVEL(t32, uint32_t)
LEVEL(t64, uint64_t)
LEVEL(t128, bf_u128)
POLYNOMIALS(p64, uint64_t)
POLYNOMIALS(g128, bf_u128)

#define NAMED(call) {"bf_" #call, run_##call}
static const struct {
    const char *name;
    uint32_t (*call)(size_t);
} rows[] = {
    NAMED(t8_multiply), NAMED(t8_inverse),
    NAMED(t16_multiply), NAMED(t16_inverse),
    NAMED(t32_multiply), NAMED(t32_inverse),
    NAMED(t64_multiply), NAMED(t64_inverse),
    NAMED(t128_multiply), NAMED(t128_inverse),
    NAMED(p64_inverse), NAMED(p64_batch_inverse),
    NAMED(g128_inverse), NAMED(g128_batch_inverse),
};

static double now(void) {
    struct timespec time;
    clock_gettime(CLOCK_THREAD_CPUTIME_ID, &time);
    return time.tv_sec * 1e9 + time.tv_nsec;
}

static double least(size_t length, uint32_t (*call)(size_t), int samples) {
    double best = 1e18;
    size_t calls = MOST / length;
    while (samples-- > 0) {
        double begun = now();
        for (size_t i = 0; i < calls; i++) {
            if (call(length) != BF_OK) {
                puts("refused");
            }
        }
        double taken = (now() - begun) / (calls * length);
        best = taken < best ? taken : best;
    }
    return best;
}

int main(int count, char **words) {
    int samples = count > 1 ? atoi(words[1]) : 40;
    left = malloc(MOST * WIDEST), right = malloc(MOST * WIDEST), results = malloc(MOST * WIDEST);
    if (left == NULL || right == NULL || results == NULL) {
        return 1;
    }
    uint64_t state = 20261127;
    for (size_t i = 0; i < MOST * WIDEST / 8; i++) {
        state = state * 6364136223846793005u + 1442695040888963407u;
        ((uint64_t *)left)[i] = state ^ state >> 29;
        ((uint64_t *)right)[i] = state ^ state >> 31;
    }
    printf("%s\n%-22s", bf_processor(), "elements");
    for (size_t at = 0; at < sizeof lengths / sizeof *lengths; at++) {
        printf(" %6zu", lengths[at]);
    }
    for (size_t row = 0; row < sizeof rows / sizeof *rows; row++) {
        printf("\n%-22s", rows[row].name);
        for (size_t at = 0; at < sizeof lengths / sizeof *lengths; at++) {
            printf(" %6.2f", least(lengths[at], rows[row].call, samples));
        }
        fflush(stdout);
    }
    putchar('\n');
    return 0;
}
