/* Whole additive transforms of this library, in place, on one core.
 *
 *   gcc -O2 -Iinclude -o transforms bench/transforms.c build/lib/libbinary_field.a && ./transforms [SAMPLES]
 *
 * The first line names the processor whose form of the library is called; BINARY_FIELD_PROCESSOR=x86-64-v2 in the environment lowers it.
 * A number is processor time in nanoseconds a value, the least of so many calls (100; a tenth of them for 2^16 values, and three for
 * 2^20), of the transform and of its inverse. What was transformed is first transformed back, and compared. The shift is 0, but in the
 * rows "long", where it has 128 bits. The last row copies values of 16 bytes.
 */
#include "binary_field.h"
#include <stdio.h>
#include <stdlib.h>
#include <string.h>
#include <time.h>

enum { MOST = 1 << 20, WIDEST = 16 };

static const bf_u128 no_shift = {{0, 0}}, long_shift = {{0x0123456789abcdef, 0xfedcba9876543210}};
static int samples = 100;
static void *values, *copy;

#define NARROW(field, word)                                                                            \
    static uint32_t forward_##field(size_t n) { return bf_##field##_transform((word *)values, n, 0); } \
    static uint32_t inverse_##field(size_t n) { return bf_##field##_inverse_transform((word *)values, n, 0); }
#define WIDE(field, shift)                                                                             \
    static uint32_t forward_##field##_##shift(size_t n) { return bf_##field##_transform(values, n, &shift##_shift); } \
    static uint32_t inverse_##field##_##shift(size_t n) { return bf_##field##_inverse_transform(values, n, &shift##_shift); }
NARROW(t16, uint16_t)
NARROW(t32, uint32_t)
NARROW(t64, uint64_t)
WIDE(t128, no)
WIDE(g128, no)
WIDE(t128, long)
WIDE(g128, long)

static uint32_t copied(size_t n) { return memcpy(copy, values, n * WIDEST) == NULL; }

static const struct {
    const char *name;
    size_t word, most;
    uint32_t (*forward)(size_t), (*inverse)(size_t);
} rows[] = {
    {"t16", 2, 1 << 16, forward_t16, inverse_t16},
    {"t32", 4, MOST, forward_t32, inverse_t32},
    {"t64", 8, MOST, forward_t64, inverse_t64},
    {"t128", 16, MOST, forward_t128_no, inverse_t128_no},
    {"g128", 16, MOST, forward_g128_no, inverse_g128_no},
    {"t128, long", 16, 1 << 16, forward_t128_long, inverse_t128_long},
    {"g128, long", 16, 1 << 16, forward_g128_long, inverse_g128_long},
    {"memcpy", 16, MOST, copied, copied},
};

static double now(void) {
    struct timespec time;
    clock_gettime(CLOCK_THREAD_CPUTIME_ID, &time);
    return time.tv_sec * 1e9 + time.tv_nsec;
}

static void draw(size_t bytes) {
    uint64_t state = 20261127, *words = values;
    for (size_t i = 0; i < bytes / 8; i++) {
        state = state * 6364136223846793005u + 1442695040888963407u;
        words[i] = state ^ state >> 29;
    }
    memcpy(copy, values, bytes);
}

static double least(size_t count, uint32_t (*call)(size_t)) {
    double best = 1e18;
    for (int rest = count == MOST ? 3 : count == 1 << 16 ? samples / 10 + 1 : samples; rest > 0; rest--) {
        double begun = now();
        if (call(count) != BF_OK) {
            puts("refused");
        }
        double taken = (now() - begun) / count;
        best = taken < best ? taken : best;
    }
    return best;
}

int main(int count, char **words) {
    samples = count > 1 ? atoi(words[1]) : samples;
    values = aligned_alloc(64, (size_t)MOST * WIDEST), copy = aligned_alloc(64, (size_t)MOST * WIDEST);
    if (values == NULL || copy == NULL) {
        return 1;
    }
    puts(bf_processor());
    for (size_t row = 0; row < sizeof rows / sizeof *rows; row++) {
        printf("%-12s", rows[row].name);
        for (int power = 10; power <= 20; power += power == 10 ? 6 : 4) {
            size_t n = (size_t)1 << power;
            if (n > rows[row].most) {
                continue;
            }
            draw(n * rows[row].word);
            if (rows[row].forward(n) != BF_OK || rows[row].inverse(n) != BF_OK || memcmp(values, copy, n * rows[row].word) != 0) {
                puts("it does not come back");
            }
            double forward = least(n, rows[row].forward);
            printf("  2^%d %6.1f %6.1f", power, forward, least(n, rows[row].inverse));
        }
        putchar('\n');
        fflush(stdout);
    }
    return 0;
}
