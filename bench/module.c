/* Calls of the library as bench/module.mjs makes them of the module of WebAssembly, in native code: its first comment has the lines.
 *
 * Prints for each row its name, the nanoseconds an element (the least of SAMPLES samples, 40) and the sum of the bytes that were written.
 */
#include "binary_field.h"
#include <stdio.h>
#include <stdlib.h>
#include <time.h>

enum { BYTES = 14 * 65536, LEAST = 2000000 };
static union { uint8_t u8[BYTES]; uint16_t u16[BYTES / 2]; uint64_t u64[BYTES / 8]; bf_u128 u128[BYTES / 16]; } left, right, out;

static void draw(uint8_t *bytes, uint32_t seed) {
    for (size_t i = 0; i < BYTES; i++) {
        seed = seed * 1664525u + 1013904223u;
        bytes[i] = (uint8_t)(seed >> 24);
    }
}

static double now(void) {
    struct timespec it;
    clock_gettime(CLOCK_MONOTONIC, &it);
    return it.tv_sec * 1e9 + it.tv_nsec;
}

static const bf_u128 scalar = {{0x0123456789abcdefu, 0xfedcba9876543210u}};
static uint32_t by_t8(size_t n) { return bf_t8_multiply_by(left.u8, n, 0x53, out.u8, n); }
static uint32_t by_t16(size_t n) { return bf_t16_multiply_by(left.u16, n, 0x5377, out.u16, n); }
static uint32_t by_g128(size_t n) { return bf_g128_multiply_by(left.u128, n, &scalar, out.u128, n); }
static uint32_t t8(size_t n) { return bf_t8_multiply(left.u8, n, right.u8, n, out.u8, n); }
static uint32_t t16(size_t n) { return bf_t16_multiply(left.u16, n, right.u16, n, out.u16, n); }
static uint32_t t64(size_t n) { return bf_t64_multiply(left.u64, n, right.u64, n, out.u64, n); }
static uint32_t t128(size_t n) { return bf_t128_multiply(left.u128, n, right.u128, n, out.u128, n); }
static uint32_t p64(size_t n) { return bf_p64_multiply(left.u64, n, right.u64, n, out.u64, n); }
static uint32_t g128(size_t n) { return bf_g128_multiply(left.u128, n, right.u128, n, out.u128, n); }
static uint32_t encode(size_t n) { return bf_rs_encode(10, 4, left.u8, n / 10 * 14); }
static uint32_t ghash(size_t n) { return bf_tag_ghash(right.u8, 16, left.u8, n, out.u8, 16); }

static const struct { const char *name; uint32_t (*call)(size_t); size_t count; } rows[] = {
    {"t8_multiply_by", by_t8, 65536}, {"t16_multiply_by", by_t16, 32768}, {"g128_multiply_by", by_g128, 1024},
    {"t8_multiply", t8, 4096}, {"t16_multiply", t16, 1024}, {"t64_multiply", t64, 1024}, {"t128_multiply", t128, 1024},
    {"p64_multiply", p64, 1024}, {"g128_multiply", g128, 1024}, {"rs_encode", encode, 655360}, {"tag_ghash", ghash, 65536},
};

int main(int count, char **words) {
    int samples = count > 1 ? atoi(words[1]) : 40;
    for (size_t row = 0; row < sizeof rows / sizeof *rows; row++) {
        draw(left.u8, 1);
        draw(right.u8, 2);
        for (size_t i = 0; i < BYTES; i++) out.u8[i] = 0;
        double least = 1e30;
        for (int sample = 0; sample < samples; sample++) {
            long turns = 0;
            double begun = now(), taken;
            do {
                if (rows[row].call(rows[row].count)) return 1;
                turns++;
            } while ((taken = now() - begun) < LEAST);
            if (taken / turns < least) least = taken / turns;
        }
        unsigned long sum = 0;
        for (size_t i = 0; i < BYTES; i++) sum += out.u8[i] + left.u8[i];
        printf("%s %g %lu\n", rows[row].name, least / rows[row].count, sum);
    }
}
