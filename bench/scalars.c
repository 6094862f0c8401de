/* Slices by one scalar of this library beside GF-Complete and ISA-L (Debian's libgf-complete-dev, libisal-dev), on one core.
 *
 *   gcc -O2 -o scalars bench/scalars.c build/lib/libbinary_field.a -lgf_complete -lisal && ./scalars [SAMPLES]
 *
 * The first line names the processor whose form of the library is called; BINARY_FIELD_PROCESSOR=x86-64-v2 in the environment lowers it.
 * A number is processor time in nanoseconds an element, the least of many samples: products into another array, products in place, and
 * products that are added. The library makes what it takes of the scalar in each call. GF-Complete's is `multiply_region` in the table
 * that its `gf_init_easy` chooses, which it makes in each call too, without and with addition; ISA-L's products of bytes have their 32
 * bytes of tables from before. The fields of the three differ but for the bits.
 */
#include <gf_complete.h>
#include <isa-l.h>
#include <stdint.h>
#include <stdio.h>
#include <stdlib.h>
#include <time.h>

typedef struct {
    uint64_t low, high;
} wide;

const char *bf_processor(void);

#define CALLS(field, word, passed)                                                       \
    uint32_t bf_##field##_multiply_by(const word *, size_t, passed, word *, size_t);     \
    uint32_t bf_##field##_multiply_by_in_place(word *, size_t, passed);                  \
    uint32_t bf_##field##_add_scaled(word *, size_t, passed, const word *, size_t);
CALLS(t8, uint8_t, uint8_t)
CALLS(r8, uint8_t, uint8_t)
CALLS(t16, uint16_t, uint16_t)
CALLS(t32, uint32_t, uint32_t)
CALLS(t64, uint64_t, uint64_t)
CALLS(p64, uint64_t, uint64_t)
CALLS(t128, wide, const wide *)
CALLS(g128, wide, const wide *)

enum { MOST = 65536 };

static const size_t counts[] = {8, 16, 32, 48, 64, 100, 300, 1024, MOST};
static int samples = 60;
static void *values, *others;

static double now(void) {
    struct timespec time;
    clock_gettime(CLOCK_THREAD_CPUTIME_ID, &time);
    return time.tv_sec * 1e9 + time.tv_nsec;
}

#define ROW(name, call)                                                                  \
    do {                                                                                 \
        printf("%-24s", name);                                                           \
        for (size_t c = 0; c < sizeof counts / sizeof *counts; c++) {                    \
            size_t n = counts[c], rounds = MOST / n > 400 ? 400 : MOST / n;              \
            double least = 1e18;                                                         \
            for (int sample = 0; sample < samples; sample++) {                           \
                double start = now();                                                    \
                for (size_t round = 0; round < rounds; round++) {                        \
                    call;                                                                \
                }                                                                        \
                double time = (now() - start) / rounds / n;                              \
                least = time < least ? time : least;                                     \
            }                                                                            \
            printf(" %8.3f", least);                                                     \
        }                                                                                \
        printf("\n");                                                                    \
        fflush(stdout);                                                                  \
    } while (0)

#define ROWS(field, scalar)                                                              \
    ROW(#field, bf_##field##_multiply_by(values, n, scalar, others, n));                 \
    ROW(#field " in place", bf_##field##_multiply_by_in_place(values, n, scalar));       \
    ROW(#field " added", bf_##field##_add_scaled(values, n, scalar, others, n))

static void rows_of_gf_complete(int bits, int is_added) {
    gf_t field;
    char name[40];
    uint64_t low = 0x123456789abcdef1, pair[2] = {low, 0xfedcba9876543211};
    gf_init_easy(&field, bits);
    snprintf(name, sizeof name, "GF-Complete %d%s", bits, is_added ? " added" : "");
    ROW(name, {
        int bytes = (int)(n * bits / 8);
        if (bits == 128) {
            field.multiply_region.w128(&field, others, values, pair, bytes, is_added);
        } else if (bits == 64) {
            field.multiply_region.w64(&field, others, values, low, bytes, is_added);
        } else {
            field.multiply_region.w32(&field, others, values, low & ((1ull << bits) - 1), bytes, is_added);
        }
    });
}

int main(int argument_count, char **arguments) {
    static unsigned char tables[32];
    wide scalar = {0x123456789abcdef1, 0xfedcba9876543211};
    samples = argument_count > 1 ? atoi(arguments[1]) : samples;
    if (posix_memalign(&values, 64, MOST * sizeof(wide)) || posix_memalign(&others, 64, MOST * sizeof(wide))) {
        return 1;
    }
    srand(20261127);
    for (size_t i = 0; i < MOST * sizeof(wide); i++) {
        ((uint8_t *)values)[i] = rand();
        ((uint8_t *)others)[i] = rand();
    }
    printf("%s\n%-24s", bf_processor(), "ns an element");
    for (size_t c = 0; c < sizeof counts / sizeof *counts; c++) {
        printf(" %8zu", counts[c]);
    }
    printf("\n");
    ROWS(t8, 0x53);
    ROWS(r8, 0x53);
    ROWS(t16, 0x5353);
    ROWS(t32, 0x53535353);
    ROWS(t64, scalar.low);
    ROWS(p64, scalar.low);
    ROWS(t128, &scalar);
    ROWS(g128, &scalar);
    for (int bits = 8; bits <= 128; bits *= 2) {
        rows_of_gf_complete(bits, 0);
        rows_of_gf_complete(bits, 1);
    }
    gf_vect_mul_init(0x53, tables);
    ROW("ISA-L 8, from 32 on", if (n >= 32) gf_vect_mul((int)(n / 32 * 32), tables, values, others));
    return 0;
}
