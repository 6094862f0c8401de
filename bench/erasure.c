/* Reed-Solomon codes of this library beside ISA-L (Debian's libisal-dev) and klauspost's reedsolomon in Go (Debian's
 * golang-github-klauspost-reedsolomon-dev), on one core.
 *
 *   gcc -O2 -o erasure bench/erasure.c build/lib/libbinary_field.a -lisal && ./erasure [ROUNDS] [small | wide]
 *
 *   (cd bench/klauspost && GOPROXY=off go build -buildmode=c-archive -o ../target/klauspost.a .)
 *   gcc -O2 -DKLAUSPOST -Ibench/target -o erasure bench/erasure.c build/lib/libbinary_field.a bench/target/klauspost.a -lisal -lpthread
 *
 * The first line names the processor whose form of the library is called; BINARY_FIELD_PROCESSOR=x86-64-v2 in the environment lowers it.
 * Each row is the least of many samples, taken by turns with those of ISA-L in one run, and the results are compared byte for byte. ISA-L
 * has its tables from before, and klauspost's code its matrices; the library makes its own in each call, but where a row says "prepared".
 * klauspost's code takes AVX-512 where the processor has it, but with KLAUSPOST_AVX512=off in the environment. The shards of a row stand one
 * after the other, 64 bytes apart. With the word `small`, shards of 32 bytes, 1 KiB and 64 KiB are encoded, with nothing between them,
 * and nanoseconds are printed too. With the word `wide`, codes of 70 to 256 shards of 64 KiB and 1 MiB, with nothing between them,
 * and without ISA-L's C.
 */
#include <isa-l/erasure_code.h>
#include <stdint.h>
#include <stdio.h>
#include <stdlib.h>
#include <string.h>
#include <time.h>
#ifdef KLAUSPOST
#include "klauspost.h"
#endif

const char *bf_processor(void);
uint32_t bf_rs_encode(uint64_t data, uint64_t parity, uint8_t *shards, size_t shards_length);
uint32_t bf_rs_prepare(uint64_t data, uint64_t parity, uint8_t *tables, size_t tables_length);
uint32_t bf_rs_encode_prepared(uint64_t data, uint64_t parity, const uint8_t *tables, size_t tables_length, uint8_t *shards,
                               size_t shards_length);
uint32_t bf_rs_reconstruct(uint64_t data, uint64_t parity, uint8_t *shards, size_t shards_length, const uint8_t *present,
                           size_t present_length);
uint32_t bf_rs_verify(uint64_t data, uint64_t parity, const uint8_t *shards, size_t shards_length, uint8_t *whole);
uint32_t bf_rs_verify_prepared(uint64_t data, uint64_t parity, const uint8_t *tables, size_t tables_length, const uint8_t *shards,
                               size_t shards_length, uint8_t *whole);
uint32_t bf_rs_prepare_reconstruct(uint64_t data, uint64_t parity, const uint8_t *present, size_t present_length, uint8_t *tables,
                                   size_t tables_length);
uint32_t bf_rs_reconstruct_prepared(uint64_t data, uint64_t parity, const uint8_t *tables, size_t tables_length, uint8_t *shards,
                                    size_t shards_length, const uint8_t *present, size_t present_length);

enum { MOST = 256 };

static int data, parity, lost;
static size_t size;
static uint8_t *ours, *theirs, *whole;
static uint8_t present[MOST], factors[MOST * MOST], tables[32 * MOST * MOST];
static _Alignas(16) uint8_t prepared[32 * MOST * MOST], missing[32 * MOST * MOST];
static uint8_t *sources[MOST], *targets[MOST];
static int rows, is_small, is_wide;

/* ISA-L's AVX code leaves the upper halves of the registers in use, which slows down SSE code after it. */
static void leave_avx(void) {
    if (__builtin_cpu_supports("avx")) {
        __asm__ volatile("vzeroupper");
    }
}

static double now(void) {
    struct timespec time;
    clock_gettime(CLOCK_PROCESS_CPUTIME_ID, &time);
    return time.tv_sec + 1e-9 * time.tv_nsec;
}

/* Lagrange's factor of point `own` at x. */
static uint8_t lagrange(const int *points, int own, int x) {
    uint8_t over = 1, under = 1;
    for (int i = 0; i < data; i++) {
        if (i != own) {
            over = gf_mul(over, x ^ points[i]);
            under = gf_mul(under, points[own] ^ points[i]);
        }
    }
    return gf_mul(over, gf_inv(under));
}

/* Tables of ISA-L for the missing shards by the first that are present. */
static void prepare(void) {
    int points[MOST], count = 0;
    rows = 0;
    for (int i = 0; i < data + parity && count < data; i++) {
        if (present[i]) {
            sources[count] = theirs + i * size;
            points[count++] = i;
        }
    }
    for (int i = 0; i < data + parity; i++) {
        if (!present[i]) {
            for (int j = 0; j < data; j++) {
                factors[rows * data + j] = lagrange(points, j, i);
            }
            targets[rows++] = theirs + i * size;
        }
    }
    ec_init_tables(data, rows, factors, tables);
}

static void encode(void) {
    if (bf_rs_encode(data, parity, ours, (data + parity) * size) != 0) {
        puts("encode was refused");
    }
}

static size_t prepared_length(void) { return (size_t)128 * data * ((parity + 3) / 4); }

static void encode_prepared(void) {
    if (bf_rs_encode_prepared(data, parity, prepared, prepared_length(), ours, (data + parity) * size) != 0) {
        puts("encode by tables was refused");
    }
}

static void reconstruct(void) {
    if (bf_rs_reconstruct(data, parity, ours, (data + parity) * size, present, data + parity) != 0) {
        puts("reconstruct was refused");
    }
}

static void reconstruct_prepared(void) {
    if (bf_rs_reconstruct_prepared(data, parity, missing, prepared_length(), ours, (data + parity) * size, present, data + parity) != 0) {
        puts("reconstruct by tables was refused");
    }
}

static void verify(void) {
    uint8_t is_whole = 0;
    if (bf_rs_verify(data, parity, ours, (data + parity) * size, &is_whole) != 0 || is_whole != 1) {
        puts("verify was refused");
    }
}

static void verify_prepared(void) {
    uint8_t is_whole = 0;
    if (bf_rs_verify_prepared(data, parity, prepared, prepared_length(), ours, (data + parity) * size, &is_whole) != 0 || is_whole != 1) {
        puts("verify by tables was refused");
    }
}

#ifdef KLAUSPOST
static void klauspost_encodes(void) {
    if (!klauspost_encode()) {
        puts("klauspost's encode was refused");
    }
}

static void klauspost_restores(void) {
    if (!klauspost_reconstruct(lost)) {
        puts("klauspost's reconstruct was refused");
    }
}

static void klauspost_verifies(void) {
    if (!klauspost_verify()) {
        puts("klauspost's verify was refused");
    }
}

static void klauspost_begin(void) {
    if (!klauspost_code(data, parity, theirs, size)) {
        puts("klauspost's code was refused");
    }
}
#else
static void (*const klauspost_encodes)(void), (*const klauspost_restores)(void), (*const klauspost_verifies)(void);
static void klauspost_begin(void) {}
#endif

static void with_sse(void) { ec_encode_data_sse(size, data, rows, tables, sources, targets); }
static void with_avx2(void) { ec_encode_data_avx2(size, data, rows, tables, sources, targets); }
static void with_best(void) { ec_encode_data(size, data, rows, tables, sources, targets); }
static void with_c(void) { ec_encode_data_base(size, data, rows, tables, sources, targets); }

static void damage(uint8_t *shards) {
    for (int i = 0; i < data + parity; i++) {
        if (!present[i]) {
            memset(shards + i * size, 0xaa, size);
        }
    }
}

enum { COLUMNS = 6 };

static void measure(const char *name, void (*library)(void), void (*klauspost)(void), int rounds) {
    struct {
        const char *name;
        void (*call)(void);
        double best;
    } column[COLUMNS] = {{"ours", library, 1}, {"SSE", with_sse, 1}, {"AVX2", with_avx2, 1}, {"best", with_best, 1}, {"klauspost", klauspost, 1}, {"C", is_wide ? NULL : with_c, 1}};
    size_t bytes = data * size;
    prepare();
    for (int c = 0; c < COLUMNS; c++) {
        if (!column[c].call) {
            continue;
        }
        damage(ours);
        damage(theirs);
        column[c].call();
        if (memcmp(c == 0 ? ours : theirs, whole, (data + parity) * size) != 0) {
            printf("%s differs\n", column[c].name);
        }
    }
    for (int round = 0; round < rounds; round++) {
        for (int c = 0; c < (round < 3 ? COLUMNS : COLUMNS - 1); c++) {
            int calls = c == COLUMNS - 1 ? 1 : 1 + 3000000 / bytes;
            if (!column[c].call) {
                continue;
            }
            leave_avx();
            double begin = now();
            for (int call = 0; call < calls; call++) {
                column[c].call();
            }
            double taken = (now() - begin) / calls;
            if (taken < column[c].best) {
                column[c].best = taken;
            }
        }
    }
    printf("(%d, %d) %7zu %-14s", data, parity, size, name);
    for (int c = 0; c < COLUMNS; c++) {
        if (column[c].call) {
            printf("  %s %.2f GB/s", column[c].name, bytes / column[c].best / 1e9);
        }
    }
    printf("  time to SSE %.2f, to AVX2 %.2f", column[0].best / column[1].best, column[0].best / column[2].best);
    if (is_small) {
        printf("; ns: ours %.0f, SSE %.0f, AVX2 %.0f, best %.0f", column[0].best * 1e9, column[1].best * 1e9, column[2].best * 1e9, column[3].best * 1e9);
    }
    putchar('\n');
    fflush(stdout);
}

/* A call that ISA-L does not have. */
static void measure_alone(const char *name, void (*library)(void), void (*klauspost)(void), int rounds) {
    size_t bytes = data * size;
    double best[2] = {1, 1};
    for (int round = 0; round < rounds; round++) {
        for (int c = 0; c < (klauspost ? 2 : 1); c++) {
            int calls = 1 + 3000000 / bytes;
            leave_avx();
            double begin = now();
            for (int call = 0; call < calls; call++) {
                c == 0 ? library() : klauspost();
            }
            double taken = (now() - begin) / calls;
            if (taken < best[c]) {
                best[c] = taken;
            }
        }
    }
    printf("(%d, %d) %7zu %-14s  ours %.2f GB/s", data, parity, size, name, bytes / best[0] / 1e9);
    if (klauspost) {
        printf("  klauspost %.2f GB/s", bytes / best[1] / 1e9);
    }
    putchar('\n');
    fflush(stdout);
}

/* The calls of one code at one size. */
static void row(int rounds) {
    size_t all = (data + parity) * size;
    ours = aligned_alloc(64, (all + 63) / 64 * 64), theirs = aligned_alloc(64, (all + 63) / 64 * 64), whole = aligned_alloc(64, (all + 63) / 64 * 64);
    for (size_t i = 0; i < data * size; i++) {
        ours[i] = rand() >> 7;
    }
    encode();
    memcpy(whole, ours, all);
    memcpy(theirs, ours, all);
    if (bf_rs_prepare(data, parity, prepared, prepared_length()) != 0) {
        puts("tables were refused");
    }
    for (int i = 0; i < data + parity; i++) {
        present[i] = i < data;
    }
    klauspost_begin();
    measure("encode", encode, klauspost_encodes, rounds);
    measure("prepared", encode_prepared, klauspost_encodes, rounds);
    measure_alone("verify", verify, klauspost_verifies, rounds);
    measure_alone("verify by tables", verify_prepared, klauspost_verifies, rounds);
    for (lost = 1; !is_small && lost <= parity; lost += parity - 1) {
        for (int i = 0; i < data + parity; i++) {
            present[i] = i >= lost;
        }
        char name[32];
        snprintf(name, sizeof name, "reconstruct %d", lost);
        measure(name, reconstruct, klauspost_restores, rounds);
        if (bf_rs_prepare_reconstruct(data, parity, present, data + parity, missing, prepared_length()) != 0) {
            puts("tables of the missing shards were refused");
        }
        snprintf(name, sizeof name, "prepared %d", lost);
        measure(name, reconstruct_prepared, klauspost_restores, rounds);
    }
    free(ours), free(theirs), free(whole);
}

int main(int count, char **words) {
    int rounds = count > 1 ? atoi(words[1]) : 40;
    int codes[2][2] = {{10, 4}, {17, 3}}, wide[4][3] = {{50, 20, 1 << 20}, {100, 30, 65536}, {128, 128, 65536}, {200, 56, 65536}};
    size_t large[2] = {65536 + 64, (1 << 20) + 64}, small[3] = {32, 1024, 65536};
    is_small = count > 2 && strcmp(words[2], "small") == 0;
    is_wide = count > 2 && strcmp(words[2], "wide") == 0;
    puts(bf_processor());
    if (is_wide) {
        for (int c = 0; c < 4; c++) {
            data = wide[c][0], parity = wide[c][1], size = wide[c][2];
            row(rounds);
        }
        return 0;
    }
    for (int c = 0; c < 2; c++) {
        data = codes[c][0];
        parity = codes[c][1];
        for (int s = 0; s < (is_small ? 3 : 2); s++) {
            size = is_small ? small[s] : large[s];
            row(rounds);
        }
    }
    return 0;
}
