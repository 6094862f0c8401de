/* Erasure codes by additive transforms, over words of 16 bits, on one core: gigabytes of data a second.
 *
 *   gcc -O2 -Iinclude -o codes bench/codes.c build/lib/libbinary_field.a && ./codes [SAMPLES] [spread]
 *
 * The first line names the processor whose form of the library is called. Of each code and shard size: encoding, verifying, and restoring where
 * 1, 4 and 16 shards of data are lost, and as many as there are of parity (or all of them): the first ones, or, with the word spread, others all
 * over. The least of so many samples (5). What is restored is compared with what was lost. With -DISAL and -lisal also ISA-L's matrix code
 * (Cauchy), as it chooses for this processor, where it has so many shards; what it makes once for a code or for what is lost is not
 * counted.
 */
#include "binary_field.h"
#include <stdio.h>
#include <stdlib.h>
#include <string.h>
#include <time.h>
#ifdef ISAL
#include <isa-l/erasure_code.h>
#endif

static double now(void) {
    struct timespec it;
    clock_gettime(CLOCK_PROCESS_CPUTIME_ID, &it);
    return it.tv_sec + 1e-9 * it.tv_nsec;
}

/* Shards of a code, and what its calls work in. */
typedef struct {
    size_t data, parity, words;
    uint16_t *space, *shards, *copy, *extra;
    uint64_t space_length;
    uint8_t *present;
} code;

static void stop(const char *what, uint32_t status) {
    printf("%s: status %u\n", what, status);
    exit(1);
}

/* Seconds of one call each. */
static double encoded(code *it) {
    double start = now();
    uint32_t status = bf_erasure_encode(it->data, it->parity, it->shards, it->data * it->words, it->extra, it->parity * it->words, it->space,
                                        it->space_length);
    double taken = now() - start;
    if (status) stop("encode", status);
    return taken;
}

static double verified(code *it) {
    uint8_t whole = 0;
    double start = now();
    uint32_t status = bf_erasure_verify(it->data, it->parity, it->shards, it->data * it->words, it->extra, it->parity * it->words, it->space,
                                        it->space_length, &whole);
    double taken = now() - start;
    if (status || !whole) stop("verify", status);
    return taken;
}

static double restored(code *it) {
    for (size_t j = 0; j < it->data; j++) if (!it->present[j]) memset(it->shards + j * it->words, 0xa5, 2 * it->words);
    double start = now();
    uint32_t status = bf_erasure_reconstruct(it->data, it->parity, it->shards, it->data * it->words, it->extra, it->parity * it->words, it->present,
                                             it->data + it->parity, it->space, it->space_length);
    double taken = now() - start;
    if (status || memcmp(it->copy, it->shards, 2 * it->data * it->words)) stop("restore", status);
    return taken;
}

static double least(double (*call)(code *), code *it, int samples) {
    double best = 1e9;
    for (int i = 0; i < samples; i++) {
        double taken = call(it);
        if (taken < best) best = taken;
    }
    return 2.0 * it->data * it->words / best / 1e9;
}

/* So many shards of data are lost: the first ones, or others all over. */
static void lose(code *it, size_t lost, int spread) {
    memset(it->present, 1, it->data + it->parity);
    for (size_t left = lost, i = 0; left; i = (i + (spread ? 7919 : 1)) % it->data) {
        left -= it->present[i];
        it->present[i] = 0;
    }
}

static void measure(size_t data, size_t parity, size_t size, int samples, int spread) {
    code it = {.data = data, .parity = parity, .words = size / 2};
    if (bf_erasure_space(data, parity, &it.space_length)) exit(1);
    it.space = malloc(2 * it.space_length);
    it.shards = malloc(data * size);
    it.copy = malloc(data * size);
    it.extra = malloc(parity * size);
    it.present = malloc(data + parity);
    for (size_t i = 0; i < data * it.words; i++) it.shards[i] = (uint16_t)((i + 1) * 2654435761u >> 13);
    memcpy(it.copy, it.shards, data * size);
    printf("(%zu, %zu) of %zu bytes: encode %6.3f", data, parity, size, least(encoded, &it, samples));
    printf("  verify %6.3f  restore", least(verified, &it, samples));
    size_t most = parity < data ? parity : data;
    for (size_t lost = 1; lost < most; lost *= 4) {
        lose(&it, lost, spread);
        if (lost <= 16) printf(" %zu: %6.3f ", lost, least(restored, &it, samples));
    }
    lose(&it, most, spread);
    printf(" %zu: %6.3f GB/s\n", most, least(restored, &it, samples));
    free(it.space); free(it.shards); free(it.copy); free(it.extra); free(it.present);
}

#ifdef ISAL
/* The same by ISA-L: rows of data and of parity, and the first lost rows of data by the inverse of the matrix of those that are left. */
static void measure_isal(size_t data, size_t parity, size_t size, int samples) {
    size_t total = data + parity, lost = parity < data ? parity : data;
    unsigned char *matrix = malloc(total * data), *left = malloc(data * data), *inverse = malloc(data * data), *tables = malloc(32 * data * total);
    unsigned char *bytes = malloc(total * size), *out = malloc(lost * size), *rows[256], *kept[256], *restored[256];
    for (size_t i = 0; i < data * size; i++) bytes[i] = (unsigned char)((i + 1) * 2654435761u >> 13);
    for (size_t i = 0; i < total; i++) rows[i] = bytes + i * size;
    for (size_t i = 0; i < data; i++) kept[i] = rows[lost + i];
    for (size_t i = 0; i < lost; i++) restored[i] = out + i * size;
    gf_gen_cauchy1_matrix(matrix, total, data);
    ec_init_tables(data, parity, matrix + data * data, tables);
    double encode = 1e9, restore = 1e9;
    for (int i = 0; i < samples; i++) {
        double start = now();
        ec_encode_data(size, data, parity, tables, rows, rows + data);
        double taken = now() - start;
        if (taken < encode) encode = taken;
    }
    memcpy(left, matrix + lost * data, data * data);
    if (gf_invert_matrix(left, inverse, data)) { printf("no inverse\n"); exit(1); }
    ec_init_tables(data, lost, inverse, tables);
    for (int i = 0; i < samples; i++) {
        double start = now();
        ec_encode_data(size, data, lost, tables, kept, restored);
        double taken = now() - start;
        if (memcmp(out, bytes, lost * size)) { printf("ISA-L restored wrong\n"); exit(1); }
        if (taken < restore) restore = taken;
    }
    double all = (double)data * size;
    printf("    ISA-L                      encode %6.3f  restore %6.3f GB/s\n", all / encode / 1e9, all / restore / 1e9);
    free(matrix); free(left); free(inverse); free(tables); free(bytes); free(out);
}
#endif

int main(int count, char **words) {
    int samples = count > 1 ? atoi(words[1]) : 5;
    puts(bf_processor());
    static const size_t codes[][3] = {
        {100, 30, 1024}, {100, 30, 65536}, {128, 128, 1024}, {128, 128, 65536},
        {1000, 200, 1024}, {1000, 200, 65536}, {10000, 2000, 1024}, {32768, 32768, 1024},
    };
    for (size_t i = 0; i < sizeof codes / sizeof *codes; i++) {
        measure(codes[i][0], codes[i][1], codes[i][2], samples, count > 2);
#ifdef ISAL
        if (codes[i][0] + codes[i][1] <= 256) measure_isal(codes[i][0], codes[i][1], codes[i][2], samples);
#endif
    }
    return 0;
}
