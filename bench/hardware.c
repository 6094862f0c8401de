/* Times the functions by the carryless multiply instruction beside the proved ones, the Rust crate and OpenSSL, all in one process.
 *
 *   hardware [SAMPLES] [MICROSECONDS] [dirty]
 *
 * Sides are shared libraries, loaded from the paths in V2 and V3 (the proved functions for x86-64-v2 and x86-64-v3), HARDWARE (with the
 * functions of hardware/) and RUST (bench/hardware/); one that is not named is left out. A time is the least of the samples, in processor
 * time, and the sides take turns sample by sample. With `dirty` the upper halves of the AVX registers are in use before each sample, as
 * code leaves them that does not clear them. bench/hardware/run.sh builds all of it. */
#define _GNU_SOURCE
#include <binary_field_hardware.h>
#include <dlfcn.h>
#include <openssl/core_names.h>
#include <openssl/evp.h>
#include <stdio.h>
#include <stdlib.h>
#include <string.h>
#include <time.h>

enum { V2, V3, KERNELS, RUST, OPENSSL, SIDES };
enum { N = 1024, CHAIN = 64, MOST = 1 << 20 };
static const char *const variables[SIDES] = {"V2", "V3", "HARDWARE", "RUST", NULL};
static const char *const prefixes[SIDES] = {"bf", "bf", "bf_hw", "rs", NULL};
static const char *const titles[SIDES] = {"proved v2", "proved v3", "kernels", "Rust, pclmulqdq", "OpenSSL"};
static void *libraries[SIDES];

typedef uint32_t three(const void *, size_t, const void *, size_t, void *, size_t);
typedef uint32_t two(const void *, size_t, void *, size_t);
typedef uint32_t into(void *, size_t, const void *, size_t);
typedef uint32_t by_128(const void *, size_t, const bf_u128 *, void *, size_t);
typedef uint32_t by_64(const void *, size_t, uint64_t, void *, size_t);
typedef uint32_t add_128(void *, size_t, const bf_u128 *, const void *, size_t);
typedef uint32_t dot(const void *, size_t, const void *, size_t, void *);
typedef uint32_t pairs(void *, size_t, void *, size_t, const bf_u128 *);
typedef uint32_t stages(void *, size_t, const void *, size_t, const void *, size_t, size_t);
typedef uint32_t whole(void *, size_t, const bf_u128 *);
typedef uint32_t piece(bf_ghash_state *, const void *, size_t);
/* Any of them; a row casts it to what it is. */
typedef void (*function)(void);

static bf_u128 *a, *b, *out, *many, scalar, point, basis[40];
static uint8_t *bytes, key[16];
static bf_ghash_state state;

static void products_128(function f) { (void)!((three *)f)(a, N, b, N, out, N); }
static void scaled_128(function f) { (void)!((by_128 *)f)(a, N, &scalar, out, N); }
static void added_128(function f) { (void)!((add_128 *)f)(out, N, &scalar, a, N); }
static void dots(function f) { (void)!((dot *)f)(a, N, b, N, &point); }
static void slices(function f) { (void)!((two *)f)(a, N, out, N); }
static void butterflies(function f) { (void)!((pairs *)f)(out, N, b, N, &scalar); }
static void short_butterflies(function f) { (void)!((pairs *)f)(out, 16, b, 16, &scalar); }
static void runs(function f)
{
    static const bf_u128 zeros[4];
    (void)!((stages *)f)(out, N, zeros, 4, basis, 40, 0);
}
static void transform(function f, int m)
{
    static const bf_u128 zero;
    (void)!((whole *)f)(many, (size_t)1 << m, &zero);
}
static void transform_10(function f) { transform(f, 10); }
static void transform_16(function f) { transform(f, 16); }
static void transform_20(function f) { transform(f, 20); }
static void chain_128(function f)
{
    for (int i = 0; i < CHAIN; i++)
        (void)!((into *)f)(&point, 1, a + i, 1);
}
static void chain_64(function f)
{
    for (int i = 0; i < CHAIN; i++)
        (void)!((into *)f)(&point, 1, (uint64_t *)a + i, 1);
}
static void one_inverse(function f) { (void)!((two *)f)(a, 1, &point, 1); }
static void scaled_64(function f) { (void)!((by_64 *)f)(a, N, scalar.words[0], out, N); }
static void hash(function f, size_t length)
{
    uint8_t result[16];
    (void)!((three *)f)(key, 16, bytes, length, result, 16);
}
static void hash_64(function f) { hash(f, 64); }
static void hash_1k(function f) { hash(f, 1024); }
static void hash_16k(function f) { hash(f, 16384); }
static void hash_1m(function f) { hash(f, MOST); }
static void piece_16(function f) { (void)!((piece *)f)(&state, bytes, 16); }
static void piece_1k(function f) { (void)!((piece *)f)(&state, bytes, 1024); }

/* A row: what it is, the function by its name, how many operations a call counts, and the call. */
static const struct {
    const char *title, *name;
    double count;
    void (*call)(function);
} rows[] = {
    {"g128: product, slices of 1,024", "g128_multiply", N, products_128},
    {"g128: by one scalar", "g128_multiply_by", N, scaled_128},
    {"g128: multiples added", "g128_add_scaled", N, added_128},
    {"g128: dot product, a term", "g128_dot_product", N, dots},
    {"g128: square", "g128_square", N, slices},
    {"g128: inverse, slices", "g128_inverse", N, slices},
    {"g128: inverse of one", "g128_inverse", 1, one_inverse},
    {"g128: one product after another", "g128_multiply_in_place", CHAIN, chain_128},
    {"g128: butterfly, 1,024 pairs", "g128_butterfly_forward", N, butterflies},
    {"g128: butterfly, 16 pairs", "g128_butterfly_forward", 16, short_butterflies},
    {"g128: four low stages, a run", "g128_low_stages", N / 16, runs},
    {"g128: transform of 2^10, a value", "g128_transform", 1 << 10, transform_10},
    {"g128: transform of 2^16, a value", "g128_transform", 1 << 16, transform_16},
    {"g128: transform of 2^20, a value", "g128_transform", 1 << 20, transform_20},
    {"p64: product, slices", "p64_multiply", N, products_128},
    {"p64: by one scalar", "p64_multiply_by", N, scaled_64},
    {"p64: dot product, a term", "p64_dot_product", N, dots},
    {"p64: inverse, slices", "p64_inverse", N, slices},
    {"p64: one product after another", "p64_multiply_in_place", CHAIN, chain_64},
    {"t128: one product after another", "t128_multiply_in_place", CHAIN, chain_128},
    {"t64: one product after another", "t64_multiply_in_place", CHAIN, chain_64},
    {"GHASH of 64 bytes, a byte", "tag_ghash", 64, hash_64},
    {"GHASH of 1 KiB, a byte", "tag_ghash", 1024, hash_1k},
    {"GHASH of 16 KiB, a byte", "tag_ghash", 16384, hash_16k},
    {"GHASH of 1 MiB, a byte", "tag_ghash", MOST, hash_1m},
    {"GHASH, a piece of 16 bytes", "tag_ghash_update", 1, piece_16},
    {"GHASH, a piece of 1 KiB, a byte", "tag_ghash_update", 1024, piece_1k},
    {"POLYVAL of 16 KiB, a byte", "tag_polyval", 16384, hash_16k},
};

/* GMAC, with its setting up of the key and one block of AES, in the place of GHASH. */
static uint32_t gmac(const void *with, size_t with_length, const void *message, size_t length, void *tag, size_t tag_length)
{
    static EVP_MAC_CTX *context;
    static uint8_t nonce[12];
    OSSL_PARAM parameters[] = {
        OSSL_PARAM_construct_utf8_string("cipher", (char *)"AES-128-GCM", 0), OSSL_PARAM_construct_octet_string("iv", nonce, 12),
        OSSL_PARAM_construct_end()};
    if (!context)
        context = EVP_MAC_CTX_new(EVP_MAC_fetch(NULL, "GMAC", NULL));
    EVP_MAC_init(context, with, with_length, parameters);
    EVP_MAC_update(context, message, length);
    EVP_MAC_final(context, tag, &tag_length, tag_length);
    return 0;
}

static double now(void)
{
    struct timespec t;
    clock_gettime(CLOCK_PROCESS_CPUTIME_ID, &t);
    return (double)t.tv_sec * 1e9 + (double)t.tv_nsec;
}

static function find(int side, const char *name)
{
    char symbol[80];
    if (side == OPENSSL)
        return strcmp(name, "tag_ghash") ? NULL : (function)gmac;
    snprintf(symbol, sizeof symbol, "%s_%s", prefixes[side], name);
    return libraries[side] ? (function)dlsym(libraries[side], symbol) : NULL;
}

static void load(void)
{
    for (int side = 0; side < OPENSSL; side++) {
        const char *path = getenv(variables[side]);
        if (path && *path && !(libraries[side] = dlopen(path, RTLD_NOW | RTLD_LOCAL | RTLD_DEEPBIND))) {
            fprintf(stderr, "hardware: %s\n", dlerror());
            exit(1);
        }
    }
    uint32_t (*begin)(uint32_t) = libraries[KERNELS] ? (uint32_t(*)(uint32_t))dlsym(libraries[KERNELS], "bf_hw_begin") : NULL;
    if (begin && begin(BF_HW_ALL) != BF_OK) {
        fputs("hardware: the functions do not begin\n", stderr);
        exit(1);
    }
}

static void fill(void *p, size_t length)
{
    static uint64_t x = 1;
    for (size_t i = 0; i < length / 8; i++) {
        x ^= x << 13;
        x ^= x >> 7;
        x ^= x << 17;
        ((uint64_t *)p)[i] = x;
    }
}

/* The least time of each side, one sample of each in turn. */
static void time_row(int row, int samples, double target, int is_dirty)
{
    double best[SIDES];
    int calls[SIDES];
    function f[SIDES];
    for (int side = 0; side < SIDES; side++) {
        best[side] = 1e18;
        f[side] = find(side, rows[row].name);
        if (!f[side])
            continue;
        rows[row].call(f[side]);
        double t = now();
        rows[row].call(f[side]);
        calls[side] = (int)(target / (now() - t + 1)) + 1;
    }
    for (int sample = 0; sample < samples; sample++)
        for (int side = 0; side < SIDES; side++)
            if (f[side]) {
                if (is_dirty)
                    __asm__ volatile("vpcmpeqd %%ymm5, %%ymm5, %%ymm5" ::: "xmm5");
                double t = now();
                for (int i = 0; i < calls[side]; i++)
                    rows[row].call(f[side]);
                t = (now() - t) / calls[side] / rows[row].count;
                best[side] = t < best[side] ? t : best[side];
            }
    printf("| %s |", rows[row].title);
    for (int side = 0; side < SIDES; side++) {
        if (f[side])
            printf(" %.*f |", best[side] < 1 ? 3 : best[side] < 10 ? 2 : 1, best[side]);
        else
            printf(" |");
    }
    puts("");
    fflush(stdout);
}

int main(int count, char **words)
{
    int samples = count > 1 ? atoi(words[1]) : 40, is_dirty = count > 3 && !strcmp(words[3], "dirty");
    double target = (count > 2 ? atof(words[2]) : 500) * 1e3;
    load();
    a = aligned_alloc(64, 16 * N);
    b = aligned_alloc(64, 16 * N);
    out = aligned_alloc(64, 16 * N);
    many = aligned_alloc(64, 16 * (size_t)MOST);
    bytes = aligned_alloc(64, MOST);
    if (!a || !b || !out || !many || !bytes)
        return 1;
    fill(a, 16 * N);
    fill(b, 16 * N);
    fill(out, 16 * N);
    fill(many, 16 * (size_t)MOST);
    fill(bytes, MOST);
    fill(&scalar, sizeof scalar);
    fill(&point, sizeof point);
    fill(basis, sizeof basis);
    fill(key, sizeof key);
    fill(&state, 80); /* the powers and the sum; no bytes wait */
    printf("| Nanoseconds |");
    for (int side = 0; side < SIDES; side++)
        printf(" %s |", titles[side]);
    puts("\n|---|---:|---:|---:|---:|---:|");
    for (int row = 0; row < (int)(sizeof rows / sizeof *rows); row++)
        time_row(row, samples, target, is_dirty);
    return 0;
}
