/* The kernels of hardware/ as each build made them, beside the proved library. It is linked with the objects of hardware/ themselves.
 *
 *   hardware_kernels compare [ROUNDS]   what the comparison of each group says: where it finds a difference, or else the least of so
 *                                       many times that it took
 *   hardware_kernels schedules          at more lengths than the comparison has: inverses, powers, transforms and hashes
 *
 * The exit status is 1 where anything differs. */
#include "hardware.h"
#include <stdio.h>
#include <stdlib.h>
#include <string.h>
#include <time.h>

#define MOST (1 << 14)
static uint64_t state = 7;
static long compared, different;

static double milliseconds(void)
{
    struct timespec t;
    clock_gettime(CLOCK_PROCESS_CPUTIME_ID, &t);
    return (double)t.tv_sec * 1e3 + (double)t.tv_nsec / 1e6;
}

static void draw(void *to, size_t bytes)
{
    for (size_t i = 0; i + 8 <= bytes; i += 8) {
        uint64_t z = state += 0x9e3779b97f4a7c15;
        z = (z ^ z >> 30) * 0xbf58476d1ce4e5b9;
        z ^= z >> 29;
        memcpy((char *)to + i, &z, 8);
    }
}

/* What a proved function returns where its lengths fit. */
static void proved(uint32_t status)
{
    if (status != BF_OK) {
        puts("a proved function refuses");
        exit(1);
    }
}

static void same(const char *name, const void *got, const void *want, size_t bytes)
{
    compared++;
    if (memcmp(got, want, bytes)) {
        different++;
        printf("%s differs\n", name);
    }
}

static int compare(const char *build, const bf_kernels *kernels, int rounds)
{
    static const char *(*const groups[])(const bf_kernels *) = {bf_compare_g128, bf_compare_p64, bf_compare_hashes, bf_compare_towers};
    static const char *const names[] = {"g128", "p64", "hashes", "towers"};
    int found = 0;
    for (int group = 0; group < GROUPS; group++) {
        const char *where = NULL;
        double best = 1e9;
        for (int round = 0; round < rounds && !where; round++) {
            double began = milliseconds();
            where = groups[group](kernels);
            began = milliseconds() - began;
            best = began < best ? began : best;
        }
        found |= where != NULL;
        if (where)
            printf("hardware_kernels: %s, %s: %s\n", build, names[group], where);
        else
            printf("hardware_kernels: %s, %s: no difference, %.2f ms\n", build, names[group], best);
    }
    return found;
}

static void lengths(const bf_kernels *k, bf_u128 *a, bf_u128 *b, bf_u128 *c, size_t n)
{
    uint64_t *a64 = (uint64_t *)a, *b64 = (uint64_t *)b, *c64 = (uint64_t *)c, exponent = state >> (n & 63);
    draw(a, 16 * n);
    for (size_t i = 0; i < n; i += 5)
        memset(a + i, 0, 16 - 8 * (i & 1));
    k->g128_inverse(a, b, n);
    proved(bf_g128_inverse(a, n, c, n));
    same("g128_inverse", b, c, 16 * n);
    k->p64_inverse(a64, b64, n);
    proved(bf_p64_inverse(a64, n, c64, n));
    same("p64_inverse", b, c, 8 * n);
    k->g128_power(a, exponent, b, n);
    proved(bf_g128_power(a, n, exponent, c, n));
    same("g128_power", b, c, 16 * n);
    k->p64_power(a64, exponent, b64, n);
    proved(bf_p64_power(a64, n, exponent, c64, n));
    same("p64_power", b, c, 8 * n);
    k->g128_evaluate(a, n % 37, a, b, n);
    proved(bf_g128_evaluate(a, n % 37, a, n, c, n));
    same("g128_evaluate", b, c, 16 * n);
    k->p64_evaluate(a64, n % 37, a64, b64, n);
    proved(bf_p64_evaluate(a64, n % 37, a64, n, c64, n));
    same("p64_evaluate", b, c, 8 * n);
    k->g128_multiply(a, a, b, n);
    proved(bf_g128_square(a, n, c, n));
    same("g128_multiply", b, c, 16 * n);
}

static void transforms(const bf_kernels *k, bf_u128 *b, bf_u128 *c, int m, int turn)
{
    size_t n = (size_t)1 << m;
    bf_u128 shift;
    draw(b, 16 * n);
    draw(&shift, 16);
    if (turn) {
        shift.words[1] = 0;
        shift.words[0] >>= 20 * turn;
    }
    memcpy(c, b, 16 * n);
    k->transform(b, m, &shift);
    proved(bf_g128_transform(c, n, &shift));
    same("transform", b, c, 16 * n);
    k->inverse_transform(b, m, &shift);
    proved(bf_g128_inverse_transform(c, n, &shift));
    same("inverse_transform", b, c, 16 * n);
}

static void low_stages(const bf_kernels *k, bf_u128 *b, bf_u128 *c, size_t runs)
{
    bf_u128 basis[30], shifts[4];
    size_t first = (state >> 40) % ((1 << 27) - 300);
    draw(b, 256 * runs);
    draw(basis, sizeof basis);
    draw(shifts, sizeof shifts);
    memcpy(c, b, 256 * runs);
    k->low_stages(b, shifts, basis, 30, first, runs);
    proved(bf_g128_low_stages(c, 16 * runs, shifts, 4, basis, 30, first));
    same("low_stages", b, c, 256 * runs);
}

/* A hash, whole and in pieces of drawn lengths, whose states are looked at behind each. */
#define HASHES_OF(which)                                                                                                            \
    static void hashes_##which(const bf_kernels *k, const uint8_t *message, size_t length, size_t longest)                          \
    {                                                                                                                               \
        uint8_t key[16], got[16] = {0}, want[16];                                                                                   \
        bf_##which##_state ours, theirs;                                                                                            \
        draw(key, 16);                                                                                                              \
        k->which(key, message, length, got);                                                                                        \
        proved(bf_tag_##which(key, 16, message, length, want, 16));                                                                 \
        same(#which, got, want, 16);                                                                                                \
        k->which##_init(ours.words, key);                                                                                           \
        proved(bf_tag_##which##_init(&theirs, key, 16));                                                                            \
        same(#which "_init", &ours, &theirs, sizeof ours);                                                                          \
        for (size_t at = 0, some; at < length; at += some) {                                                                        \
            draw(&some, sizeof some);                                                                                               \
            some = some % longest < length - at ? some % longest : length - at;                                                     \
            k->which##_update(ours.words, message + at, some);                                                                      \
            proved(bf_tag_##which##_update(&theirs, message + at, some));                                                           \
            same(#which "_update", &ours, &theirs, sizeof ours);                                                                    \
        }                                                                                                                           \
        k->which##_final(ours.words, got);                                                                                          \
        same(#which "_final", got, want, 16);                                                                                       \
        proved(bf_tag_##which##_final(&theirs, want, 16));                                                                          \
        same(#which "_final, state", &ours, &theirs, sizeof ours);                                                                  \
    }
HASHES_OF(ghash)
HASHES_OF(polyval)

static int schedules(const bf_kernels *k)
{
    bf_u128 *a = malloc(16 * MOST), *b = malloc(16 * MOST), *c = malloc(16 * MOST);
    if (!a || !b || !c)
        return 1;
    for (size_t n = 0; n < 700; n += n < 100 ? 7 : 97)
        lengths(k, a, b, c, n);
    for (int m = 0; m <= 14; m++)
        for (int turn = 0; turn < 3; turn++)
            transforms(k, b, c, m, turn);
    for (size_t runs = 1; runs < 300; runs += runs < 20 ? 1 : 39)
        low_stages(k, b, c, runs);
    draw(a, 16 * MOST);
    for (size_t length = 0; length < 5000; length += length < 300 ? 1 : 37)
        for (size_t longest = 5; longest < 1000; longest *= 9) {
            hashes_ghash(k, (const uint8_t *)a, length, longest);
            hashes_polyval(k, (const uint8_t *)a, length, longest);
        }
    free(a);
    free(b);
    free(c);
    return different != 0;
}

int main(int count, char **words)
{
#ifdef __aarch64__
    const bf_kernels *const builds[] = {&bf_kernels_neon};
    const char *const names[] = {"neon"};
    int builds_here = 1;
#else
    const bf_kernels *const builds[] = {&bf_kernels_sse, &bf_kernels_avx2};
    const char *const names[] = {"sse", "avx2"};
    int builds_here = __builtin_cpu_supports("avx2") ? 2 : 1;
#endif
    int is_schedules = count > 1 && !strcmp(words[1], "schedules"), rounds = count > 2 ? atoi(words[2]) : 1, status = 0;
    for (int i = 0; i < builds_here; i++) {
        status |= compare(names[i], builds[i], rounds);
        if (is_schedules && !status)
            status |= schedules(builds[i]);
    }
    if (is_schedules)
        printf("hardware_kernels: %ld compared at more lengths, %ld differ\n", compared, different);
    return status;
}
