/* The comparison of the group G128.
 *
 * Products. A map that is bilinear over GF(2) is determined by what it gives for each pair of elements of two bases. In a polynomial basis
 * these are powers of x, and the proved product of x^i and x^j depends on i + j alone, so that 255 proved products stand for 16,384.
 * check-object has read off the kernel's machine code that it is such a map, and that a loop treats all places alike, so that one place
 * stands for all.
 *
 * Chains call those and multiply in no other way. One that gives a power x^e, whatever x is, is told from each other power by what it gives
 * for a generator and for 0. What has a higher degree, what a place might have to do with another, and schedules are compared at drawn
 * operands: a map of degree d that is not 0 is not 0 at one of 2^d operands or more, so that N draws miss it with a probability of
 * (1 - 2^-d)^N. That is not complete. */
#include "cantor.h"
#include "compare.h"

bf_kernel_tables bf_kernel_table;

/* The power maps, from squares of a basis. */
static const char *fill_maps(void)
{
    bf_u128 power[128];
    write_basis(power);
    for (int k = 1, which = 0; which < MAP_COUNT; k++) {
        PROVED(bf_g128_square_in_place(power, 128));
        if (k != bf_map_squarings[which])
            continue;
        bf_u128(*map)[16] = bf_kernel_table.maps[which++];
        for (int place = 0; place < 32; place++)
            for (int digit = 1; digit < 16; digit++)
                map[place][digit] = sum(map[place][digit & (digit - 1)], power[4 * place + __builtin_ctz(digit)]);
    }
    return NULL;
}

/* The Cantor vectors, and the steps of the basis that begins with vector 1. Of the vectors it is compared that v^2 + v of each is the one
 * before, and that of both solutions, which differ by 1, it is the one that is even in the tower. */
static const char *fill_vectors(void)
{
    bf_u128 tower[CANTOR_VECTORS], square[CANTOR_VECTORS], x64 = bit(64), *vectors = bf_kernel_table.vectors;
    for (int i = 0; i < CANTOR_VECTORS; i++)
        tower[i] = (bf_u128){{cantor_of_tower[i], 0}};
    PROVED(bf_t128_to_g128(tower, CANTOR_VECTORS, vectors, CANTOR_VECTORS));
    PROVED(bf_g128_square(vectors, CANTOR_VECTORS, square, CANTOR_VECTORS));
    SAME(same(vectors[0], bit(0)), "Cantor vectors");
    for (int i = 1; i < CANTOR_VECTORS; i++)
        SAME(same(sum(square[i], vectors[i]), vectors[i - 1]) && !(tower[i].words[0] & 1), "Cantor vectors");
    for (int from = 0; from < 2; from++)
        for (int k = 0; k < CANTOR_VECTORS - 2; k++) {
            bf_u128 *step = bf_kernel_table.steps[from][k], *vector = vectors + from + k + 1;
            step[0] = k ? sum(bf_kernel_table.steps[from][k - 1][0], *vector) : *vector;
            PROVED(bf_g128_multiply_by(step, 1, &x64, step + 1, 1));
        }
    return NULL;
}

/* x^0 to x^254. */
static const char *powers_of_x(bf_u128 power[255])
{
    bf_u128 basis[128], left[128];
    write_basis(basis);
    for (int from = 0; from < 128; from += 127) {
        for (int j = 0; j < 128; j++)
            left[j] = bit(from);
        PROVED(bf_g128_multiply(left, 128, basis, 128, power + from, 128));
    }
    return NULL;
}

static const char *compare_registers(const bf_kernels *k, const bf_u128 *power)
{
    for (int i = 0; i < 128; i++) {
        V a = in(bit(i));
        for (int j = 0; j < 128; j++)
            SAME(same(out(k->multiply(a, in(bit(j)))), power[i + j]), "multiply");
        SAME(same(out(k->square(a)), power[2 * i]), "square");
    }
    return NULL;
}

/* A power map looks up 32 half bytes: each of them alone, and sums of all. */
static const char *compare_maps(const bf_kernels *k)
{
    enum { COUNT = 160 };
    uint64_t state = 1;
    bf_u128 values[COUNT], raised[COUNT];
    write_basis(values);
    draw(values + 128, sizeof *values * (COUNT - 128), &state);
    memcpy(raised, values, sizeof values);
    for (int count = 1, which = 0; which < MAP_COUNT; count++) {
        PROVED(bf_g128_square_in_place(raised, COUNT));
        if (count != bf_map_squarings[which])
            continue;
        for (int i = 0; i < COUNT; i++)
            SAME(same(out(k->power_map(which, in(values[i]))), raised[i]), "power_map");
        for (int place = 0; place < 32; place++)
            for (uint64_t digit = 0; digit < 16; digit++) {
                bf_u128 a = {{place < 16 ? digit << 4 * place : 0, place < 16 ? 0 : digit << 4 * (place - 16)}}, s = {{0, 0}};
                for (int j = 0; j < 4; j++)
                    s = digit >> j & 1 ? sum(s, raised[4 * place + j]) : s;
                SAME(same(out(k->power_map(which, in(a))), s), "power_map by half bytes");
            }
        which++;
    }
    return NULL;
}

/* The products of x^i and of each basis element, in slices. */
static const char *compare_row(const bf_kernels *k, const bf_u128 *power, int i)
{
    bf_u128 left[128], basis[128], got[128], high[128], s = bit(i);
    size_t bytes = sizeof got;
    write_basis(basis);
    for (int j = 0; j < 128; j++)
        left[j] = s;
    k->g128_multiply(left, basis, got, 128);
    SAME(!memcmp(got, power + i, bytes), "g128_multiply");
    k->g128_multiply_by(basis, &s, got, 128);
    SAME(!memcmp(got, power + i, bytes), "g128_multiply_by");
    memset(got, 0, bytes);
    k->g128_add_scaled(got, &s, basis, 128);
    SAME(!memcmp(got, power + i, bytes), "g128_add_scaled");
    memset(got, 0, bytes);
    memcpy(high, basis, bytes);
    k->g128_butterfly_forward(got, high, &s, 128);
    SAME(!memcmp(got, power + i, bytes), "g128_butterfly_forward");
    for (int j = 0; j < 128; j++)
        SAME(same(high[j], sum(basis[j], got[j])), "g128_butterfly_forward, high");
    memset(got, 0, bytes);
    memcpy(high, basis, bytes);
    k->g128_butterfly_inverse(got, high, &s, 128);
    SAME(!memcmp(got, power + i, bytes) && !memcmp(high, basis, bytes), "g128_butterfly_inverse");
    for (int j = 0; j < 128; j++) {
        k->g128_dot_product(&s, basis + j, 1, got);
        SAME(same(got[0], power[i + j]), "g128_dot_product");
    }
    return NULL;
}

/* The linear parts: squares, and what products are added to. */
static const char *compare_linear(const bf_kernels *k, const bf_u128 *power)
{
    bf_u128 basis[128], got[128], high[128], zeros[128] = {{{0, 0}}}, s = {{0x0123456789abcdef, 0xfedcba9876543210}};
    size_t bytes = sizeof got;
    write_basis(basis);
    k->g128_square(basis, got, 128);
    for (int j = 0; j < 128; j++)
        SAME(same(got[j], power[2 * j]), "g128_square");
    memcpy(got, basis, bytes);
    k->g128_add_scaled(got, &s, zeros, 128);
    SAME(!memcmp(got, basis, bytes), "g128_add_scaled, sums");
    memset(high, 0, bytes);
    k->g128_butterfly_forward(got, high, &s, 128);
    SAME(!memcmp(got, basis, bytes) && !memcmp(high, basis, bytes), "g128_butterfly_forward, low");
    memset(high, 0, bytes);
    k->g128_butterfly_inverse(got, high, &s, 128);
    SAME(!memcmp(high, basis, bytes), "g128_butterfly_inverse, high");
    k->g128_multiply_by(basis, &s, high, 128);
    for (int j = 0; j < 128; j++)
        SAME(same(got[j], sum(basis[j], high[j])), "g128_butterfly_inverse, low");
    return NULL;
}

/* Runs a kernel and the proved function on copies of a and b, of which either may change. */
#define BOTH(name, call, proved)                                                                                                    \
    do {                                                                                                                            \
        memcpy(got, a, sizeof got);                                                                                                 \
        memcpy(want, a, sizeof want);                                                                                               \
        memcpy(high, b, sizeof high);                                                                                               \
        memcpy(want_high, b, sizeof want_high);                                                                                     \
        call;                                                                                                                       \
        PROVED(proved);                                                                                                             \
        SAME(!memcmp(got, want, sizeof got) && !memcmp(high, want_high, sizeof high), name);                                        \
    } while (0)

/* Slices of n, results in the place of operands, and what stands behind them. */
static const char *compare_length(const bf_kernels *k, size_t n, uint64_t *state)
{
    bf_u128 a[LONGEST + 4], b[LONGEST + 4], got[LONGEST + 4], want[LONGEST + 4], high[LONGEST + 4], want_high[LONGEST + 4], s;
    draw(a, sizeof a, state);
    draw(b, sizeof b, state);
    draw(&s, sizeof s, state);
    BOTH("g128_multiply in place", k->g128_multiply(got, b, got, n), bf_g128_multiply_in_place(want, n, b, n));
    BOTH("g128_multiply, lengths", k->g128_multiply(a, b, got, n), bf_g128_multiply(a, n, b, n, want, n));
    BOTH("g128_multiply_by, lengths", k->g128_multiply_by(got, &s, got, n), bf_g128_multiply_by_in_place(want, n, &s));
    BOTH("g128_add_scaled, lengths", k->g128_add_scaled(got, &s, b, n), bf_g128_add_scaled(want, n, &s, b, n));
    BOTH("g128_square, lengths", k->g128_square(got, got, n), bf_g128_square_in_place(want, n));
    BOTH("g128_dot_product, lengths", k->g128_dot_product(a, b, n, got), bf_g128_dot_product(a, n, b, n, want));
    BOTH("g128_butterfly_forward, lengths", k->g128_butterfly_forward(got, high, &s, n),
         bf_g128_butterfly_forward(want, n, want_high, n, &s));
    BOTH("g128_butterfly_inverse, lengths", k->g128_butterfly_inverse(got, high, &s, n),
         bf_g128_butterfly_inverse(want, n, want_high, n, &s));
    return NULL;
}

/* Two stages at once by proved butterflies. */
static const char *proved_stages(bf_u128 *rows, bf_u128 top, bf_u128 lower, size_t first, size_t blocks, size_t n)
{
    for (size_t block = first; block < first + blocks; block++, rows += 4 * n) {
        bf_u128 other = sum(lower, bf_kernel_table.vectors[1]);
        PROVED(bf_g128_butterfly_forward(rows, 2 * n, rows + 2 * n, 2 * n, &top));
        PROVED(bf_g128_butterfly_forward(rows, n, rows + n, n, &lower));
        PROVED(bf_g128_butterfly_forward(rows + 2 * n, n, rows + 3 * n, n, &other));
        for (uint64_t changed = block ^ (block + 1), t = 1; changed; changed >>= 1, t++) {
            top = sum(top, bf_kernel_table.vectors[t]);
            lower = sum(lower, bf_kernel_table.vectors[t + 1]);
        }
    }
    return NULL;
}

/* Over rows of 1 to 3 and over 1 or 2 blocks, of degree 3 in values and scalars: 300 draws miss what differs with 2^-57. */
static const char *compare_stages(const bf_kernels *k)
{
    bf_u128 values[24], rows[24], want[24], x64 = bit(64);
    scalar_pair scalars[2];
    uint64_t state = 6;
    for (size_t d = 0; d < 300; d++) {
        size_t n = d % 3 + 1, blocks = d % 7 ? 1 : 2, first = drawn(&state) >> (24 + d % 40);
        draw(scalars, sizeof scalars, &state);
        draw(values, sizeof values, &state);
        for (int i = 0; i < 2; i++)
            PROVED(bf_g128_multiply_by(scalars[i], 1, &x64, scalars[i] + 1, 1));
        memcpy(rows, values, sizeof rows);
        memcpy(want, values, sizeof want);
        k->stages_forward(rows, scalars, first, blocks, n, bf_kernel_table.steps);
        PART(proved_stages(want, scalars[0][0], scalars[1][0], first, blocks, n));
        SAME(!memcmp(rows, want, sizeof rows), "stages_forward");
        k->stages_inverse(rows, scalars, first, blocks, n, bf_kernel_table.steps);
        SAME(!memcmp(rows, values, sizeof rows), "stages_inverse");
    }
    return NULL;
}

/* Transforms of 1 to 2^11 values at any shift, and the longer ones at 0 too, where the proved transform is another. */
static const char *compare_transforms(const bf_kernels *k)
{
    enum { MOST = 11 };
    static bf_u128 values[1 << MOST], got[1 << MOST], want[1 << MOST];
    uint64_t state = 7;
    for (int m = 0; m <= MOST; m++)
        for (int turn = 0; turn < (m > 8 ? 1 : 2); turn++) {
            size_t n = (size_t)1 << m;
            bf_u128 shift = {{0, 0}};
            draw(values, n * sizeof *values, &state);
            if (turn || m == 9)
                draw(&shift, sizeof shift, &state);
            memcpy(got, values, n * sizeof *values);
            memcpy(want, values, n * sizeof *values);
            k->transform(got, m, &shift);
            PROVED(bf_g128_transform(want, n, &shift));
            SAME(!memcmp(got, want, n * sizeof *values), "transform");
            k->inverse_transform(got, m, &shift);
            SAME(!memcmp(got, values, n * sizeof *values), "inverse_transform");
        }
    return NULL;
}

/* Low stages over 1 to 5 runs, from where the bits of their numbers change: a basis of 3 to 43 elements. */
static const char *compare_low_stages(const bf_kernels *k)
{
    bf_u128 values[80], want[80], basis[43], shifts[4];
    uint64_t state = 8;
    for (size_t runs = 1; runs <= 5; runs++)
        for (size_t d = 0; d < 4; d++) {
            size_t bits = 3 + 10 * d, first = d ? ((size_t)1 << (bits - d)) - 2 * d : 0, length = 3 + bits;
            draw(values, sizeof values, &state);
            draw(basis, sizeof basis, &state);
            draw(shifts, sizeof shifts, &state);
            memcpy(want, values, sizeof want);
            k->low_stages(values, shifts, basis, length, first, runs);
            PROVED(bf_g128_low_stages(want, 16 * runs, shifts, 4, basis, length, first));
            SAME(!memcmp(values, want, sizeof values), "low_stages");
        }
    return NULL;
}

/* Inverses, powers and values of n elements, of which some are 0 and some have one word that is. */
static const char *compare_chains(const bf_kernels *k, size_t n, uint64_t *state)
{
    enum { MOST = 40 };
    bf_u128 values[MOST], got[MOST], want[MOST], coefficients[5];
    uint64_t exponent = drawn(state) >> n;
    draw(values, sizeof values, state);
    draw(coefficients, sizeof coefficients, state);
    values[n * 7 % MOST] = values[n * 3 % MOST] = (bf_u128){{0, 0}};
    values[(n + 1) * 7 % MOST].words[0] = values[(n + 1) * 3 % MOST].words[1] = 0;
    memcpy(got, values, sizeof values);
    k->g128_inverse(got, got, n);
    PROVED(bf_g128_inverse(values, n, want, n));
    SAME(!memcmp(got, want, n * sizeof *got), "g128_inverse, lengths");
    memcpy(got, values, sizeof values);
    k->g128_power(got, exponent, got, n);
    PROVED(bf_g128_power(values, n, exponent, want, n));
    SAME(!memcmp(got, want, n * sizeof *got), "g128_power, lengths");
    k->g128_evaluate(coefficients, n % 6, values, got, n);
    PROVED(bf_g128_evaluate(coefficients, n % 6, values, n, want, n));
    SAME(!memcmp(got, want, n * sizeof *got), "g128_evaluate, lengths");
    return NULL;
}

/* The generator tells powers apart; 0 has no inverse, and gives 0. */
static const char *compare_powers(const bf_kernels *k)
{
    static const uint64_t exponents[] = {0, 1, 2, 3, 0x8000000000000001, 0xffffffffffffffff};
    bf_u128 values[2] = {{{0, 0}}, {{0, 0}}}, got[2], want[2];
    uint64_t state = 9;
    PROVED(bf_g128_generator(values));
    k->g128_inverse(values, got, 2);
    PROVED(bf_g128_inverse(values, 2, want, 2));
    SAME(!memcmp(got, want, sizeof got), "g128_inverse of a generator and 0");
    for (size_t i = 0; i < sizeof exponents / sizeof *exponents; i++) {
        k->g128_power(values, exponents[i], got, 2);
        PROVED(bf_g128_power(values, 2, exponents[i], want, 2));
        SAME(!memcmp(got, want, sizeof got), "g128_power of a generator and 0");
    }
    for (size_t n = 0; n < 40; n += n < 3 ? 1 : n < 15 ? 12 : n < 18 ? 1 : 7)
        PART(compare_chains(k, n, &state));
    return NULL;
}

const char *bf_compare_g128(const bf_kernels *k)
{
    bf_u128 power[255];
    uint64_t state = 2;
    PART(fill_maps());
    PART(fill_vectors());
    PART(powers_of_x(power));
    PART(compare_registers(k, power));
    PART(compare_maps(k));
    for (int i = 0; i < 128; i++)
        PART(compare_row(k, power, i));
    PART(compare_linear(k, power));
    for (size_t n = 0; n <= LONGEST; n++)
        for (int d = 0; d < DRAWS; d++)
            PART(compare_length(k, n, &state));
    PART(compare_stages(k));
    PART(compare_transforms(k));
    PART(compare_low_stages(k));
    return compare_powers(k);
}
