/* The comparison of the group P64, as that of G128 (compare_g128.c). With AVX2 a turn has four elements, and what is left goes one by one:
 * five places, at each of which all pairs of basis elements are compared. */
#include "compare.h"

enum { PLACES = 5, TURN = 4 };

/* x^0 to x^126. */
static const char *powers_of_x(uint64_t power[127])
{
    uint64_t basis[64], left[64];
    for (int j = 0; j < 64; j++)
        basis[j] = 1ull << j;
    for (int from = 0; from < 64; from += 63) {
        for (int j = 0; j < 64; j++)
            left[j] = 1ull << from;
        PROVED(bf_p64_multiply(left, 64, basis, 64, power + from, 64));
    }
    return NULL;
}

/* The products of x^i and of each basis element, at each place of a turn and behind the turns: right has basis element j + shift at place j
 * of a slice of 65. */
static const char *compare_turns(const bf_kernels *k, const uint64_t *power, int i, int shift)
{
    enum { N = 65 };
    uint64_t left[N], right[N], got[N], want[N], s = 1ull << i;
    for (int j = 0; j < N; j++) {
        left[j] = s;
        right[j] = 1ull << ((j + shift) & 63);
        want[j] = power[i + ((j + shift) & 63)];
    }
    k->p64_multiply(left, right, got, N);
    SAME(!memcmp(got, want, sizeof got), "p64_multiply");
    k->p64_multiply_by(right, s, got, N);
    SAME(!memcmp(got, want, sizeof got), "p64_multiply_by");
    memset(got, 0, sizeof got);
    k->p64_add_scaled(got, s, right, N);
    SAME(!memcmp(got, want, sizeof got), "p64_add_scaled");
    return NULL;
}

/* What is left behind the turns, with x^i and each basis element. */
static const char *compare_rest(const bf_kernels *k, const uint64_t *power, int i)
{
    uint64_t s = 1ull << i, got;
    for (int j = 0; j < 64; j++) {
        uint64_t b = 1ull << j;
        SAME(k->multiply_64(s, b) == power[i + j], "multiply_64");
        k->p64_multiply(&s, &b, &got, 1);
        SAME(got == power[i + j], "p64_multiply behind the turns");
        k->p64_multiply_by(&b, s, &got, 1);
        SAME(got == power[i + j], "p64_multiply_by behind the turns");
        got = 0;
        k->p64_add_scaled(&got, s, &b, 1);
        SAME(got == power[i + j], "p64_add_scaled behind the turns");
        for (int place = 0; place < PLACES; place++) {
            uint64_t left[PLACES] = {0}, right[PLACES] = {0};
            left[place] = s;
            right[place] = b;
            k->p64_dot_product(left, right, PLACES, &got);
            SAME(got == power[i + j], "p64_dot_product");
        }
    }
    return NULL;
}

/* Squares, and what products are added to. */
static const char *compare_linear(const bf_kernels *k, const uint64_t *power, int i)
{
    uint64_t values[PLACES], got[PLACES], zeros[PLACES] = {0};
    for (int j = 0; j < PLACES; j++)
        values[j] = 1ull << i;
    k->p64_square(values, got, PLACES);
    for (int j = 0; j < PLACES; j++)
        SAME(got[j] == power[2 * i], "p64_square");
    memcpy(got, values, sizeof got);
    k->p64_add_scaled(got, 0x0123456789abcdef, zeros, PLACES);
    SAME(!memcmp(got, values, sizeof got), "p64_add_scaled, sums");
    return NULL;
}

#define BOTH(name, call, proved)                                                                                                    \
    do {                                                                                                                            \
        memcpy(got, a, sizeof got);                                                                                                 \
        memcpy(want, a, sizeof want);                                                                                               \
        call;                                                                                                                       \
        PROVED(proved);                                                                                                             \
        SAME(!memcmp(got, want, sizeof got), name);                                                                                 \
    } while (0)

static const char *compare_length(const bf_kernels *k, size_t n, uint64_t *state)
{
    uint64_t a[LONGEST + 4], b[LONGEST + 4], got[LONGEST + 4], want[LONGEST + 4], s = drawn(state);
    draw(a, sizeof a, state);
    draw(b, sizeof b, state);
    BOTH("p64_multiply in place", k->p64_multiply(got, b, got, n), bf_p64_multiply_in_place(want, n, b, n));
    BOTH("p64_multiply, lengths", k->p64_multiply(a, b, got, n), bf_p64_multiply(a, n, b, n, want, n));
    BOTH("p64_multiply_by, lengths", k->p64_multiply_by(got, s, got, n), bf_p64_multiply_by_in_place(want, n, s));
    BOTH("p64_add_scaled, lengths", k->p64_add_scaled(got, s, b, n), bf_p64_add_scaled(want, n, s, b, n));
    BOTH("p64_square, lengths", k->p64_square(got, got, n), bf_p64_square_in_place(want, n));
    BOTH("p64_dot_product, lengths", k->p64_dot_product(a, b, n, got), bf_p64_dot_product(a, n, b, n, want));
    return NULL;
}

/* Inverses, powers and values of n elements, some of which are 0. */
static const char *compare_chains(const bf_kernels *k, size_t n, uint64_t *state)
{
    enum { MOST = 40 };
    uint64_t values[MOST], got[MOST], want[MOST], coefficients[5], exponent = drawn(state) >> n;
    draw(values, sizeof values, state);
    draw(coefficients, sizeof coefficients, state);
    values[n * 7 % MOST] = values[n * 3 % MOST] = 0;
    memcpy(got, values, sizeof values);
    k->p64_inverse(got, got, n);
    PROVED(bf_p64_inverse(values, n, want, n));
    SAME(!memcmp(got, want, n * sizeof *got), "p64_inverse, lengths");
    memcpy(got, values, sizeof values);
    k->p64_power(got, exponent, got, n);
    PROVED(bf_p64_power(values, n, exponent, want, n));
    SAME(!memcmp(got, want, n * sizeof *got), "p64_power, lengths");
    k->p64_evaluate(coefficients, n % 6, values, got, n);
    PROVED(bf_p64_evaluate(coefficients, n % 6, values, n, want, n));
    SAME(!memcmp(got, want, n * sizeof *got), "p64_evaluate, lengths");
    return NULL;
}

/* The generator tells powers apart; 0 has no inverse, and gives 0. */
static const char *compare_powers(const bf_kernels *k)
{
    static const uint64_t exponents[] = {0, 1, 2, 3, 0x8000000000000001, 0xffffffffffffffff};
    uint64_t values[2] = {0, 0}, got[2], want[2], state = 4;
    PROVED(bf_p64_generator(values));
    k->p64_inverse(values, got, 2);
    PROVED(bf_p64_inverse(values, 2, want, 2));
    SAME(!memcmp(got, want, sizeof got), "p64_inverse of a generator and 0");
    for (size_t i = 0; i < sizeof exponents / sizeof *exponents; i++) {
        k->p64_power(values, exponents[i], got, 2);
        PROVED(bf_p64_power(values, 2, exponents[i], want, 2));
        SAME(!memcmp(got, want, sizeof got), "p64_power of a generator and 0");
    }
    for (size_t n = 0; n < 40; n += n < 3 ? 1 : n < 15 ? 12 : n < 18 ? 1 : 7)
        PART(compare_chains(k, n, &state));
    return NULL;
}

const char *bf_compare_p64(const bf_kernels *k)
{
    uint64_t power[127], state = 3;
    PART(powers_of_x(power));
    for (int i = 0; i < 64; i++) {
        for (int shift = 0; shift < TURN; shift++)
            PART(compare_turns(k, power, i, shift));
        PART(compare_rest(k, power, i));
        PART(compare_linear(k, power, i));
    }
    for (size_t n = 0; n <= LONGEST; n++)
        for (int d = 0; d < DRAWS; d++)
            PART(compare_length(k, n, &state));
    return compare_powers(k);
}
