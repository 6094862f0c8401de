/* The kernels: products in the fields of 64 and 128 bits by the processor's carryless multiply instruction.
 *
 * This file is compiled once for each set of instructions, on x86-64 with -mpclmul -msse4.1 and with -mpclmul -mavx2, on ARM with
 * -march=armv8-a+crypto. Its only constants are the polynomials and powers of x modulo one. A function marked KERNEL is what is compared
 * with the proved functions, and what check-object reads: it is never copied into another. Every other function multiplies by calling
 * those. */
#include "hardware.h"
#include <string.h>

#if defined(__aarch64__)
#define NAMED(name) name##_neon
#elif defined(__AVX2__)
#define NAMED(name) name##_avx2
#else
#define NAMED(name) name##_sse
#endif
#ifdef __clang__
#define KERNEL __attribute__((noinline)) static
#else
#define KERNEL __attribute__((noinline, noclone)) static
#endif
/* How many elements a chain takes at once. */
#define BATCH 64

/* ---- g128: x^128 + x^7 + x^2 + x + 1, bit i for x^i ---- */

#define TAIL_128 0x87
/* A scalar, and its product by x^64. */
typedef struct {
    V s, t;
} scalar_and_shifted;

/* low + high x^64, of which the highest 64 bits are brought down. */
static inline V fold_128(V low, V high) { return XOR(XOR(low, UP(high)), MUL(high, PAIR(0, TAIL_128), 0x01)); }

static inline V product_128(V a, V b)
{
    V low = MUL(a, b, 0x00), high = MUL(a, b, 0x11), middle = XOR(MUL(a, b, 0x01), MUL(a, b, 0x10));
    return fold_128(low, fold_128(middle, high));
}

static inline V square_128(V a) { return fold_128(MUL(a, a, 0x00), fold_128(ZERO, MUL(a, a, 0x11))); }

static inline scalar_and_shifted with_shifted(V s)
{
    scalar_and_shifted pair = {s, fold_128(ZERO, s)};
    return pair;
}

/* The product of a and the scalar: the low half of a by s and the high half by s x^64, so that one fold is enough. */
static inline V scaled(V a, scalar_and_shifted p)
{
    V low = XOR(MUL(a, p.s, 0x00), MUL(a, p.t, 0x01)), high = XOR(MUL(a, p.s, 0x10), MUL(a, p.t, 0x11));
    return fold_128(low, high);
}

KERNEL V NAMED(multiply)(V a, V b) { return product_128(a, b); }

KERNEL V NAMED(square)(V a) { return square_128(a); }

KERNEL V NAMED(power_map)(int which, V a)
{
    const bf_u128(*table)[16] = bf_kernel_table.maps[which];
    uint64_t low = LOW_WORD(a), high = HIGH_WORD(a);
    V x = ZERO, y = x;
#pragma GCC unroll 16
    for (int i = 0; i < 16; i++) {
        x = XOR(x, LOAD(&table[i][low >> 4 * i & 15]));
        y = XOR(y, LOAD(&table[16 + i][high >> 4 * i & 15]));
    }
    return XOR(x, y);
}

KERNEL void NAMED(g128_multiply)(const bf_u128 *a, const bf_u128 *b, bf_u128 *out, size_t n)
{
    for (size_t i = 0; i < n; i++)
        STORE(out + i, product_128(LOAD(a + i), LOAD(b + i)));
}

KERNEL void NAMED(g128_multiply_by)(const bf_u128 *a, const bf_u128 *scalar, bf_u128 *out, size_t n)
{
    scalar_and_shifted p = with_shifted(LOAD(scalar));
    for (size_t i = 0; i < n; i++)
        STORE(out + i, scaled(LOAD(a + i), p));
}

KERNEL void NAMED(g128_add_scaled)(bf_u128 *sums, const bf_u128 *scalar, const bf_u128 *values, size_t n)
{
    scalar_and_shifted p = with_shifted(LOAD(scalar));
    for (size_t i = 0; i < n; i++)
        STORE(sums + i, XOR(LOAD(sums + i), scaled(LOAD(values + i), p)));
}

KERNEL void NAMED(g128_dot_product)(const bf_u128 *a, const bf_u128 *b, size_t n, bf_u128 *out)
{
    V low = ZERO, high = low, middle = low, more = low;
    for (size_t i = 0; i < n; i++) {
        V x = LOAD(a + i), y = LOAD(b + i);
        low = XOR(low, MUL(x, y, 0x00));
        high = XOR(high, MUL(x, y, 0x11));
        middle = XOR(middle, MUL(x, y, 0x01));
        more = XOR(more, MUL(x, y, 0x10));
    }
    STORE(out, fold_128(low, fold_128(XOR(middle, more), high)));
}

KERNEL void NAMED(g128_square)(const bf_u128 *a, bf_u128 *out, size_t n)
{
    for (size_t i = 0; i < n; i++)
        STORE(out + i, square_128(LOAD(a + i)));
}

#define FORWARD(low, high, p) (low = XOR(low, scaled(high, p)), high = XOR(high, low))
#define INVERSE(low, high, p) (high = XOR(high, low), low = XOR(low, scaled(high, p)))
#define BUTTERFLY(name, pass)                                                                                                       \
    KERNEL void NAMED(name)(bf_u128 * low, bf_u128 * high, const bf_u128 *scalar, size_t n)                                         \
    {                                                                                                                               \
        scalar_and_shifted p = with_shifted(LOAD(scalar));                                                                          \
        for (size_t i = 0; i < n; i++) {                                                                                            \
            V l = LOAD(low + i), h = LOAD(high + i);                                                                                \
            pass(l, h, p);                                                                                                          \
            STORE(low + i, l);                                                                                                      \
            STORE(high + i, h);                                                                                                     \
        }                                                                                                                           \
    }
BUTTERFLY(g128_butterfly_forward, FORWARD)
BUTTERFLY(g128_butterfly_inverse, INVERSE)

/* ---- transforms over g128, two stages at a time ---- */

static inline scalar_and_shifted pair_at(const scalar_pair p)
{
    scalar_and_shifted q = {LOAD(p), LOAD(p + 1)};
    return q;
}

static inline scalar_and_shifted pair_sum(scalar_and_shifted p, const scalar_pair q)
{
    scalar_and_shifted r = {XOR(p.s, LOAD(q)), XOR(p.t, LOAD(q + 1))};
    return r;
}

/* From block k to the next a sum of the basis is added to each scalar, of as many elements as k has ones below its lowest 0, and one. */
#define STAGES(name, first_pass, second_pass, third_pass, fourth_pass)                                                              \
    KERNEL void NAMED(name)(bf_u128 * v, const scalar_pair scalars[2], size_t first, size_t blocks, size_t n, const stage_steps steps) \
    {                                                                                                                               \
        scalar_and_shifted top = pair_at(scalars[0]), a = pair_at(scalars[1]);                                                      \
        for (size_t k = first; k < first + blocks; k++, v += 3 * n) {                                                               \
            scalar_and_shifted b = pair_sum(a, steps[0][0]);                                                                        \
            for (bf_u128 *end = v + n; v < end; v++) {                                                                              \
                V r0 = LOAD(v), r1 = LOAD(v + n), r2 = LOAD(v + 2 * n), r3 = LOAD(v + 3 * n);                                       \
                first_pass;                                                                                                         \
                second_pass;                                                                                                        \
                third_pass;                                                                                                         \
                fourth_pass;                                                                                                        \
                STORE(v, r0);                                                                                                       \
                STORE(v + n, r1);                                                                                                   \
                STORE(v + 2 * n, r2);                                                                                               \
                STORE(v + 3 * n, r3);                                                                                               \
            }                                                                                                                       \
            int ones = __builtin_ctzll(~(unsigned long long)k);                                                                     \
            top = pair_sum(top, steps[0][ones]);                                                                                    \
            a = pair_sum(a, steps[1][ones]);                                                                                        \
        }                                                                                                                           \
    }
STAGES(stages_forward, FORWARD(r0, r2, top), FORWARD(r1, r3, top), FORWARD(r0, r1, a), FORWARD(r2, r3, b))
STAGES(stages_inverse, INVERSE(r0, r1, a), INVERSE(r2, r3, b), INVERSE(r0, r2, top), INVERSE(r1, r3, top))

/* s and s x^64. */
static void write_pair(scalar_pair out, V s)
{
    STORE(out, s);
    STORE(out + 1, NAMED(multiply)(s, PAIR(1, 0)));
}

/* The scalar of a stage at its block: what the shift gives, and element t of the basis for each set bit t of the block. */
static void scalar_at(scalar_pair out, const bf_u128 *shift, const bf_u128 *basis, size_t block)
{
    V s = LOAD(shift);
    for (; block; basis++, block >>= 1)
        if (block & 1)
            s = XOR(s, LOAD(basis));
    write_pair(out, s);
}

/* What stays the same all through a transform: s_j of the shift for each stage j. */
typedef struct {
    bf_u128 shifts[40];
    int is_inverse;
} walk_state;
#define IN_CACHE 10
/* The stages of 2^m values that are block `block` of the whole, for an even m. Above what the cache takes it is two stages and then each
 * quarter by itself; below, two stages over all after two. */
static void NAMED(walk)(bf_u128 *v, int m, size_t block, const walk_state *state)
{
    scalar_pair scalars[2];
    int is_inverse = state->is_inverse, turns = m > IN_CACHE ? 1 : m / 2;
    for (int turn = 0; turn < turns; turn++) {
        int level = is_inverse && turns > 1 ? 2 * turn + 2 : m - 2 * turn; /* blocks of 2^level */
        size_t blocks = (size_t)1 << (m - level), n = (size_t)1 << (level - 2), first = block << (m - level);
        scalar_at(scalars[0], state->shifts + level - 1, bf_kernel_table.vectors + 1, first);
        scalar_at(scalars[1], state->shifts + level - 2, bf_kernel_table.vectors + 1, 2 * first);
        for (size_t k = 0; m > IN_CACHE && is_inverse && k < 4; k++)
            NAMED(walk)(v + k * n, m - 2, 4 * block + k, state);
        (is_inverse ? NAMED(stages_inverse) : NAMED(stages_forward))(v, scalars, first, blocks, n, bf_kernel_table.steps);
        for (size_t k = 0; m > IN_CACHE && !is_inverse && k < 4; k++)
            NAMED(walk)(v + k * n, m - 2, 4 * block + k, state);
    }
}

/* A whole transform; of an odd number of stages the highest goes by itself. */
static void NAMED(whole)(bf_u128 *v, int m, const bf_u128 *shift, int is_inverse)
{
    walk_state state;
    scalar_pair scalar;
    V s = LOAD(shift);
    size_t n = m & 1 ? (size_t)1 << (m - 1) : 0;
    state.is_inverse = is_inverse;
    for (int j = 0; j < m; j++) {
        STORE(state.shifts + j, s);
        write_pair(scalar, s); /* that of the highest stage stays */
        s = XOR(s, NAMED(square)(s));
    }
    if (n && !is_inverse)
        NAMED(g128_butterfly_forward)(v, v + n, scalar, n);
    for (size_t k = 0; k < (n ? 2 : 1); k++)
        NAMED(walk)(v + k * n, m & ~1, k, &state);
    if (n && is_inverse)
        NAMED(g128_butterfly_inverse)(v, v + n, scalar, n);
}

static void NAMED(transform)(bf_u128 *v, int m, const bf_u128 *shift) { NAMED(whole)(v, m, shift, 0); }

static void NAMED(inverse_transform)(bf_u128 *v, int m, const bf_u128 *shift) { NAMED(whole)(v, m, shift, 1); }

/* The steps of a basis, as far as the blocks from first to last, which is not among them, need them. */
static void steps_of(stage_steps steps, const bf_u128 *basis, size_t length, size_t first, size_t last)
{
    for (int from = 0; from < 2; from++) {
        V sum = ZERO;
        for (size_t k = 0; k < MOST_STEPS && (k == 0 || (first ^ last) >> k); k++) {
            sum = from + k < length ? XOR(sum, LOAD(basis + from + k)) : sum;
            write_pair(steps[from][k], sum);
        }
    }
}

static void NAMED(low_stages)(bf_u128 *v, const bf_u128 shifts[4], const bf_u128 *basis, size_t length, size_t first, size_t runs)
{
    scalar_pair scalars[2];
    stage_steps steps;
    steps_of(steps, basis, length, 4 * first, 4 * (first + runs));
    scalar_at(scalars[0], shifts + 3, basis, first);
    scalar_at(scalars[1], shifts + 2, basis, 2 * first);
    NAMED(stages_forward)(v, scalars, first, runs, 4, steps);
    scalar_at(scalars[0], shifts + 1, basis, 4 * first);
    scalar_at(scalars[1], shifts, basis, 8 * first);
    NAMED(stages_forward)(v, scalars, 4 * first, 4 * runs, 1, steps);
}

/* ---- inverses, powers and values of polynomials over g128 ---- */

/* a^-1, as a^(2^128 - 2) (Itoh and Tsujii): rk is a^(2^k - 1). */
static V NAMED(inverse_one)(V a)
{
    V r2 = NAMED(multiply)(NAMED(square)(a), a), r3 = NAMED(multiply)(NAMED(square)(r2), a);
    V r6 = NAMED(multiply)(NAMED(power_map)(0, r3), r3), r7 = NAMED(multiply)(NAMED(square)(r6), a);
    V r14 = NAMED(multiply)(NAMED(power_map)(1, r7), r7), r28 = NAMED(multiply)(NAMED(power_map)(2, r14), r14);
    V r56 = NAMED(multiply)(NAMED(power_map)(3, r28), r28), r63 = NAMED(multiply)(NAMED(power_map)(1, r56), r7);
    V r126 = NAMED(multiply)(NAMED(power_map)(4, r63), r63), r127 = NAMED(multiply)(NAMED(square)(r126), a);
    return NAMED(square)(r127);
}

/* 1 in the place of 0, and else a. */
static inline V one_for_zero(V a)
{
    V words = IS_ZERO(a);
    return XOR(a, AND(AND(words, SWAP(words)), PAIR(0, 1)));
}

/* The inverses of four numbers by one. */
static inline void inverses_of_four(const V x[4], V y[4])
{
    V p = NAMED(multiply)(x[0], x[1]), q = NAMED(multiply)(x[2], x[3]), r = NAMED(inverse_one)(NAMED(multiply)(p, q));
    V of_p = NAMED(multiply)(r, q), of_q = NAMED(multiply)(r, p);
    y[0] = NAMED(multiply)(of_p, x[1]);
    y[1] = NAMED(multiply)(of_p, x[0]);
    y[2] = NAMED(multiply)(of_q, x[3]);
    y[3] = NAMED(multiply)(of_q, x[2]);
}

/* Inverses of rows of four, four runs beside each other (Montgomery). A 0 counts as 1, and stays 0. */
static void NAMED(inverse_rows)(const bf_u128 *a, bf_u128 *out, size_t rows)
{
    V before[BATCH][4], x[4], y[4];
    for (int c = 0; c < 4; c++)
        before[0][c] = x[c] = one_for_zero(LOAD(a + c));
    for (size_t i = 1; i < rows; i++)
        for (int c = 0; c < 4; c++)
            before[i][c] = x[c] = NAMED(multiply)(x[c], one_for_zero(LOAD(a + 4 * i + c)));
    inverses_of_four(x, y);
    for (size_t i = rows; i-- > 0;)
        for (int c = 0; c < 4; c++) {
            V value = LOAD(a + 4 * i + c), u = one_for_zero(value), w = i ? NAMED(multiply)(y[c], before[i - 1][c]) : y[c];
            y[c] = NAMED(multiply)(y[c], u);
            STORE(out + 4 * i + c, XOR(w, XOR(u, value)));
        }
}

static void NAMED(g128_inverse)(const bf_u128 *a, bf_u128 *out, size_t n)
{
    size_t i = 0;
    while (n - i >= 16) {
        size_t rows = (n - i) / 4 < BATCH ? (n - i) / 4 : BATCH;
        NAMED(inverse_rows)(a + i, out + i, rows);
        i += 4 * rows;
    }
    for (; i < n; i++)
        STORE(out + i, NAMED(inverse_one)(LOAD(a + i)));
}

/* Powers and values of polynomials, of BATCH elements at once; fixed is an element of each place that the loop goes by. */
#define POWER_AND_EVALUATE(field, type, one, plus)                                                                                  \
    static void NAMED(field##_power)(const type *a, uint64_t exponent, type *out, size_t n)                                         \
    {                                                                                                                               \
        type fixed[BATCH];                                                                                                          \
        for (size_t i = 0, some; i < n; i += some) {                                                                                \
            some = n - i < BATCH ? n - i : BATCH;                                                                                   \
            memcpy(fixed, a + i, some * sizeof *a);                                                                                 \
            for (size_t j = 0; j < some; j++)                                                                                       \
                out[i + j] = exponent ? fixed[j] : (type)one;                                                                       \
            for (int bit = exponent ? 62 - __builtin_clzll(exponent) : -1; bit >= 0; bit--) {                                       \
                NAMED(field##_square)(out + i, out + i, some);                                                                      \
                if (exponent >> bit & 1)                                                                                            \
                    NAMED(field##_multiply)(out + i, fixed, out + i, some);                                                         \
            }                                                                                                                       \
        }                                                                                                                           \
    }                                                                                                                               \
    static void NAMED(field##_evaluate)(const type *coefficients, size_t count, const type *points, type *out, size_t n)            \
    {                                                                                                                               \
        if (n)                                                                                                                      \
            memset(out, 0, n * sizeof *out);                                                                                        \
        for (size_t i = 0, some; i < n; i += some) {                                                                                \
            some = n - i < BATCH ? n - i : BATCH;                                                                                   \
            for (size_t k = count; k-- > 0;) {                                                                                      \
                NAMED(field##_multiply)(out + i, points + i, out + i, some);                                                        \
                for (size_t j = 0; j < some; j++)                                                                                   \
                    plus(out + i + j, coefficients + k);                                                                            \
            }                                                                                                                       \
        }                                                                                                                           \
    }
#define PLUS_128(sum, value) STORE(sum, XOR(LOAD(sum), LOAD(value)))
#define ONE_128 {{1, 0}}
POWER_AND_EVALUATE(g128, bf_u128, ONE_128, PLUS_128)

/* ---- p64: x^64 + x^4 + x^3 + x + 1, bit i for x^i ---- */

#define TAIL_64 0x1b
/* The remainder of a product, in the low half; the high half is what is left over. */
static inline V fold_64(V product)
{
    V tail = PAIR(0, TAIL_64), first = MUL(product, tail, 0x01);
    return XOR(product, XOR(first, MUL(first, tail, 0x01)));
}

#if defined(__AVX2__) && !defined(__aarch64__)
typedef __m256i W;
/* The remainders of four products: their low halves and their high halves are brought into vectors of their own. */
static inline W reduced_4(V p0, V p1, V p2, V p3)
{
    W even = _mm256_inserti128_si256(_mm256_castsi128_si256(p0), p2, 1);
    W odd = _mm256_inserti128_si256(_mm256_castsi128_si256(p1), p3, 1);
    W low = _mm256_unpacklo_epi64(even, odd), high = _mm256_unpackhi_epi64(even, odd);
    W spill = _mm256_xor_si256(_mm256_srli_epi64(high, 60), _mm256_xor_si256(_mm256_srli_epi64(high, 61), _mm256_srli_epi64(high, 63)));
    high = _mm256_xor_si256(high, spill);
    spill = _mm256_xor_si256(_mm256_slli_epi64(high, 1), _mm256_xor_si256(_mm256_slli_epi64(high, 3), _mm256_slli_epi64(high, 4)));
    return _mm256_xor_si256(_mm256_xor_si256(low, high), spill);
}
/* Four elements a turn: first_product and second_product of a vector of a and of what Y gives. The upper halves of the registers are
 * left clear, since code in the older encoding behind it would take several times as long. */
#define P64_TURNS(first_product, second_product, plus)                                                                              \
    for (; i + 4 <= n; i += 4) {                                                                                                    \
        V x0 = LOAD(a + i), x1 = LOAD(a + i + 2), y0 = Y(i), y1 = Y(i + 2);                                                         \
        W r = reduced_4(first_product(x0, y0), second_product(x0, y0), first_product(x1, y1), second_product(x1, y1));              \
        _mm256_storeu_si256((W *)(out + i), plus(r, _mm256_loadu_si256((const W *)(out + i))));                                     \
    }                                                                                                                               \
    _mm256_zeroupper();
#else
#define P64_TURNS(first_product, second_product, plus) /* one by one, in the loop behind it */
#endif
#define PLUS_OLD _mm256_xor_si256
#define ALONE(r, old) (r)
#define LOW_LOW(x, y) MUL(x, y, 0x00)
#define HIGH_HIGH(x, y) MUL(x, y, 0x11)
#define HIGH_LOW(x, y) MUL(x, y, 0x01)

KERNEL uint64_t NAMED(multiply_64)(uint64_t a, uint64_t b) { return LOW_WORD(fold_64(MUL(OF_WORD(a), OF_WORD(b), 0x00))); }

KERNEL void NAMED(p64_multiply)(const uint64_t *a, const uint64_t *b, uint64_t *out, size_t n)
{
    size_t i = 0;
#define Y(i) LOAD(b + (i))
    P64_TURNS(LOW_LOW, HIGH_HIGH, ALONE)
#undef Y
    for (; i < n; i++)
        STORE_WORD(out + i, fold_64(MUL(WORD_AT(a + i), WORD_AT(b + i), 0x00)));
}

KERNEL void NAMED(p64_multiply_by)(const uint64_t *a, uint64_t scalar, uint64_t *out, size_t n)
{
    V s = OF_WORD(scalar);
    size_t i = 0;
#define Y(i) s
    P64_TURNS(LOW_LOW, HIGH_LOW, ALONE)
    for (; i < n; i++)
        STORE_WORD(out + i, fold_64(MUL(WORD_AT(a + i), s, 0x00)));
}

KERNEL void NAMED(p64_add_scaled)(uint64_t *out, uint64_t scalar, const uint64_t *a, size_t n)
{
    V s = OF_WORD(scalar);
    size_t i = 0;
    P64_TURNS(LOW_LOW, HIGH_LOW, PLUS_OLD)
#undef Y
    for (; i < n; i++)
        STORE_WORD(out + i, XOR(WORD_AT(out + i), fold_64(MUL(WORD_AT(a + i), s, 0x00))));
}

KERNEL void NAMED(p64_square)(const uint64_t *a, uint64_t *out, size_t n)
{
    size_t i = 0;
#define Y(i) LOAD(a + (i))
    P64_TURNS(LOW_LOW, HIGH_HIGH, ALONE)
#undef Y
    for (; i < n; i++)
        STORE_WORD(out + i, fold_64(MUL(WORD_AT(a + i), WORD_AT(a + i), 0x00)));
}

KERNEL void NAMED(p64_dot_product)(const uint64_t *a, const uint64_t *b, size_t n, uint64_t *out)
{
    V even = ZERO, odd = even;
    size_t i = 0;
    for (; i + 4 <= n; i += 4) {
        V x = LOAD(a + i), y = LOAD(b + i), z = LOAD(a + i + 2), w = LOAD(b + i + 2);
        even = XOR(even, XOR(MUL(x, y, 0x00), MUL(z, w, 0x00)));
        odd = XOR(odd, XOR(MUL(x, y, 0x11), MUL(z, w, 0x11)));
    }
    for (; i < n; i++)
        even = XOR(even, MUL(WORD_AT(a + i), WORD_AT(b + i), 0x00));
    STORE_WORD(out, fold_64(XOR(even, odd)));
}

/* (a^(2^squarings)) b. */
static uint64_t NAMED(raised)(uint64_t a, int squarings, uint64_t b)
{
    for (int i = 0; i < squarings; i++)
        a = NAMED(multiply_64)(a, a);
    return NAMED(multiply_64)(a, b);
}

/* a^-1, as a^(2^64 - 2): rk is a^(2^k - 1). */
static uint64_t NAMED(inverse_one_64)(uint64_t a)
{
    uint64_t r2 = NAMED(raised)(a, 1, a), r3 = NAMED(raised)(r2, 1, a), r6 = NAMED(raised)(r3, 3, r3), r12 = NAMED(raised)(r6, 6, r6);
    uint64_t r24 = NAMED(raised)(r12, 12, r12), r48 = NAMED(raised)(r24, 24, r24), r60 = NAMED(raised)(r48, 12, r12);
    uint64_t r63 = NAMED(raised)(r60, 3, r3);
    return NAMED(multiply_64)(r63, r63);
}

static inline void inverses_of_four_64(const uint64_t x[4], uint64_t y[4])
{
    uint64_t p = NAMED(multiply_64)(x[0], x[1]), q = NAMED(multiply_64)(x[2], x[3]);
    uint64_t r = NAMED(inverse_one_64)(NAMED(multiply_64)(p, q)), of_p = NAMED(multiply_64)(r, q), of_q = NAMED(multiply_64)(r, p);
    y[0] = NAMED(multiply_64)(of_p, x[1]);
    y[1] = NAMED(multiply_64)(of_p, x[0]);
    y[2] = NAMED(multiply_64)(of_q, x[3]);
    y[3] = NAMED(multiply_64)(of_q, x[2]);
}

static void NAMED(inverse_rows_64)(const uint64_t *a, uint64_t *out, size_t rows)
{
    uint64_t before[BATCH][4], x[4], y[4];
    for (int c = 0; c < 4; c++)
        before[0][c] = x[c] = a[c] ^ (a[c] == 0);
    for (size_t i = 1; i < rows; i++)
        for (int c = 0; c < 4; c++)
            before[i][c] = x[c] = NAMED(multiply_64)(x[c], a[4 * i + c] ^ (a[4 * i + c] == 0));
    inverses_of_four_64(x, y);
    for (size_t i = rows; i-- > 0;)
        for (int c = 0; c < 4; c++) {
            uint64_t value = a[4 * i + c], is_zero = value == 0, w = i ? NAMED(multiply_64)(y[c], before[i - 1][c]) : y[c];
            y[c] = NAMED(multiply_64)(y[c], value ^ is_zero);
            out[4 * i + c] = w ^ is_zero;
        }
}

static void NAMED(p64_inverse)(const uint64_t *a, uint64_t *out, size_t n)
{
    size_t i = 0;
    while (n - i >= 16) {
        size_t rows = (n - i) / 4 < BATCH ? (n - i) / 4 : BATCH;
        NAMED(inverse_rows_64)(a + i, out + i, rows);
        i += 4 * rows;
    }
    for (; i < n; i++)
        out[i] = NAMED(inverse_one_64)(a[i]);
}

#define PLUS_64(sum, value) (*(sum) ^= *(value))
POWER_AND_EVALUATE(p64, uint64_t, 1, PLUS_64)

/* ---- t64 and t128, by changes of basis that look up bytes ---- */

static inline uint64_t mapped(const uint64_t (*t)[256], uint64_t a)
{
    uint64_t x = t[0][a & 255] ^ t[1][a >> 8 & 255], y = t[2][a >> 16 & 255] ^ t[3][a >> 24 & 255];
    uint64_t u = t[4][a >> 32 & 255] ^ t[5][a >> 40 & 255], v = t[6][a >> 48 & 255] ^ t[7][a >> 56];
    return (x ^ y) ^ (u ^ v);
}

static inline V from_tower(uint64_t a) { return OF_WORD(mapped(bf_kernel_table.from_tower, a)); }

static inline uint64_t to_tower(V a) { return mapped(bf_kernel_table.to_tower, LOW_WORD(a)); }

KERNEL void NAMED(t64_multiply)(const uint64_t *a, const uint64_t *b, uint64_t *out, size_t n)
{
    for (size_t i = 0; i < n; i++)
        out[i] = to_tower(fold_64(MUL(from_tower(a[i]), from_tower(b[i]), 0x00)));
}

KERNEL void NAMED(t128_multiply)(const bf_u128 *a, const bf_u128 *b, bf_u128 *out, size_t n)
{
    V root = OF_WORD(bf_kernel_table.root);
    for (size_t i = 0; i < n; i++) {
        V a0 = from_tower(a[i].words[0]), a1 = from_tower(a[i].words[1]), b0 = from_tower(b[i].words[0]), b1 = from_tower(b[i].words[1]);
        V low = MUL(a0, b0, 0x00), high = MUL(a1, b1, 0x00), middle = XOR(MUL(a0, b1, 0x00), MUL(a1, b0, 0x00));
        middle = XOR(middle, MUL(fold_64(high), root, 0x00));
        uint64_t w0 = to_tower(fold_64(XOR(low, high))), w1 = to_tower(fold_64(middle));
        out[i].words[0] = w0;
        out[i].words[1] = w1;
    }
}

/* ---- hashes: modulo x^128 + x^127 + x^126 + x^121 + 1, products divided by x^128 (RFC 8452) ---- */

#define TOP 0xc200000000000000
/* x^128 modulo the polynomial twice more, and x: the product by it is that by x alone. */
#define POWER_129 PAIR(0x4600000000000000, 3)
/* x^127: the product by it is that by 1/x alone. */
#define POWER_127 PAIR(0x8000000000000000, 0)
#define GROUP 8

/* high + low x^-64, where the lowest 64 bits of low are brought up. */
static inline V fold_up(V low, V high) { return XOR(high, XOR(SWAP(low), MUL(low, PAIR(0, TOP), 0x00))); }

KERNEL V NAMED(polyval_multiply)(V a, V b)
{
    V low = MUL(a, b, 0x00), high = MUL(a, b, 0x11), middle = XOR(MUL(a, b, 0x01), MUL(a, b, 0x10));
    return fold_up(fold_up(low, middle), high);
}

#define AS_IT_IS(v) (v)
#define BLOCKS(name, order)                                                                                                         \
    KERNEL void NAMED(name)(V * hash, const V *powers, const uint8_t *blocks, size_t n)                                             \
    {                                                                                                                               \
        V x = XOR(*hash, order(LOAD(blocks))), low = MUL(x, powers[0], 0x00), high = MUL(x, powers[0], 0x11);                       \
        V middle = MUL(x, powers[0], 0x01), more = MUL(x, powers[0], 0x10);                                                         \
        for (size_t i = 1; i < n; i++) {                                                                                            \
            x = order(LOAD(blocks + 16 * i));                                                                                       \
            low = XOR(low, MUL(x, powers[i], 0x00));                                                                                \
            high = XOR(high, MUL(x, powers[i], 0x11));                                                                              \
            middle = XOR(middle, MUL(x, powers[i], 0x01));                                                                          \
            more = XOR(more, MUL(x, powers[i], 0x10));                                                                              \
        }                                                                                                                           \
        *hash = fold_up(fold_up(low, XOR(middle, more)), high);                                                                     \
    }
BLOCKS(ghash_blocks, REVERSED)
BLOCKS(polyval_blocks, AS_IT_IS)

typedef void (*sum_of_blocks)(V *hash, const V *powers, const uint8_t *blocks, size_t n);
/* The hash goes on over a message, by groups of blocks; `some` is one of the two above. */
static V NAMED(hash)(V key, V hash, const uint8_t *message, size_t length, sum_of_blocks some)
{
    V powers[GROUP]; /* the highest first, so that n blocks take the last n */
    size_t blocks = length / 16 + (length % 16 != 0), n;
    powers[GROUP - 1] = key;
    for (size_t i = 1; i < GROUP && i < blocks; i++)
        powers[GROUP - 1 - i] = NAMED(polyval_multiply)(powers[GROUP - i], key);
    for (; length >= 16 * GROUP; message += 16 * GROUP, length -= 16 * GROUP)
        some(&hash, powers, message, GROUP);
    n = length / 16;
    if (n)
        some(&hash, powers + GROUP - n, message, n);
    if (length & 15) {
        uint8_t last[16] = {0};
        memcpy(last, message + 16 * n, length & 15);
        some(&hash, powers + GROUP - 1, last, 1);
    }
    return hash;
}

/* x times an element. */
static V NAMED(times_x)(V a) { return NAMED(polyval_multiply)(a, POWER_129); }

/* GHASH is POLYVAL of blocks whose bytes are reversed, under x times the key whose bytes are reversed (RFC 8452, appendix A). */
static void NAMED(ghash)(const uint8_t key[16], const uint8_t *message, size_t length, uint8_t hash[16])
{
    V multiplier = NAMED(times_x)(REVERSED(LOAD(key)));
    V sum = NAMED(hash)(multiplier, REVERSED(LOAD(hash)), message, length, NAMED(ghash_blocks));
    STORE(hash, REVERSED(sum));
}

static void NAMED(polyval)(const uint8_t key[16], const uint8_t *message, size_t length, uint8_t hash[16])
{
    STORE(hash, NAMED(hash)(LOAD(key), LOAD(hash), message, length, NAMED(polyval_blocks)));
}

/* ---- hashes in pieces ---- */

/* A state in words, as the proved functions write it: the first four powers of an element of g128, the sum over the whole blocks so far,
 * also of g128, the bytes after these blocks, and zeros, and how many of them there are. */
enum { SUM = 8, BLOCK = 10, USED = 12 };
_Static_assert(sizeof(bf_ghash_state) == 8 * (USED + 1) && sizeof(bf_polyval_state) == 8 * (USED + 1), "a state");

/* The bits of a word in the other order. */
static inline uint64_t reversed_bits(uint64_t w)
{
    w = (w >> 1 & 0x5555555555555555) | (w & 0x5555555555555555) << 1;
    w = (w >> 2 & 0x3333333333333333) | (w & 0x3333333333333333) << 2;
    w = (w >> 4 & 0x0f0f0f0f0f0f0f0f) | (w & 0x0f0f0f0f0f0f0f0f) << 4;
    return __builtin_bswap64(w);
}

/* Blocks are elements of g128 by their bits in the other order, with which x times the product here is the product there. */
static inline V of_element(const uint64_t words[2]) { return PAIR(reversed_bits(words[0]), reversed_bits(words[1])); }

static inline void write_element(uint64_t words[2], V v)
{
    words[0] = reversed_bits(HIGH_WORD(v));
    words[1] = reversed_bits(LOW_WORD(v));
}

/* The state of the empty message; multiplier, what blocks are multiplied by, is x times the first power. */
static void NAMED(begin)(uint64_t *state, V power, V multiplier)
{
    memset(state, 0, sizeof(bf_ghash_state));
    for (int i = 0; i < SUM; i += 2) {
        write_element(state + i, power);
        power = NAMED(polyval_multiply)(power, multiplier);
    }
}

/* Adds bytes to the message. Of a state of other content every number of bytes is taken as one below 16. */
static void NAMED(update)(uint64_t *state, const uint8_t *message, size_t length, sum_of_blocks some)
{
    uint8_t *block = (uint8_t *)(state + BLOCK);
    size_t used = state[USED] % 16, room = 16 - used;
    if (length >= room) {
        V multiplier = NAMED(times_x)(of_element(state)), sum = of_element(state + SUM);
        if (used) {
            memcpy(block + used, message, room);
            sum = NAMED(hash)(multiplier, sum, block, 16, some);
            message += room;
            length -= room;
            used = 0;
        }
        sum = NAMED(hash)(multiplier, sum, message, length / 16 * 16, some);
        write_element(state + SUM, sum);
        message += length / 16 * 16;
        length %= 16;
    }
    if (length)
        memcpy(block + used, message, length);
    state[USED] = used + length;
    memset(block + state[USED], 0, 16 - state[USED]);
}

static void NAMED(pad)(uint64_t *state, sum_of_blocks some)
{
    static const uint8_t zeros[16];
    NAMED(update)(state, zeros, -state[USED] % 16, some);
}

/* The hash of the message, which is then empty. */
static V NAMED(take)(uint64_t *state, sum_of_blocks some)
{
    NAMED(pad)(state, some);
    V hash = of_element(state + SUM);
    memset(state + SUM, 0, 16);
    return hash;
}

static void NAMED(ghash_init)(uint64_t *state, const uint8_t key[16])
{
    V power = REVERSED(LOAD(key));
    NAMED(begin)(state, power, NAMED(times_x)(power));
}

static void NAMED(polyval_init)(uint64_t *state, const uint8_t key[16])
{
    V multiplier = LOAD(key);
    NAMED(begin)(state, NAMED(polyval_multiply)(multiplier, POWER_127), multiplier);
}

#define IN_PIECES(which, order)                                                                                                     \
    static void NAMED(which##_update)(uint64_t * state, const uint8_t *message, size_t length)                                      \
    {                                                                                                                               \
        NAMED(update)(state, message, length, NAMED(which##_blocks));                                                               \
    }                                                                                                                               \
    static void NAMED(which##_pad)(uint64_t * state) { NAMED(pad)(state, NAMED(which##_blocks)); }                                  \
    static void NAMED(which##_final)(uint64_t * state, uint8_t hash[16])                                                            \
    {                                                                                                                               \
        V sum = NAMED(take)(state, NAMED(which##_blocks));                                                                          \
        STORE(hash, order(sum));                                                                                                    \
    }
IN_PIECES(ghash, REVERSED)
IN_PIECES(polyval, AS_IT_IS)

#define IN_TABLE(name) .name = NAMED(name)
const bf_kernels NAMED(bf_kernels) = {
    IN_TABLE(multiply), IN_TABLE(square), IN_TABLE(polyval_multiply), IN_TABLE(power_map), IN_TABLE(multiply_64),
    IN_TABLE(g128_multiply), IN_TABLE(g128_multiply_by), IN_TABLE(g128_add_scaled), IN_TABLE(g128_dot_product), IN_TABLE(g128_square),
    IN_TABLE(g128_butterfly_forward), IN_TABLE(g128_butterfly_inverse), IN_TABLE(p64_multiply), IN_TABLE(p64_multiply_by),
    IN_TABLE(p64_add_scaled), IN_TABLE(p64_dot_product), IN_TABLE(p64_square), IN_TABLE(t128_multiply), IN_TABLE(t64_multiply),
    IN_TABLE(ghash_blocks), IN_TABLE(polyval_blocks), IN_TABLE(stages_forward), IN_TABLE(stages_inverse), IN_TABLE(g128_inverse),
    IN_TABLE(g128_power), IN_TABLE(g128_evaluate), IN_TABLE(p64_inverse), IN_TABLE(p64_power), IN_TABLE(p64_evaluate),
    IN_TABLE(transform), IN_TABLE(inverse_transform), IN_TABLE(low_stages), IN_TABLE(ghash), IN_TABLE(polyval),
    IN_TABLE(ghash_init), IN_TABLE(ghash_update), IN_TABLE(ghash_pad), IN_TABLE(ghash_final), IN_TABLE(polyval_init),
    IN_TABLE(polyval_update), IN_TABLE(polyval_pad), IN_TABLE(polyval_final),
};
