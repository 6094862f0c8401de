/* What the files of hardware/ share: the kernels of one build as a table of functions, what they look up, and the comparisons.
 *
 * Nothing here is proved. docs/THEOREMS.md, "By tests alone", says what stands behind the kernels. */
#ifndef BF_HARDWARE_H
#define BF_HARDWARE_H
#include "binary_field_hardware.h"
#include "vectors.h"

#pragma GCC visibility push(hidden)
enum { CANTOR_VECTORS = 44, MOST_STEPS = 65, MAP_COUNT = 5 };

/* A scalar s of the field of GHASH, and s x^64. */
typedef bf_u128 scalar_pair[2];
/* steps[0][k] is the sum of the elements 0 to k of a basis, and steps[1][k] that of the elements 1 to k + 1. From block k of a stage of a
 * transform to the next, its scalar grows by a sum that begins at element 0, and the scalar of each second block of the stage below by
 * one that begins at element 1. */
typedef scalar_pair stage_steps[2][MOST_STEPS];

/* What kernels look up, written by what compares a group, from what the proved functions give; 0 before. */
typedef struct {
    uint64_t from_tower[8][256], to_tower[8][256]; /* images of t64 in p64 and back, by a byte at each place */
    uint64_t root;                                 /* of t64, as an element of p64: the level of 128 bits has X^2 = root X + 1 */
    bf_u128 maps[MAP_COUNT][32][16];               /* x^(2^k) in g128 for the k of bf_map_squarings, by half a byte at each place */
    bf_u128 vectors[CANTOR_VECTORS];               /* Cantor vectors in g128 */
    stage_steps steps;                             /* of the basis that begins with Cantor vector 1 */
} bf_kernel_tables;
extern bf_kernel_tables bf_kernel_table;
static const int bf_map_squarings[MAP_COUNT] = {3, 7, 14, 28, 63};

/* The kernels as one build made them. n counts elements, or blocks of 16 bytes; a result may stand where an operand does. */
typedef struct {
    /* In registers: what chains call. */
    V (*multiply)(V a, V b);
    V (*square)(V a);
    V (*polyval_multiply)(V a, V b); /* a b x^-128 modulo x^128 + x^127 + x^126 + x^121 + 1 (RFC 8452, section 3) */
    V (*power_map)(int which, V a);  /* of bf_map_squarings */
    uint64_t (*multiply_64)(uint64_t a, uint64_t b);
    /* Slices. */
    void (*g128_multiply)(const bf_u128 *a, const bf_u128 *b, bf_u128 *out, size_t n);
    void (*g128_multiply_by)(const bf_u128 *a, const bf_u128 *scalar, bf_u128 *out, size_t n);
    void (*g128_add_scaled)(bf_u128 *sums, const bf_u128 *scalar, const bf_u128 *values, size_t n);
    void (*g128_dot_product)(const bf_u128 *a, const bf_u128 *b, size_t n, bf_u128 *out);
    void (*g128_square)(const bf_u128 *a, bf_u128 *out, size_t n);
    void (*g128_butterfly_forward)(bf_u128 *low, bf_u128 *high, const bf_u128 *scalar, size_t n);
    void (*g128_butterfly_inverse)(bf_u128 *low, bf_u128 *high, const bf_u128 *scalar, size_t n);
    void (*p64_multiply)(const uint64_t *a, const uint64_t *b, uint64_t *out, size_t n);
    void (*p64_multiply_by)(const uint64_t *a, uint64_t scalar, uint64_t *out, size_t n);
    void (*p64_add_scaled)(uint64_t *sums, uint64_t scalar, const uint64_t *values, size_t n);
    void (*p64_dot_product)(const uint64_t *a, const uint64_t *b, size_t n, uint64_t *out);
    void (*p64_square)(const uint64_t *a, uint64_t *out, size_t n);
    void (*t128_multiply)(const bf_u128 *a, const bf_u128 *b, bf_u128 *out, size_t n);
    void (*t64_multiply)(const uint64_t *a, const uint64_t *b, uint64_t *out, size_t n);
    /* The sum of the products, by polyval_multiply, of n blocks and powers, before which *hash is added to the first block; n from 1. */
    void (*ghash_blocks)(V *hash, const V *powers, const uint8_t *blocks, size_t n);
    void (*polyval_blocks)(V *hash, const V *powers, const uint8_t *blocks, size_t n);
    /* Two stages of a transform over blocks of four rows of n values, the first of which is block `first`: scalars has those of that block,
     * of the upper stage and of the first half in the lower one. */
    void (*stages_forward)(bf_u128 *values, const scalar_pair scalars[2], size_t first, size_t blocks, size_t n, const stage_steps steps);
    void (*stages_inverse)(bf_u128 *values, const scalar_pair scalars[2], size_t first, size_t blocks, size_t n, const stage_steps steps);
    /* Chains: what calls the functions above, and multiplies in no other way. */
    void (*g128_inverse)(const bf_u128 *a, bf_u128 *out, size_t n);
    void (*g128_power)(const bf_u128 *a, uint64_t exponent, bf_u128 *out, size_t n);
    void (*g128_evaluate)(const bf_u128 *coefficients, size_t count, const bf_u128 *points, bf_u128 *out, size_t n);
    void (*p64_inverse)(const uint64_t *a, uint64_t *out, size_t n);
    void (*p64_power)(const uint64_t *a, uint64_t exponent, uint64_t *out, size_t n);
    void (*p64_evaluate)(const uint64_t *coefficients, size_t count, const uint64_t *points, uint64_t *out, size_t n);
    void (*transform)(bf_u128 *values, int m, const bf_u128 *shift); /* 2^m values, m to 40 */
    void (*inverse_transform)(bf_u128 *values, int m, const bf_u128 *shift);
    /* basis is read as far as the bits of the last run reach; first + runs is below 2^60. */
    void (*low_stages)(bf_u128 *values, const bf_u128 shifts[4], const bf_u128 *basis, size_t length, size_t first, size_t runs);
    /* The hash of the blocks before goes on over the message, of which zeros fill the last block. */
    void (*ghash)(const uint8_t key[16], const uint8_t *message, size_t length, uint8_t hash[16]);
    void (*polyval)(const uint8_t key[16], const uint8_t *message, size_t length, uint8_t hash[16]);
    /* In pieces, by the words of a state of the same bytes that the proved functions write; any other words do no harm. */
    void (*ghash_init)(uint64_t *state, const uint8_t key[16]);
    void (*ghash_update)(uint64_t *state, const uint8_t *message, size_t length);
    void (*ghash_pad)(uint64_t *state);
    void (*ghash_final)(uint64_t *state, uint8_t hash[16]);
    void (*polyval_init)(uint64_t *state, const uint8_t key[16]);
    void (*polyval_update)(uint64_t *state, const uint8_t *message, size_t length);
    void (*polyval_pad)(uint64_t *state);
    void (*polyval_final)(uint64_t *state, uint8_t hash[16]);
} bf_kernels;

/* The builds of kernels.c. */
#ifdef __aarch64__
extern const bf_kernels bf_kernels_neon;
#else
extern const bf_kernels bf_kernels_sse, bf_kernels_avx2;
#endif

/* Each fills the tables of a group and compares its kernels with the proved functions: the name of the first kernel that differs, or
 * NULL. A proved function that refuses counts as a difference. */
const char *bf_compare_g128(const bf_kernels *kernels);
const char *bf_compare_p64(const bf_kernels *kernels);
const char *bf_compare_hashes(const bf_kernels *kernels);
const char *bf_compare_towers(const bf_kernels *kernels);
/* A group by the place of its bit, and its kernels, or NULL where it goes by the proved functions. */
enum { G128, P64, HASHES, TOWERS, GROUPS };
const bf_kernels *bf_kernels_in_use(int group);
#pragma GCC visibility pop
#endif
