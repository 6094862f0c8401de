/* What callers call: each function of binary_field_hardware.h tests its lengths and calls a kernel. It calls the proved function instead
 * where the group does not go by kernels, and where the lengths do not fit, whose status is then that function's. */
#include "hardware.h"
#include <string.h>

/* Up to as many elements a product of the tower goes by a kernel; slices gain little, and go by the proved function. */
enum { MOST_OF_TOWER = 8 };
enum { MOST_STAGES = 40 };

/* The body of a call: the kernel where the group has one and the lengths fit, and else the proved function of the same name. */
#define BODY(group, fits, name, proved, call)                                                                                       \
    {                                                                                                                               \
        _Static_assert(__builtin_types_compatible_p(__typeof__(bf_hw_##name), __typeof__(bf_##name)), #name);                       \
        const bf_kernels *kernels = bf_kernels_in_use(group);                                                                              \
        if (!kernels || !(fits))                                                                                                    \
            return bf_##name proved;                                                                                                \
        kernels->call;                                                                                                              \
        return BF_OK;                                                                                                               \
    }

/* ---- what both fields have; SCALAR is how a scalar is passed ---- */

#define TWO_TO_ONE(group, name, E, kernel, fits)                                                                                    \
    uint32_t bf_hw_##name(const E *a, size_t a_length, const E *b, size_t b_length, E *out, size_t out_length)                      \
    BODY(group, a_length == b_length && a_length == out_length && (fits), name, (a, a_length, b, b_length, out, out_length),        \
         kernel(a, b, out, out_length))
#define INTO(group, name, E, kernel, fits)                                                                                          \
    uint32_t bf_hw_##name(E *a, size_t a_length, const E *b, size_t b_length)                                                       \
    BODY(group, a_length == b_length && (fits), name, (a, a_length, b, b_length), kernel(a, b, a, a_length))
#define ONE_TO_ONE(group, name, E, kernel)                                                                                          \
    uint32_t bf_hw_##name(const E *a, size_t a_length, E *out, size_t out_length)                                                   \
    BODY(group, a_length == out_length, name, (a, a_length, out, out_length), kernel(a, out, out_length))
#define IN_PLACE(group, name, E, kernel)                                                                                            \
    uint32_t bf_hw_##name(E *a, size_t a_length) BODY(group, 1, name, (a, a_length), kernel(a, a, a_length))
#define BY_SCALAR(group, field, E, SCALAR)                                                                                          \
    uint32_t bf_hw_##field##_multiply_by(const E *a, size_t a_length, SCALAR scalar, E *out, size_t out_length)                     \
    BODY(group, a_length == out_length, field##_multiply_by, (a, a_length, scalar, out, out_length),                                \
         field##_multiply_by(a, scalar, out, out_length))                                                                           \
    uint32_t bf_hw_##field##_multiply_by_in_place(E *a, size_t a_length, SCALAR scalar)                                             \
    BODY(group, 1, field##_multiply_by_in_place, (a, a_length, scalar), field##_multiply_by(a, scalar, a, a_length))                \
    uint32_t bf_hw_##field##_add_scaled(E *sums, size_t sums_length, SCALAR scalar, const E *a, size_t a_length)                    \
    BODY(group, sums_length == a_length, field##_add_scaled, (sums, sums_length, scalar, a, a_length),                              \
         field##_add_scaled(sums, scalar, a, a_length))
#define POWERS(group, field, E)                                                                                                     \
    uint32_t bf_hw_##field##_power(const E *a, size_t a_length, uint64_t exponent, E *out, size_t out_length)                       \
    BODY(group, a_length == out_length, field##_power, (a, a_length, exponent, out, out_length),                                    \
         field##_power(a, exponent, out, out_length))                                                                               \
    uint32_t bf_hw_##field##_power_in_place(E *a, size_t a_length, uint64_t exponent)                                               \
    BODY(group, 1, field##_power_in_place, (a, a_length, exponent), field##_power(a, exponent, a, a_length))
#define SUMS_OF_PRODUCTS(group, field, E)                                                                                           \
    uint32_t bf_hw_##field##_dot_product(const E *a, size_t a_length, const E *b, size_t b_length, E *sum)                          \
    BODY(group, a_length == b_length, field##_dot_product, (a, a_length, b, b_length, sum),                                         \
         field##_dot_product(a, b, a_length, sum))                                                                                  \
    uint32_t bf_hw_##field##_evaluate(const E *coefficients, size_t count, const E *points, size_t points_length, E *out,           \
                                      size_t out_length)                                                                            \
    BODY(group, points_length == out_length, field##_evaluate, (coefficients, count, points, points_length, out, out_length),       \
         field##_evaluate(coefficients, count, points, out, out_length))
#define FIELD(group, field, E, SCALAR)                                                                                              \
    TWO_TO_ONE(group, field##_multiply, E, field##_multiply, 1)                                                                     \
    INTO(group, field##_multiply_in_place, E, field##_multiply, 1)                                                                  \
    ONE_TO_ONE(group, field##_square, E, field##_square)                                                                            \
    ONE_TO_ONE(group, field##_inverse, E, field##_inverse)                                                                          \
    ONE_TO_ONE(group, field##_batch_inverse, E, field##_inverse)                                                                    \
    IN_PLACE(group, field##_square_in_place, E, field##_square)                                                                     \
    IN_PLACE(group, field##_inverse_in_place, E, field##_inverse)                                                                   \
    BY_SCALAR(group, field, E, SCALAR)                                                                                              \
    POWERS(group, field, E)                                                                                                         \
    SUMS_OF_PRODUCTS(group, field, E)
FIELD(G128, g128, bf_u128, const bf_u128 *)
FIELD(P64, p64, uint64_t, uint64_t)
TWO_TO_ONE(TOWERS, t64_multiply, uint64_t, t64_multiply, out_length <= MOST_OF_TOWER)
TWO_TO_ONE(TOWERS, t128_multiply, bf_u128, t128_multiply, out_length <= MOST_OF_TOWER)
INTO(TOWERS, t64_multiply_in_place, uint64_t, t64_multiply, a_length <= MOST_OF_TOWER)
INTO(TOWERS, t128_multiply_in_place, bf_u128, t128_multiply, a_length <= MOST_OF_TOWER)

/* ---- transforms ---- */

#define BUTTERFLY(name)                                                                                                             \
    uint32_t bf_hw_##name(bf_u128 *low, size_t low_length, bf_u128 *high, size_t high_length, const bf_u128 *scalar)                \
    BODY(G128, low_length == high_length, name, (low, low_length, high, high_length, scalar), name(low, high, scalar, low_length))
BUTTERFLY(g128_butterfly_forward)
BUTTERFLY(g128_butterfly_inverse)

/* Whether there is a run, and what the proved function asks of the lengths holds; runs that stand beyond 2^59 are left to it. */
static int are_runs(size_t length, size_t shifts, size_t basis, size_t first)
{
    size_t runs = length / 16, bits = basis - 3;
    return length && length % 16 == 0 && shifts == 4 && basis >= 3 && basis <= 128 && first < (size_t)1 << 59 && runs < (size_t)1 << 59 &&
           (bits >= 60 || first + runs <= (size_t)1 << bits);
}

uint32_t bf_hw_g128_low_stages(
    bf_u128 *values, size_t values_length, const bf_u128 *shifts, size_t shifts_length, const bf_u128 *basis, size_t basis_length,
    size_t first_run)
BODY(G128, are_runs(values_length, shifts_length, basis_length, first_run), g128_low_stages,
     (values, values_length, shifts, shifts_length, basis, basis_length, first_run),
     low_stages(values, shifts, basis, basis_length, first_run, values_length / 16))

static int is_power_of_two(size_t n) { return n && (n & (n - 1)) == 0 && n >> MOST_STAGES <= 1; }

uint32_t bf_hw_g128_transform(bf_u128 *values, size_t values_length, const bf_u128 *shift)
BODY(G128, is_power_of_two(values_length), g128_transform, (values, values_length, shift),
     transform(values, __builtin_ctzll(values_length), shift))

uint32_t bf_hw_g128_inverse_transform(bf_u128 *values, size_t values_length, const bf_u128 *shift)
BODY(G128, is_power_of_two(values_length), g128_inverse_transform, (values, values_length, shift),
     inverse_transform(values, __builtin_ctzll(values_length), shift))

/* ---- hashes ---- */

static void write_length(uint8_t out[8], uint64_t bits)
{
    bits = __builtin_bswap64(bits);
    memcpy(out, &bits, 8);
}

/* The block of two lengths in bytes. */
static void write_lengths(uint8_t block[16], uint64_t associated_length, uint64_t ciphertext_length)
{
    write_length(block, 8 * associated_length);
    write_length(block + 8, 8 * ciphertext_length);
}

#define HASH(which)                                                                                                                 \
    uint32_t bf_hw_tag_##which(const uint8_t *key, size_t key_length, const uint8_t *message, size_t length, uint8_t *hash,         \
                               size_t hash_length)                                                                                  \
    BODY(HASHES, key_length == 16 && hash_length == 16, tag_##which, (key, key_length, message, length, hash, hash_length),         \
         which(key, message, length, memset(hash, 0, 16)))                                                                          \
    uint32_t bf_hw_tag_##which##_init(bf_##which##_state *state, const uint8_t *key, size_t key_length)                             \
    BODY(HASHES, key_length == 16, tag_##which##_init, (state, key, key_length), which##_init(state->words, key))                   \
    uint32_t bf_hw_tag_##which##_update(bf_##which##_state *state, const uint8_t *message, size_t length)                           \
    BODY(HASHES, 1, tag_##which##_update, (state, message, length), which##_update(state->words, message, length))                  \
    uint32_t bf_hw_tag_##which##_pad(bf_##which##_state *state)                                                                     \
    BODY(HASHES, 1, tag_##which##_pad, (state), which##_pad(state->words))                                                          \
    uint32_t bf_hw_tag_##which##_final(bf_##which##_state *state, uint8_t *hash, size_t hash_length)                                \
    BODY(HASHES, hash_length == 16, tag_##which##_final, (state, hash, hash_length), which##_final(state->words, hash))
HASH(ghash)
HASH(polyval)

uint32_t bf_hw_tag_gcm_ghash(
    const uint8_t *key, size_t key_length, const uint8_t *associated, size_t associated_length, const uint8_t *ciphertext,
    size_t ciphertext_length, uint8_t *hash, size_t hash_length)
{
    uint8_t block[16];
    const bf_kernels *kernels = bf_kernels_in_use(HASHES);
    if (!kernels || key_length != 16 || hash_length != 16 || associated_length >> 61 || ciphertext_length >> 61)
        return bf_tag_gcm_ghash(key, key_length, associated, associated_length, ciphertext, ciphertext_length, hash, hash_length);
    memset(hash, 0, 16);
    kernels->ghash(key, associated, associated_length, hash);
    kernels->ghash(key, ciphertext, ciphertext_length, hash);
    write_lengths(block, associated_length, ciphertext_length);
    kernels->ghash(key, block, 16, hash);
    return BF_OK;
}

uint32_t bf_hw_tag_gcm_ghash_final(
    bf_ghash_state *state, size_t associated_length, size_t ciphertext_length, uint8_t *hash, size_t hash_length)
{
    uint8_t block[16];
    const bf_kernels *kernels = bf_kernels_in_use(HASHES);
    if (!kernels || hash_length != 16 || associated_length >> 61 || ciphertext_length >> 61)
        return bf_tag_gcm_ghash_final(state, associated_length, ciphertext_length, hash, hash_length);
    write_lengths(block, associated_length, ciphertext_length);
    kernels->ghash_pad(state->words);
    kernels->ghash_update(state->words, block, 16);
    kernels->ghash_final(state->words, hash);
    return BF_OK;
}
