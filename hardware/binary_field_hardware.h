/* Functions of libbinary_field by the processor's carryless multiply instruction, beside the proved ones.
 *
 * Written by scripts/make_hardware.py; do not edit.
 *
 * These functions are not proved. Before the first call they are compared in this process with the proved ones on a
 * basis, which determines a bilinear map; that they are bilinear was read off their machine code when they were built.
 * Schedules (transforms, hashes of many blocks) are tested. Not complete are what has degree 3 (two stages of a
 * transform at once), that places of a slice do not depend on each other, and schedules: these are compared at drawn
 * operands.
 *
 * Each has the parameters, the statuses and the conditions of the function of binary_field.h whose name has no hw.
 * Until bf_hw_begin was called for its group, and where that did not give BF_OK, it is that proved function; and so it
 * is for lengths that do not fit. The functions of binary_field.h stay proved, whatever a program asks for here. A hash
 * in pieces has the same bytes by either, so that each goes on with what the other left.
 */
#ifndef BINARY_FIELD_HARDWARE_H
#define BINARY_FIELD_HARDWARE_H

#include <binary_field.h>

#ifdef __cplusplus
extern "C" {
#endif

/* The processor has no carryless multiply instruction. */
#define BF_NO_HARDWARE 32u
/* A kernel differs from a proved function. */
#define BF_DIFFERENT 33u

/* Groups of functions, of which a program asks for one or more. */
#define BF_HW_G128 1u /* the field of GHASH */
#define BF_HW_P64 2u /* GF(2)[x] modulo x^64 + x^4 + x^3 + x + 1 */
#define BF_HW_HASHES 4u /* GHASH and POLYVAL */
#define BF_HW_TOWERS 8u /* single products of the levels of 64 and 128 bits of the tower */
#define BF_HW_ALL 15u

/* Compares the kernels of each of these groups, which takes 1 to 3 ms a group and is done once in a process, and has
 * the group's functions go by them from then on. BF_OK: all of the groups go by kernels. BF_NO_HARDWARE: the
 * processor has not the instructions. BF_DIFFERENT: of a group that was asked for a kernel differs, and the group stays
 * with the proved functions. Threads may call it at the same time. Other bits than those of groups are not read. */
uint32_t bf_hw_begin(uint32_t groups) BF_CHECKED;

/* The groups that go by kernels now. */
uint32_t bf_hw_groups(void);

/* ----------------------------------------------------------------------------------------------------------------- */
/* BF_HW_G128: the field of GHASH. */

/* As bf_g128_multiply. products: the product of the elements at each place. */
uint32_t bf_hw_g128_multiply(
    const bf_u128 *left, size_t left_length, const bf_u128 *right, size_t right_length,
    bf_u128 *products, size_t products_length) BF_CHECKED;

/* As bf_g128_multiply_by. products: the product of each element and the scalar. */
uint32_t bf_hw_g128_multiply_by(
    const bf_u128 *values, size_t values_length, const bf_u128 *scalar,
    bf_u128 *products, size_t products_length) BF_CHECKED BF_NONNULL(3);

/* As bf_g128_add_scaled. Adds to each element of sums the scalar times the value at its place. */
uint32_t bf_hw_g128_add_scaled(
    bf_u128 *sums, size_t sums_length, const bf_u128 *scalar,
    const bf_u128 *values, size_t values_length) BF_CHECKED BF_NONNULL(3);

/* As bf_g128_square. squares: the square of each element. */
uint32_t bf_hw_g128_square(
    const bf_u128 *values, size_t values_length, bf_u128 *squares, size_t squares_length) BF_CHECKED;

/* As bf_g128_inverse. inverses: the inverse of each element, and 0 for 0. */
uint32_t bf_hw_g128_inverse(
    const bf_u128 *values, size_t values_length, bf_u128 *inverses, size_t inverses_length) BF_CHECKED;

/* As bf_g128_batch_inverse. inverses: the same as inverse. */
uint32_t bf_hw_g128_batch_inverse(
    const bf_u128 *values, size_t values_length, bf_u128 *inverses, size_t inverses_length) BF_CHECKED;

/* As bf_g128_power. powers: each element to the power of the exponent; to the power 0 it is 1. */
uint32_t bf_hw_g128_power(
    const bf_u128 *values, size_t values_length, uint64_t exponent,
    bf_u128 *powers, size_t powers_length) BF_CHECKED;

/* As bf_g128_dot_product. sum: the sum of the products at each place, 0 of none. */
uint32_t bf_hw_g128_dot_product(
    const bf_u128 *left, size_t left_length, const bf_u128 *right, size_t right_length,
    bf_u128 *sum) BF_CHECKED BF_NONNULL(5);

/* As bf_g128_evaluate. values: the value at each point of the polynomial with these coefficients, the constant one
 * first; any number of coefficients. */
uint32_t bf_hw_g128_evaluate(
    const bf_u128 *coefficients, size_t coefficients_length, const bf_u128 *points, size_t points_length,
    bf_u128 *values, size_t values_length) BF_CHECKED;

/* As bf_g128_multiply_in_place. Multiplies each element of products by the value at its place. */
uint32_t bf_hw_g128_multiply_in_place(
    bf_u128 *products, size_t products_length, const bf_u128 *values, size_t values_length) BF_CHECKED;

/* As bf_g128_multiply_by_in_place. Multiplies each element by the scalar. */
uint32_t bf_hw_g128_multiply_by_in_place(
    bf_u128 *values, size_t values_length, const bf_u128 *scalar) BF_CHECKED BF_NONNULL(3);

/* As bf_g128_square_in_place. Squares each element. */
uint32_t bf_hw_g128_square_in_place(
    bf_u128 *values, size_t values_length) BF_CHECKED;

/* As bf_g128_inverse_in_place. Leaves the inverse of each element, and 0 of 0. */
uint32_t bf_hw_g128_inverse_in_place(
    bf_u128 *values, size_t values_length) BF_CHECKED;

/* As bf_g128_power_in_place. Raises each element to the power of the exponent; to the power 0 it is 1. */
uint32_t bf_hw_g128_power_in_place(
    bf_u128 *values, size_t values_length, uint64_t exponent) BF_CHECKED;

/* As bf_g128_butterfly_forward. low += scalar * high, and then high += low, at each place. */
uint32_t bf_hw_g128_butterfly_forward(
    bf_u128 *low, size_t low_length, bf_u128 *high, size_t high_length,
    const bf_u128 *scalar) BF_CHECKED BF_NONNULL(5);

/* As bf_g128_butterfly_inverse. high += low, and then low += scalar * high, at each place. */
uint32_t bf_hw_g128_butterfly_inverse(
    bf_u128 *low, size_t low_length, bf_u128 *high, size_t high_length,
    const bf_u128 *scalar) BF_CHECKED BF_NONNULL(5);

/* As bf_g128_low_stages. The four lowest stages of an additive transform over runs of sixteen values, the first of
 * which is run first_run; four shifts, and a basis of 3 to 128 elements, 2 to the power of three less than which
 * is at least the number behind the last run. */
uint32_t bf_hw_g128_low_stages(
    bf_u128 *values, size_t values_length, const bf_u128 *shifts, size_t shifts_length,
    const bf_u128 *basis, size_t basis_length, size_t first_run) BF_CHECKED;

/* As bf_g128_transform. The value at each of 2^m points, m from 0 to 40, of the polynomial with these coefficients
 * in the basis of subspace polynomials. */
uint32_t bf_hw_g128_transform(
    bf_u128 *values, size_t values_length, const bf_u128 *shift) BF_CHECKED BF_NONNULL(3);

/* As bf_g128_inverse_transform. The coefficients that bf_hw_g128_transform takes to these values. */
uint32_t bf_hw_g128_inverse_transform(
    bf_u128 *values, size_t values_length, const bf_u128 *shift) BF_CHECKED BF_NONNULL(3);

/* ----------------------------------------------------------------------------------------------------------------- */
/* BF_HW_P64: GF(2)[x] modulo x^64 + x^4 + x^3 + x + 1. */

/* As bf_p64_multiply. products: the product of the elements at each place. */
uint32_t bf_hw_p64_multiply(
    const uint64_t *left, size_t left_length, const uint64_t *right, size_t right_length,
    uint64_t *products, size_t products_length) BF_CHECKED;

/* As bf_p64_multiply_by. products: the product of each element and the scalar. */
uint32_t bf_hw_p64_multiply_by(
    const uint64_t *values, size_t values_length, uint64_t scalar,
    uint64_t *products, size_t products_length) BF_CHECKED;

/* As bf_p64_add_scaled. Adds to each element of sums the scalar times the value at its place. */
uint32_t bf_hw_p64_add_scaled(
    uint64_t *sums, size_t sums_length, uint64_t scalar, const uint64_t *values, size_t values_length) BF_CHECKED;

/* As bf_p64_square. squares: the square of each element. */
uint32_t bf_hw_p64_square(
    const uint64_t *values, size_t values_length, uint64_t *squares, size_t squares_length) BF_CHECKED;

/* As bf_p64_inverse. inverses: the inverse of each element, and 0 for 0. */
uint32_t bf_hw_p64_inverse(
    const uint64_t *values, size_t values_length, uint64_t *inverses, size_t inverses_length) BF_CHECKED;

/* As bf_p64_batch_inverse. inverses: the same as inverse. */
uint32_t bf_hw_p64_batch_inverse(
    const uint64_t *values, size_t values_length, uint64_t *inverses, size_t inverses_length) BF_CHECKED;

/* As bf_p64_power. powers: each element to the power of the exponent; to the power 0 it is 1. */
uint32_t bf_hw_p64_power(
    const uint64_t *values, size_t values_length, uint64_t exponent,
    uint64_t *powers, size_t powers_length) BF_CHECKED;

/* As bf_p64_dot_product. sum: the sum of the products at each place, 0 of none. */
uint32_t bf_hw_p64_dot_product(
    const uint64_t *left, size_t left_length, const uint64_t *right, size_t right_length,
    uint64_t *sum) BF_CHECKED BF_NONNULL(5);

/* As bf_p64_evaluate. values: the value at each point of the polynomial with these coefficients, the constant one
 * first; any number of coefficients. */
uint32_t bf_hw_p64_evaluate(
    const uint64_t *coefficients, size_t coefficients_length, const uint64_t *points, size_t points_length,
    uint64_t *values, size_t values_length) BF_CHECKED;

/* As bf_p64_multiply_in_place. Multiplies each element of products by the value at its place. */
uint32_t bf_hw_p64_multiply_in_place(
    uint64_t *products, size_t products_length, const uint64_t *values, size_t values_length) BF_CHECKED;

/* As bf_p64_multiply_by_in_place. Multiplies each element by the scalar. */
uint32_t bf_hw_p64_multiply_by_in_place(
    uint64_t *values, size_t values_length, uint64_t scalar) BF_CHECKED;

/* As bf_p64_square_in_place. Squares each element. */
uint32_t bf_hw_p64_square_in_place(
    uint64_t *values, size_t values_length) BF_CHECKED;

/* As bf_p64_inverse_in_place. Leaves the inverse of each element, and 0 of 0. */
uint32_t bf_hw_p64_inverse_in_place(
    uint64_t *values, size_t values_length) BF_CHECKED;

/* As bf_p64_power_in_place. Raises each element to the power of the exponent; to the power 0 it is 1. */
uint32_t bf_hw_p64_power_in_place(
    uint64_t *values, size_t values_length, uint64_t exponent) BF_CHECKED;

/* ----------------------------------------------------------------------------------------------------------------- */
/* BF_HW_HASHES: GHASH and POLYVAL. */

/* As bf_tag_ghash. hash: GHASH of the message (NIST SP 800-38D), zeros added to whole blocks; key and hash have 16
 * bytes. */
uint32_t bf_hw_tag_ghash(
    const uint8_t *key, size_t key_length, const uint8_t *message, size_t message_length,
    uint8_t *hash, size_t hash_length) BF_CHECKED;

/* As bf_tag_polyval. hash: POLYVAL of the message (RFC 8452), zeros added to whole blocks; key and hash have 16
 * bytes. */
uint32_t bf_hw_tag_polyval(
    const uint8_t *key, size_t key_length, const uint8_t *message, size_t message_length,
    uint8_t *hash, size_t hash_length) BF_CHECKED;

/* As bf_tag_gcm_ghash. hash: the hash of GCM over associated data and ciphertext, each below 2^61 bytes, with the
 * block of their lengths; key and hash have 16 bytes. */
uint32_t bf_hw_tag_gcm_ghash(
    const uint8_t *key, size_t key_length, const uint8_t *associated, size_t associated_length,
    const uint8_t *ciphertext, size_t ciphertext_length, uint8_t *hash, size_t hash_length) BF_CHECKED;

/* As bf_tag_ghash_init. state: the hash of the empty message under the key, to which bf_hw_tag_ghash_update adds
 * bytes; key has 16 bytes. */
uint32_t bf_hw_tag_ghash_init(
    bf_ghash_state *state, const uint8_t *key, size_t key_length) BF_CHECKED BF_NONNULL(1);

/* As bf_tag_ghash_update. Adds bytes to the message, of any number: no zeros come between them and the next ones. */
uint32_t bf_hw_tag_ghash_update(
    bf_ghash_state *state, const uint8_t *message, size_t message_length) BF_CHECKED BF_NONNULL(1);

/* As bf_tag_ghash_pad. Adds as many zeros as make the message whole blocks, which may be none. */
uint32_t bf_hw_tag_ghash_pad(
    bf_ghash_state *state) BF_CHECKED BF_NONNULL(1);

/* As bf_tag_ghash_final. hash: what bf_hw_tag_ghash gives of the message, which is then empty, under the same key;
 * hash has 16 bytes. */
uint32_t bf_hw_tag_ghash_final(
    bf_ghash_state *state, uint8_t *hash, size_t hash_length) BF_CHECKED BF_NONNULL(1);

/* As bf_tag_polyval_init. state: the hash of the empty message under the key, to which bf_hw_tag_polyval_update
 * adds bytes; key has 16 bytes. */
uint32_t bf_hw_tag_polyval_init(
    bf_polyval_state *state, const uint8_t *key, size_t key_length) BF_CHECKED BF_NONNULL(1);

/* As bf_tag_polyval_update. Adds bytes to the message, of any number: no zeros come between them and the next
 * ones. */
uint32_t bf_hw_tag_polyval_update(
    bf_polyval_state *state, const uint8_t *message, size_t message_length) BF_CHECKED BF_NONNULL(1);

/* As bf_tag_polyval_pad. Adds as many zeros as make the message whole blocks, which may be none. */
uint32_t bf_hw_tag_polyval_pad(
    bf_polyval_state *state) BF_CHECKED BF_NONNULL(1);

/* As bf_tag_polyval_final. hash: what bf_hw_tag_polyval gives of the message, which is then empty, under the same
 * key; hash has 16 bytes. */
uint32_t bf_hw_tag_polyval_final(
    bf_polyval_state *state, uint8_t *hash, size_t hash_length) BF_CHECKED BF_NONNULL(1);

/* As bf_tag_gcm_ghash_final. hash: what bf_hw_tag_gcm_ghash gives, where the message is the associated data,
 * bf_hw_tag_ghash_pad behind them, and the ciphertext, by their lengths in bytes, each below 2^61; the message is
 * then empty, under the same key; hash has 16 bytes. */
uint32_t bf_hw_tag_gcm_ghash_final(
    bf_ghash_state *state, size_t associated_length, size_t ciphertext_length,
    uint8_t *hash, size_t hash_length) BF_CHECKED BF_NONNULL(1);

/* ----------------------------------------------------------------------------------------------------------------- */
/* BF_HW_TOWERS: single products of the levels of 64 and 128 bits of the tower. */

/* As bf_t64_multiply. products: the product of the elements at each place. */
uint32_t bf_hw_t64_multiply(
    const uint64_t *left, size_t left_length, const uint64_t *right, size_t right_length,
    uint64_t *products, size_t products_length) BF_CHECKED;

/* As bf_t64_multiply_in_place. Multiplies each element of products by the value at its place. */
uint32_t bf_hw_t64_multiply_in_place(
    uint64_t *products, size_t products_length, const uint64_t *values, size_t values_length) BF_CHECKED;

/* As bf_t128_multiply. products: the product of the elements at each place. */
uint32_t bf_hw_t128_multiply(
    const bf_u128 *left, size_t left_length, const bf_u128 *right, size_t right_length,
    bf_u128 *products, size_t products_length) BF_CHECKED;

/* As bf_t128_multiply_in_place. Multiplies each element of products by the value at its place. */
uint32_t bf_hw_t128_multiply_in_place(
    bf_u128 *products, size_t products_length, const bf_u128 *values, size_t values_length) BF_CHECKED;

#ifdef __cplusplus
}
#endif

#endif
