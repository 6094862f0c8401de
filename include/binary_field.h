/* Binary fields, proved: the functions of libbinary_field.
 *
 * Written by scripts/make_c_header.py; do not edit.
 *
 * Elements. An element is an unsigned number, and a sum is the exclusive or. In the tower the low half of the bits is
 * the part without the root that the level adjoins. In a polynomial basis bit i is the coefficient of x^i; a block of
 * GCM has its bits the other way round. A bf_u128 has the low 64 bits in words[0]; a bf_u192 has the coefficient of 1
 * in words[0], that of y in words[1] and that of y^2 in words[2].
 *
 * Arrays. An array is a pointer and a length, which counts elements and not bytes. The pointer may be NULL where the
 * length is 0; a scalar, a result or a state is never NULL. Each pointer is aligned as C aligns its type. An array, a
 * result or a state that a function writes may overlap nothing else of the same call; what is only read may overlap
 * each other. For x = x * y there are the functions whose names end in _in_place. In arrays named space and places a
 * call works: behind it, whatever the status, nothing is said of what they hold. A comment begins with the name of what
 * the function writes. Where it says nothing of lengths, every length will do.
 *
 * Statuses. Every function but bf_version, bf_processor and bf_status_text returns a status. On a status that is not
 * BF_OK everything that the function could write is as before the call, but for space and places. The first status
 * applies, in the order in which a function's comment names them.
 *
 * Matrices. The elements of a matrix stand row after row. A number of rows or of columns may be 0, and others then as
 * large as the lengths allow: a call takes no time for rows or columns without elements.
 *
 * Threads. A call reads and writes its arguments alone and keeps nothing, so that threads may call at the same time, as
 * long as none writes what another reads or writes. Nothing is claimed on timing; of bf_tags_are_equal it is said what
 * was looked at.
 *
 * Sections, in this order: gf2, t2, t4, t8, t16, t32, t64, t128, r8, p64, g128, p192, matrices over each field, changes
 * of basis and linear maps, packed matrices over GF(2), fields of the caller's choice, transforms, tags, codes over
 * bytes, codes that correct errors, codes over fields of the caller's choice, binary codes that correct errors, codes
 * by transforms, shares of a secret, lines of text. Each field has functions bf_FIELD_NAME of these names: add,
 * multiply, multiply_by, add_scaled, square, inverse, batch_inverse, square_root, power, product, dot_product,
 * evaluate, add_in_place, multiply_in_place, multiply_by_in_place, square_in_place, inverse_in_place,
 * square_root_in_place, power_in_place, generator, matrix_multiply, matrix_row_reduce, matrix_rank, matrix_determinant,
 * matrix_inverse, matrix_solve.
 */
#ifndef BINARY_FIELD_H
#define BINARY_FIELD_H

#include <stdbool.h>
#include <stddef.h>
#include <stdint.h>

#ifdef __cplusplus
extern "C" {
#endif

/* The version that this header belongs to, 0.1.0; bf_version returns that of the library. */
#define BF_VERSION 256u

/* What gcc and clang are told: a status has to be looked at, and which pointers are never NULL. */
#if defined(__GNUC__) || defined(__clang__)
#define BF_CHECKED __attribute__((warn_unused_result))
#define BF_NONNULL(place) __attribute__((nonnull(place)))
#else
#define BF_CHECKED
#define BF_NONNULL(place)
#endif

/* A number of 128 bits, the low half first. */
typedef struct bf_u128 {
    uint64_t words[2];
} bf_u128;

/* Three numbers of 64 bits, the coefficient of 1 first. */
typedef struct bf_u192 {
    uint64_t words[3];
} bf_u192;

/* A hash of GHASH in pieces: what it holds is read and written by the functions bf_tag_ghash_* alone, and by
 * bf_tag_gcm_ghash_final. */
typedef struct bf_ghash_state {
    uint64_t words[13];
} bf_ghash_state;

/* A hash of POLYVAL in pieces, for the functions bf_tag_polyval_*. */
typedef struct bf_polyval_state {
    uint64_t words[13];
} bf_polyval_state;

/* A field modulo a polynomial of the caller's choice, for the functions bf_field_*. */
typedef struct bf_field {
    uint64_t words[5];
} bf_field;

/* Success. */
#define BF_OK 0u
/* Mismatched or invalid lengths. */
#define BF_LENGTH 1u
/* A word is not an element of the field. */
#define BF_NOT_AN_ELEMENT 2u
/* Out of memory, which no function of this version returns. */
#define BF_MEMORY 3u
/* No code or shares have these numbers. */
#define BF_CODE 4u
/* Too few shards or shares are present. */
#define BF_TOO_FEW_SHARDS 5u
/* The equations have no solution, the matrix no inverse, or there is no secret or root. */
#define BF_UNSOLVABLE 6u
/* The modulus is no irreducible polynomial of degree 1 to 128. */
#define BF_REDUCIBLE 7u

/* The sentence of a status, without a full stop. It never returns NULL. */
static inline const char *bf_status_text(uint32_t status)
{
    switch (status) {
    case BF_OK: return "success";
    case BF_LENGTH: return "mismatched or invalid lengths";
    case BF_NOT_AN_ELEMENT: return "a word is not an element of the field";
    case BF_MEMORY: return "out of memory, which no function of this version returns";
    case BF_CODE: return "no code or shares have these numbers";
    case BF_TOO_FEW_SHARDS: return "too few shards or shares are present";
    case BF_UNSOLVABLE: return "the equations have no solution, the matrix no inverse, or there is no secret or root";
    case BF_REDUCIBLE: return "the modulus is no irreducible polynomial of degree 1 to 128";
    default: return "unknown status";
    }
}

/* The version of the library, 65536 times the major number, 256 times the minor one, and the patch. */
uint32_t bf_version(void);

/* The processor whose variant of the functions is called: "x86-64-v2", "x86-64-v3" or "aarch64", and never NULL. The
 * variant is chosen once, before main, as the best that runs on the processor. The environment variable
 * BINARY_FIELD_PROCESSOR=x86-64-v2 lowers that choice, and never raises it. */
const char *bf_processor(void);

/* ------------------------------------------------------------------------------------------------------------------ */
/* gf2: GF(2). An element is a uint8_t, below 2. */

/* sums: the sum of the elements at each index. BF_LENGTH unless left, right and sums have one length.
 * BF_NOT_AN_ELEMENT unless each word that is read is below 2. */
uint32_t bf_gf2_add(const uint8_t *left, size_t left_length, const uint8_t *right, size_t right_length,
    uint8_t *sums, size_t sums_length) BF_CHECKED;

/* products: the product of the elements at each index. BF_LENGTH unless left, right and products have one length.
 * BF_NOT_AN_ELEMENT unless each word that is read is below 2. */
uint32_t bf_gf2_multiply(const uint8_t *left, size_t left_length, const uint8_t *right, size_t right_length,
    uint8_t *products, size_t products_length) BF_CHECKED;

/* products: the product of each element and the scalar. BF_LENGTH unless values and products have one length.
 * BF_NOT_AN_ELEMENT unless each word that is read is below 2. */
uint32_t bf_gf2_multiply_by(const uint8_t *values, size_t values_length, uint8_t scalar,
    uint8_t *products, size_t products_length) BF_CHECKED;

/* Adds to each element of sums the scalar times the value at its index. BF_LENGTH unless sums and values have one
 * length. BF_NOT_AN_ELEMENT unless each word that is read is below 2. */
uint32_t bf_gf2_add_scaled(uint8_t *sums, size_t sums_length, uint8_t scalar,
    const uint8_t *values, size_t values_length) BF_CHECKED;

/* squares: the square of each element. BF_LENGTH unless values and squares have one length. BF_NOT_AN_ELEMENT unless
 * each word that is read is below 2. */
uint32_t bf_gf2_square(const uint8_t *values, size_t values_length, uint8_t *squares, size_t squares_length) BF_CHECKED;

/* inverses: the inverse of each element, and 0 for 0. BF_LENGTH unless values and inverses have one length.
 * BF_NOT_AN_ELEMENT unless each word that is read is below 2. */
uint32_t bf_gf2_inverse(const uint8_t *values, size_t values_length,
    uint8_t *inverses, size_t inverses_length) BF_CHECKED;

/* inverses: the same as inverse. BF_LENGTH unless values and inverses have one length. BF_NOT_AN_ELEMENT unless each
 * word that is read is below 2. */
uint32_t bf_gf2_batch_inverse(const uint8_t *values, size_t values_length,
    uint8_t *inverses, size_t inverses_length) BF_CHECKED;

/* roots: the square root of each element. BF_LENGTH unless values and roots have one length. BF_NOT_AN_ELEMENT
 * unless each word that is read is below 2. */
uint32_t bf_gf2_square_root(const uint8_t *values, size_t values_length,
    uint8_t *roots, size_t roots_length) BF_CHECKED;

/* powers: each element to the power of the exponent; to the power 0 it is 1. BF_LENGTH unless values and powers have
 * one length. BF_NOT_AN_ELEMENT unless each word that is read is below 2. */
uint32_t bf_gf2_power(const uint8_t *values, size_t values_length, uint64_t exponent,
    uint8_t *powers, size_t powers_length) BF_CHECKED;

/* product: the product of all elements, 1 of none. BF_NOT_AN_ELEMENT unless each word that is read is below 2. */
uint32_t bf_gf2_product(const uint8_t *values, size_t values_length, uint8_t *product) BF_CHECKED BF_NONNULL(3);

/* sum: the sum of the products at each index, 0 of none. BF_LENGTH unless left and right have one length.
 * BF_NOT_AN_ELEMENT unless each word that is read is below 2. */
uint32_t bf_gf2_dot_product(const uint8_t *left, size_t left_length, const uint8_t *right, size_t right_length,
    uint8_t *sum) BF_CHECKED BF_NONNULL(5);

/* values: the value at each point of the polynomial with these coefficients, the constant one first; any number of
 * coefficients. BF_LENGTH unless points and values have one length. BF_NOT_AN_ELEMENT unless each word that is read
 * is below 2. */
uint32_t bf_gf2_evaluate(const uint8_t *coefficients, size_t coefficients_length,
    const uint8_t *points, size_t points_length, uint8_t *values, size_t values_length) BF_CHECKED;

/* Adds to each element of sums the value at its index. BF_LENGTH unless sums and values have one length.
 * BF_NOT_AN_ELEMENT unless each word that is read is below 2. */
uint32_t bf_gf2_add_in_place(uint8_t *sums, size_t sums_length, const uint8_t *values, size_t values_length) BF_CHECKED;

/* Multiplies each element of products by the value at its index. BF_LENGTH unless products and values have one
 * length. BF_NOT_AN_ELEMENT unless each word that is read is below 2. */
uint32_t bf_gf2_multiply_in_place(uint8_t *products, size_t products_length,
    const uint8_t *values, size_t values_length) BF_CHECKED;

/* Multiplies each element by the scalar. BF_NOT_AN_ELEMENT unless each word that is read is below 2. */
uint32_t bf_gf2_multiply_by_in_place(uint8_t *values, size_t values_length, uint8_t scalar) BF_CHECKED;

/* Squares each element. BF_NOT_AN_ELEMENT unless each word that is read is below 2. */
uint32_t bf_gf2_square_in_place(uint8_t *values, size_t values_length) BF_CHECKED;

/* Leaves the inverse of each element, and 0 of 0. BF_NOT_AN_ELEMENT unless each word that is read is below 2. */
uint32_t bf_gf2_inverse_in_place(uint8_t *values, size_t values_length) BF_CHECKED;

/* Leaves the square root of each element. BF_NOT_AN_ELEMENT unless each word that is read is below 2. */
uint32_t bf_gf2_square_root_in_place(uint8_t *values, size_t values_length) BF_CHECKED;

/* Raises each element to the power of the exponent; to the power 0 it is 1. BF_NOT_AN_ELEMENT unless each word that
 * is read is below 2. */
uint32_t bf_gf2_power_in_place(uint8_t *values, size_t values_length, uint64_t exponent) BF_CHECKED;

/* generator: the generator of the field's multiplicative group that the library names. */
uint32_t bf_gf2_generator(uint8_t *generator) BF_CHECKED BF_NONNULL(1);

/* ------------------------------------------------------------------------------------------------------------------ */
/* t2: GF(2^2), a level of the tower. An element is a uint8_t, below 4. */

/* sums: the sum of the elements at each index. BF_LENGTH unless left, right and sums have one length.
 * BF_NOT_AN_ELEMENT unless each word that is read is below 4. */
uint32_t bf_t2_add(const uint8_t *left, size_t left_length, const uint8_t *right, size_t right_length,
    uint8_t *sums, size_t sums_length) BF_CHECKED;

/* products: the product of the elements at each index. BF_LENGTH unless left, right and products have one length.
 * BF_NOT_AN_ELEMENT unless each word that is read is below 4. */
uint32_t bf_t2_multiply(const uint8_t *left, size_t left_length, const uint8_t *right, size_t right_length,
    uint8_t *products, size_t products_length) BF_CHECKED;

/* products: the product of each element and the scalar. BF_LENGTH unless values and products have one length.
 * BF_NOT_AN_ELEMENT unless each word that is read is below 4. */
uint32_t bf_t2_multiply_by(const uint8_t *values, size_t values_length, uint8_t scalar,
    uint8_t *products, size_t products_length) BF_CHECKED;

/* Adds to each element of sums the scalar times the value at its index. BF_LENGTH unless sums and values have one
 * length. BF_NOT_AN_ELEMENT unless each word that is read is below 4. */
uint32_t bf_t2_add_scaled(uint8_t *sums, size_t sums_length, uint8_t scalar,
    const uint8_t *values, size_t values_length) BF_CHECKED;

/* squares: the square of each element. BF_LENGTH unless values and squares have one length. BF_NOT_AN_ELEMENT unless
 * each word that is read is below 4. */
uint32_t bf_t2_square(const uint8_t *values, size_t values_length, uint8_t *squares, size_t squares_length) BF_CHECKED;

/* inverses: the inverse of each element, and 0 for 0. BF_LENGTH unless values and inverses have one length.
 * BF_NOT_AN_ELEMENT unless each word that is read is below 4. */
uint32_t bf_t2_inverse(const uint8_t *values, size_t values_length,
    uint8_t *inverses, size_t inverses_length) BF_CHECKED;

/* inverses: the same as inverse. BF_LENGTH unless values and inverses have one length. BF_NOT_AN_ELEMENT unless each
 * word that is read is below 4. */
uint32_t bf_t2_batch_inverse(const uint8_t *values, size_t values_length,
    uint8_t *inverses, size_t inverses_length) BF_CHECKED;

/* roots: the square root of each element. BF_LENGTH unless values and roots have one length. BF_NOT_AN_ELEMENT
 * unless each word that is read is below 4. */
uint32_t bf_t2_square_root(const uint8_t *values, size_t values_length, uint8_t *roots, size_t roots_length) BF_CHECKED;

/* powers: each element to the power of the exponent; to the power 0 it is 1. BF_LENGTH unless values and powers have
 * one length. BF_NOT_AN_ELEMENT unless each word that is read is below 4. */
uint32_t bf_t2_power(const uint8_t *values, size_t values_length, uint64_t exponent,
    uint8_t *powers, size_t powers_length) BF_CHECKED;

/* product: the product of all elements, 1 of none. BF_NOT_AN_ELEMENT unless each word that is read is below 4. */
uint32_t bf_t2_product(const uint8_t *values, size_t values_length, uint8_t *product) BF_CHECKED BF_NONNULL(3);

/* sum: the sum of the products at each index, 0 of none. BF_LENGTH unless left and right have one length.
 * BF_NOT_AN_ELEMENT unless each word that is read is below 4. */
uint32_t bf_t2_dot_product(const uint8_t *left, size_t left_length, const uint8_t *right, size_t right_length,
    uint8_t *sum) BF_CHECKED BF_NONNULL(5);

/* values: the value at each point of the polynomial with these coefficients, the constant one first; any number of
 * coefficients. BF_LENGTH unless points and values have one length. BF_NOT_AN_ELEMENT unless each word that is read
 * is below 4. */
uint32_t bf_t2_evaluate(const uint8_t *coefficients, size_t coefficients_length,
    const uint8_t *points, size_t points_length, uint8_t *values, size_t values_length) BF_CHECKED;

/* Adds to each element of sums the value at its index. BF_LENGTH unless sums and values have one length.
 * BF_NOT_AN_ELEMENT unless each word that is read is below 4. */
uint32_t bf_t2_add_in_place(uint8_t *sums, size_t sums_length, const uint8_t *values, size_t values_length) BF_CHECKED;

/* Multiplies each element of products by the value at its index. BF_LENGTH unless products and values have one
 * length. BF_NOT_AN_ELEMENT unless each word that is read is below 4. */
uint32_t bf_t2_multiply_in_place(uint8_t *products, size_t products_length,
    const uint8_t *values, size_t values_length) BF_CHECKED;

/* Multiplies each element by the scalar. BF_NOT_AN_ELEMENT unless each word that is read is below 4. */
uint32_t bf_t2_multiply_by_in_place(uint8_t *values, size_t values_length, uint8_t scalar) BF_CHECKED;

/* Squares each element. BF_NOT_AN_ELEMENT unless each word that is read is below 4. */
uint32_t bf_t2_square_in_place(uint8_t *values, size_t values_length) BF_CHECKED;

/* Leaves the inverse of each element, and 0 of 0. BF_NOT_AN_ELEMENT unless each word that is read is below 4. */
uint32_t bf_t2_inverse_in_place(uint8_t *values, size_t values_length) BF_CHECKED;

/* Leaves the square root of each element. BF_NOT_AN_ELEMENT unless each word that is read is below 4. */
uint32_t bf_t2_square_root_in_place(uint8_t *values, size_t values_length) BF_CHECKED;

/* Raises each element to the power of the exponent; to the power 0 it is 1. BF_NOT_AN_ELEMENT unless each word that
 * is read is below 4. */
uint32_t bf_t2_power_in_place(uint8_t *values, size_t values_length, uint64_t exponent) BF_CHECKED;

/* generator: the generator of the field's multiplicative group that the library names. */
uint32_t bf_t2_generator(uint8_t *generator) BF_CHECKED BF_NONNULL(1);

/* ------------------------------------------------------------------------------------------------------------------ */
/* t4: GF(2^4), a level of the tower. An element is a uint8_t, below 16. */

/* sums: the sum of the elements at each index. BF_LENGTH unless left, right and sums have one length.
 * BF_NOT_AN_ELEMENT unless each word that is read is below 16. */
uint32_t bf_t4_add(const uint8_t *left, size_t left_length, const uint8_t *right, size_t right_length,
    uint8_t *sums, size_t sums_length) BF_CHECKED;

/* products: the product of the elements at each index. BF_LENGTH unless left, right and products have one length.
 * BF_NOT_AN_ELEMENT unless each word that is read is below 16. */
uint32_t bf_t4_multiply(const uint8_t *left, size_t left_length, const uint8_t *right, size_t right_length,
    uint8_t *products, size_t products_length) BF_CHECKED;

/* products: the product of each element and the scalar. BF_LENGTH unless values and products have one length.
 * BF_NOT_AN_ELEMENT unless each word that is read is below 16. */
uint32_t bf_t4_multiply_by(const uint8_t *values, size_t values_length, uint8_t scalar,
    uint8_t *products, size_t products_length) BF_CHECKED;

/* Adds to each element of sums the scalar times the value at its index. BF_LENGTH unless sums and values have one
 * length. BF_NOT_AN_ELEMENT unless each word that is read is below 16. */
uint32_t bf_t4_add_scaled(uint8_t *sums, size_t sums_length, uint8_t scalar,
    const uint8_t *values, size_t values_length) BF_CHECKED;

/* squares: the square of each element. BF_LENGTH unless values and squares have one length. BF_NOT_AN_ELEMENT unless
 * each word that is read is below 16. */
uint32_t bf_t4_square(const uint8_t *values, size_t values_length, uint8_t *squares, size_t squares_length) BF_CHECKED;

/* inverses: the inverse of each element, and 0 for 0. BF_LENGTH unless values and inverses have one length.
 * BF_NOT_AN_ELEMENT unless each word that is read is below 16. */
uint32_t bf_t4_inverse(const uint8_t *values, size_t values_length,
    uint8_t *inverses, size_t inverses_length) BF_CHECKED;

/* inverses: the same as inverse. BF_LENGTH unless values and inverses have one length. BF_NOT_AN_ELEMENT unless each
 * word that is read is below 16. */
uint32_t bf_t4_batch_inverse(const uint8_t *values, size_t values_length,
    uint8_t *inverses, size_t inverses_length) BF_CHECKED;

/* roots: the square root of each element. BF_LENGTH unless values and roots have one length. BF_NOT_AN_ELEMENT
 * unless each word that is read is below 16. */
uint32_t bf_t4_square_root(const uint8_t *values, size_t values_length, uint8_t *roots, size_t roots_length) BF_CHECKED;

/* powers: each element to the power of the exponent; to the power 0 it is 1. BF_LENGTH unless values and powers have
 * one length. BF_NOT_AN_ELEMENT unless each word that is read is below 16. */
uint32_t bf_t4_power(const uint8_t *values, size_t values_length, uint64_t exponent,
    uint8_t *powers, size_t powers_length) BF_CHECKED;

/* product: the product of all elements, 1 of none. BF_NOT_AN_ELEMENT unless each word that is read is below 16. */
uint32_t bf_t4_product(const uint8_t *values, size_t values_length, uint8_t *product) BF_CHECKED BF_NONNULL(3);

/* sum: the sum of the products at each index, 0 of none. BF_LENGTH unless left and right have one length.
 * BF_NOT_AN_ELEMENT unless each word that is read is below 16. */
uint32_t bf_t4_dot_product(const uint8_t *left, size_t left_length, const uint8_t *right, size_t right_length,
    uint8_t *sum) BF_CHECKED BF_NONNULL(5);

/* values: the value at each point of the polynomial with these coefficients, the constant one first; any number of
 * coefficients. BF_LENGTH unless points and values have one length. BF_NOT_AN_ELEMENT unless each word that is read
 * is below 16. */
uint32_t bf_t4_evaluate(const uint8_t *coefficients, size_t coefficients_length,
    const uint8_t *points, size_t points_length, uint8_t *values, size_t values_length) BF_CHECKED;

/* Adds to each element of sums the value at its index. BF_LENGTH unless sums and values have one length.
 * BF_NOT_AN_ELEMENT unless each word that is read is below 16. */
uint32_t bf_t4_add_in_place(uint8_t *sums, size_t sums_length, const uint8_t *values, size_t values_length) BF_CHECKED;

/* Multiplies each element of products by the value at its index. BF_LENGTH unless products and values have one
 * length. BF_NOT_AN_ELEMENT unless each word that is read is below 16. */
uint32_t bf_t4_multiply_in_place(uint8_t *products, size_t products_length,
    const uint8_t *values, size_t values_length) BF_CHECKED;

/* Multiplies each element by the scalar. BF_NOT_AN_ELEMENT unless each word that is read is below 16. */
uint32_t bf_t4_multiply_by_in_place(uint8_t *values, size_t values_length, uint8_t scalar) BF_CHECKED;

/* Squares each element. BF_NOT_AN_ELEMENT unless each word that is read is below 16. */
uint32_t bf_t4_square_in_place(uint8_t *values, size_t values_length) BF_CHECKED;

/* Leaves the inverse of each element, and 0 of 0. BF_NOT_AN_ELEMENT unless each word that is read is below 16. */
uint32_t bf_t4_inverse_in_place(uint8_t *values, size_t values_length) BF_CHECKED;

/* Leaves the square root of each element. BF_NOT_AN_ELEMENT unless each word that is read is below 16. */
uint32_t bf_t4_square_root_in_place(uint8_t *values, size_t values_length) BF_CHECKED;

/* Raises each element to the power of the exponent; to the power 0 it is 1. BF_NOT_AN_ELEMENT unless each word that
 * is read is below 16. */
uint32_t bf_t4_power_in_place(uint8_t *values, size_t values_length, uint64_t exponent) BF_CHECKED;

/* generator: the generator of the field's multiplicative group that the library names. */
uint32_t bf_t4_generator(uint8_t *generator) BF_CHECKED BF_NONNULL(1);

/* ------------------------------------------------------------------------------------------------------------------ */
/* t8: GF(2^8), a level of the tower. An element is a uint8_t. */

/* sums: the sum of the elements at each index. BF_LENGTH unless left, right and sums have one length. */
uint32_t bf_t8_add(const uint8_t *left, size_t left_length, const uint8_t *right, size_t right_length,
    uint8_t *sums, size_t sums_length) BF_CHECKED;

/* products: the product of the elements at each index. BF_LENGTH unless left, right and products have one length. */
uint32_t bf_t8_multiply(const uint8_t *left, size_t left_length, const uint8_t *right, size_t right_length,
    uint8_t *products, size_t products_length) BF_CHECKED;

/* products: the product of each element and the scalar. BF_LENGTH unless values and products have one length. */
uint32_t bf_t8_multiply_by(const uint8_t *values, size_t values_length, uint8_t scalar,
    uint8_t *products, size_t products_length) BF_CHECKED;

/* Adds to each element of sums the scalar times the value at its index. BF_LENGTH unless sums and values have one
 * length. */
uint32_t bf_t8_add_scaled(uint8_t *sums, size_t sums_length, uint8_t scalar,
    const uint8_t *values, size_t values_length) BF_CHECKED;

/* squares: the square of each element. BF_LENGTH unless values and squares have one length. */
uint32_t bf_t8_square(const uint8_t *values, size_t values_length, uint8_t *squares, size_t squares_length) BF_CHECKED;

/* inverses: the inverse of each element, and 0 for 0. BF_LENGTH unless values and inverses have one length. */
uint32_t bf_t8_inverse(const uint8_t *values, size_t values_length,
    uint8_t *inverses, size_t inverses_length) BF_CHECKED;

/* inverses: the same as inverse. BF_LENGTH unless values and inverses have one length. */
uint32_t bf_t8_batch_inverse(const uint8_t *values, size_t values_length,
    uint8_t *inverses, size_t inverses_length) BF_CHECKED;

/* roots: the square root of each element. BF_LENGTH unless values and roots have one length. */
uint32_t bf_t8_square_root(const uint8_t *values, size_t values_length, uint8_t *roots, size_t roots_length) BF_CHECKED;

/* powers: each element to the power of the exponent; to the power 0 it is 1. BF_LENGTH unless values and powers have
 * one length. */
uint32_t bf_t8_power(const uint8_t *values, size_t values_length, uint64_t exponent,
    uint8_t *powers, size_t powers_length) BF_CHECKED;

/* product: the product of all elements, 1 of none. */
uint32_t bf_t8_product(const uint8_t *values, size_t values_length, uint8_t *product) BF_CHECKED BF_NONNULL(3);

/* sum: the sum of the products at each index, 0 of none. BF_LENGTH unless left and right have one length. */
uint32_t bf_t8_dot_product(const uint8_t *left, size_t left_length, const uint8_t *right, size_t right_length,
    uint8_t *sum) BF_CHECKED BF_NONNULL(5);

/* values: the value at each point of the polynomial with these coefficients, the constant one first; any number of
 * coefficients. BF_LENGTH unless points and values have one length. */
uint32_t bf_t8_evaluate(const uint8_t *coefficients, size_t coefficients_length,
    const uint8_t *points, size_t points_length, uint8_t *values, size_t values_length) BF_CHECKED;

/* Adds to each element of sums the value at its index. BF_LENGTH unless sums and values have one length. */
uint32_t bf_t8_add_in_place(uint8_t *sums, size_t sums_length, const uint8_t *values, size_t values_length) BF_CHECKED;

/* Multiplies each element of products by the value at its index. BF_LENGTH unless products and values have one
 * length. */
uint32_t bf_t8_multiply_in_place(uint8_t *products, size_t products_length,
    const uint8_t *values, size_t values_length) BF_CHECKED;

/* Multiplies each element by the scalar. */
uint32_t bf_t8_multiply_by_in_place(uint8_t *values, size_t values_length, uint8_t scalar) BF_CHECKED;

/* Squares each element. */
uint32_t bf_t8_square_in_place(uint8_t *values, size_t values_length) BF_CHECKED;

/* Leaves the inverse of each element, and 0 of 0. */
uint32_t bf_t8_inverse_in_place(uint8_t *values, size_t values_length) BF_CHECKED;

/* Leaves the square root of each element. */
uint32_t bf_t8_square_root_in_place(uint8_t *values, size_t values_length) BF_CHECKED;

/* Raises each element to the power of the exponent; to the power 0 it is 1. */
uint32_t bf_t8_power_in_place(uint8_t *values, size_t values_length, uint64_t exponent) BF_CHECKED;

/* generator: the generator of the field's multiplicative group that the library names. */
uint32_t bf_t8_generator(uint8_t *generator) BF_CHECKED BF_NONNULL(1);

/* ------------------------------------------------------------------------------------------------------------------ */
/* t16: GF(2^16), a level of the tower. An element is a uint16_t. */

/* sums: the sum of the elements at each index. BF_LENGTH unless left, right and sums have one length. */
uint32_t bf_t16_add(const uint16_t *left, size_t left_length, const uint16_t *right, size_t right_length,
    uint16_t *sums, size_t sums_length) BF_CHECKED;

/* products: the product of the elements at each index. BF_LENGTH unless left, right and products have one length. */
uint32_t bf_t16_multiply(const uint16_t *left, size_t left_length, const uint16_t *right, size_t right_length,
    uint16_t *products, size_t products_length) BF_CHECKED;

/* products: the product of each element and the scalar. BF_LENGTH unless values and products have one length. */
uint32_t bf_t16_multiply_by(const uint16_t *values, size_t values_length, uint16_t scalar,
    uint16_t *products, size_t products_length) BF_CHECKED;

/* Adds to each element of sums the scalar times the value at its index. BF_LENGTH unless sums and values have one
 * length. */
uint32_t bf_t16_add_scaled(uint16_t *sums, size_t sums_length, uint16_t scalar,
    const uint16_t *values, size_t values_length) BF_CHECKED;

/* squares: the square of each element. BF_LENGTH unless values and squares have one length. */
uint32_t bf_t16_square(const uint16_t *values, size_t values_length,
    uint16_t *squares, size_t squares_length) BF_CHECKED;

/* inverses: the inverse of each element, and 0 for 0. BF_LENGTH unless values and inverses have one length. */
uint32_t bf_t16_inverse(const uint16_t *values, size_t values_length,
    uint16_t *inverses, size_t inverses_length) BF_CHECKED;

/* inverses: the same as inverse. BF_LENGTH unless values and inverses have one length. */
uint32_t bf_t16_batch_inverse(const uint16_t *values, size_t values_length,
    uint16_t *inverses, size_t inverses_length) BF_CHECKED;

/* roots: the square root of each element. BF_LENGTH unless values and roots have one length. */
uint32_t bf_t16_square_root(const uint16_t *values, size_t values_length,
    uint16_t *roots, size_t roots_length) BF_CHECKED;

/* powers: each element to the power of the exponent; to the power 0 it is 1. BF_LENGTH unless values and powers have
 * one length. */
uint32_t bf_t16_power(const uint16_t *values, size_t values_length, uint64_t exponent,
    uint16_t *powers, size_t powers_length) BF_CHECKED;

/* product: the product of all elements, 1 of none. */
uint32_t bf_t16_product(const uint16_t *values, size_t values_length, uint16_t *product) BF_CHECKED BF_NONNULL(3);

/* sum: the sum of the products at each index, 0 of none. BF_LENGTH unless left and right have one length. */
uint32_t bf_t16_dot_product(const uint16_t *left, size_t left_length, const uint16_t *right, size_t right_length,
    uint16_t *sum) BF_CHECKED BF_NONNULL(5);

/* values: the value at each point of the polynomial with these coefficients, the constant one first; any number of
 * coefficients. BF_LENGTH unless points and values have one length. */
uint32_t bf_t16_evaluate(const uint16_t *coefficients, size_t coefficients_length,
    const uint16_t *points, size_t points_length, uint16_t *values, size_t values_length) BF_CHECKED;

/* Adds to each element of sums the value at its index. BF_LENGTH unless sums and values have one length. */
uint32_t bf_t16_add_in_place(uint16_t *sums, size_t sums_length,
    const uint16_t *values, size_t values_length) BF_CHECKED;

/* Multiplies each element of products by the value at its index. BF_LENGTH unless products and values have one
 * length. */
uint32_t bf_t16_multiply_in_place(uint16_t *products, size_t products_length,
    const uint16_t *values, size_t values_length) BF_CHECKED;

/* Multiplies each element by the scalar. */
uint32_t bf_t16_multiply_by_in_place(uint16_t *values, size_t values_length, uint16_t scalar) BF_CHECKED;

/* Squares each element. */
uint32_t bf_t16_square_in_place(uint16_t *values, size_t values_length) BF_CHECKED;

/* Leaves the inverse of each element, and 0 of 0. */
uint32_t bf_t16_inverse_in_place(uint16_t *values, size_t values_length) BF_CHECKED;

/* Leaves the square root of each element. */
uint32_t bf_t16_square_root_in_place(uint16_t *values, size_t values_length) BF_CHECKED;

/* Raises each element to the power of the exponent; to the power 0 it is 1. */
uint32_t bf_t16_power_in_place(uint16_t *values, size_t values_length, uint64_t exponent) BF_CHECKED;

/* generator: the generator of the field's multiplicative group that the library names. */
uint32_t bf_t16_generator(uint16_t *generator) BF_CHECKED BF_NONNULL(1);

/* ------------------------------------------------------------------------------------------------------------------ */
/* t32: GF(2^32), a level of the tower. An element is a uint32_t. */

/* sums: the sum of the elements at each index. BF_LENGTH unless left, right and sums have one length. */
uint32_t bf_t32_add(const uint32_t *left, size_t left_length, const uint32_t *right, size_t right_length,
    uint32_t *sums, size_t sums_length) BF_CHECKED;

/* products: the product of the elements at each index. BF_LENGTH unless left, right and products have one length. */
uint32_t bf_t32_multiply(const uint32_t *left, size_t left_length, const uint32_t *right, size_t right_length,
    uint32_t *products, size_t products_length) BF_CHECKED;

/* products: the product of each element and the scalar. BF_LENGTH unless values and products have one length. */
uint32_t bf_t32_multiply_by(const uint32_t *values, size_t values_length, uint32_t scalar,
    uint32_t *products, size_t products_length) BF_CHECKED;

/* Adds to each element of sums the scalar times the value at its index. BF_LENGTH unless sums and values have one
 * length. */
uint32_t bf_t32_add_scaled(uint32_t *sums, size_t sums_length, uint32_t scalar,
    const uint32_t *values, size_t values_length) BF_CHECKED;

/* squares: the square of each element. BF_LENGTH unless values and squares have one length. */
uint32_t bf_t32_square(const uint32_t *values, size_t values_length,
    uint32_t *squares, size_t squares_length) BF_CHECKED;

/* inverses: the inverse of each element, and 0 for 0. BF_LENGTH unless values and inverses have one length. */
uint32_t bf_t32_inverse(const uint32_t *values, size_t values_length,
    uint32_t *inverses, size_t inverses_length) BF_CHECKED;

/* inverses: the same as inverse. BF_LENGTH unless values and inverses have one length. */
uint32_t bf_t32_batch_inverse(const uint32_t *values, size_t values_length,
    uint32_t *inverses, size_t inverses_length) BF_CHECKED;

/* roots: the square root of each element. BF_LENGTH unless values and roots have one length. */
uint32_t bf_t32_square_root(const uint32_t *values, size_t values_length,
    uint32_t *roots, size_t roots_length) BF_CHECKED;

/* powers: each element to the power of the exponent; to the power 0 it is 1. BF_LENGTH unless values and powers have
 * one length. */
uint32_t bf_t32_power(const uint32_t *values, size_t values_length, uint64_t exponent,
    uint32_t *powers, size_t powers_length) BF_CHECKED;

/* product: the product of all elements, 1 of none. */
uint32_t bf_t32_product(const uint32_t *values, size_t values_length, uint32_t *product) BF_CHECKED BF_NONNULL(3);

/* sum: the sum of the products at each index, 0 of none. BF_LENGTH unless left and right have one length. */
uint32_t bf_t32_dot_product(const uint32_t *left, size_t left_length, const uint32_t *right, size_t right_length,
    uint32_t *sum) BF_CHECKED BF_NONNULL(5);

/* values: the value at each point of the polynomial with these coefficients, the constant one first; any number of
 * coefficients. BF_LENGTH unless points and values have one length. */
uint32_t bf_t32_evaluate(const uint32_t *coefficients, size_t coefficients_length,
    const uint32_t *points, size_t points_length, uint32_t *values, size_t values_length) BF_CHECKED;

/* Adds to each element of sums the value at its index. BF_LENGTH unless sums and values have one length. */
uint32_t bf_t32_add_in_place(uint32_t *sums, size_t sums_length,
    const uint32_t *values, size_t values_length) BF_CHECKED;

/* Multiplies each element of products by the value at its index. BF_LENGTH unless products and values have one
 * length. */
uint32_t bf_t32_multiply_in_place(uint32_t *products, size_t products_length,
    const uint32_t *values, size_t values_length) BF_CHECKED;

/* Multiplies each element by the scalar. */
uint32_t bf_t32_multiply_by_in_place(uint32_t *values, size_t values_length, uint32_t scalar) BF_CHECKED;

/* Squares each element. */
uint32_t bf_t32_square_in_place(uint32_t *values, size_t values_length) BF_CHECKED;

/* Leaves the inverse of each element, and 0 of 0. */
uint32_t bf_t32_inverse_in_place(uint32_t *values, size_t values_length) BF_CHECKED;

/* Leaves the square root of each element. */
uint32_t bf_t32_square_root_in_place(uint32_t *values, size_t values_length) BF_CHECKED;

/* Raises each element to the power of the exponent; to the power 0 it is 1. */
uint32_t bf_t32_power_in_place(uint32_t *values, size_t values_length, uint64_t exponent) BF_CHECKED;

/* generator: the generator of the field's multiplicative group that the library names. */
uint32_t bf_t32_generator(uint32_t *generator) BF_CHECKED BF_NONNULL(1);

/* ------------------------------------------------------------------------------------------------------------------ */
/* t64: GF(2^64), a level of the tower. An element is a uint64_t. */

/* sums: the sum of the elements at each index. BF_LENGTH unless left, right and sums have one length. */
uint32_t bf_t64_add(const uint64_t *left, size_t left_length, const uint64_t *right, size_t right_length,
    uint64_t *sums, size_t sums_length) BF_CHECKED;

/* products: the product of the elements at each index. BF_LENGTH unless left, right and products have one length. */
uint32_t bf_t64_multiply(const uint64_t *left, size_t left_length, const uint64_t *right, size_t right_length,
    uint64_t *products, size_t products_length) BF_CHECKED;

/* products: the product of each element and the scalar. BF_LENGTH unless values and products have one length. */
uint32_t bf_t64_multiply_by(const uint64_t *values, size_t values_length, uint64_t scalar,
    uint64_t *products, size_t products_length) BF_CHECKED;

/* Adds to each element of sums the scalar times the value at its index. BF_LENGTH unless sums and values have one
 * length. */
uint32_t bf_t64_add_scaled(uint64_t *sums, size_t sums_length, uint64_t scalar,
    const uint64_t *values, size_t values_length) BF_CHECKED;

/* squares: the square of each element. BF_LENGTH unless values and squares have one length. */
uint32_t bf_t64_square(const uint64_t *values, size_t values_length,
    uint64_t *squares, size_t squares_length) BF_CHECKED;

/* inverses: the inverse of each element, and 0 for 0. BF_LENGTH unless values and inverses have one length. */
uint32_t bf_t64_inverse(const uint64_t *values, size_t values_length,
    uint64_t *inverses, size_t inverses_length) BF_CHECKED;

/* inverses: the same as inverse. BF_LENGTH unless values and inverses have one length. */
uint32_t bf_t64_batch_inverse(const uint64_t *values, size_t values_length,
    uint64_t *inverses, size_t inverses_length) BF_CHECKED;

/* roots: the square root of each element. BF_LENGTH unless values and roots have one length. */
uint32_t bf_t64_square_root(const uint64_t *values, size_t values_length,
    uint64_t *roots, size_t roots_length) BF_CHECKED;

/* powers: each element to the power of the exponent; to the power 0 it is 1. BF_LENGTH unless values and powers have
 * one length. */
uint32_t bf_t64_power(const uint64_t *values, size_t values_length, uint64_t exponent,
    uint64_t *powers, size_t powers_length) BF_CHECKED;

/* product: the product of all elements, 1 of none. */
uint32_t bf_t64_product(const uint64_t *values, size_t values_length, uint64_t *product) BF_CHECKED BF_NONNULL(3);

/* sum: the sum of the products at each index, 0 of none. BF_LENGTH unless left and right have one length. */
uint32_t bf_t64_dot_product(const uint64_t *left, size_t left_length, const uint64_t *right, size_t right_length,
    uint64_t *sum) BF_CHECKED BF_NONNULL(5);

/* values: the value at each point of the polynomial with these coefficients, the constant one first; any number of
 * coefficients. BF_LENGTH unless points and values have one length. */
uint32_t bf_t64_evaluate(const uint64_t *coefficients, size_t coefficients_length,
    const uint64_t *points, size_t points_length, uint64_t *values, size_t values_length) BF_CHECKED;

/* Adds to each element of sums the value at its index. BF_LENGTH unless sums and values have one length. */
uint32_t bf_t64_add_in_place(uint64_t *sums, size_t sums_length,
    const uint64_t *values, size_t values_length) BF_CHECKED;

/* Multiplies each element of products by the value at its index. BF_LENGTH unless products and values have one
 * length. */
uint32_t bf_t64_multiply_in_place(uint64_t *products, size_t products_length,
    const uint64_t *values, size_t values_length) BF_CHECKED;

/* Multiplies each element by the scalar. */
uint32_t bf_t64_multiply_by_in_place(uint64_t *values, size_t values_length, uint64_t scalar) BF_CHECKED;

/* Squares each element. */
uint32_t bf_t64_square_in_place(uint64_t *values, size_t values_length) BF_CHECKED;

/* Leaves the inverse of each element, and 0 of 0. */
uint32_t bf_t64_inverse_in_place(uint64_t *values, size_t values_length) BF_CHECKED;

/* Leaves the square root of each element. */
uint32_t bf_t64_square_root_in_place(uint64_t *values, size_t values_length) BF_CHECKED;

/* Raises each element to the power of the exponent; to the power 0 it is 1. */
uint32_t bf_t64_power_in_place(uint64_t *values, size_t values_length, uint64_t exponent) BF_CHECKED;

/* generator: the generator of the field's multiplicative group that the library names. */
uint32_t bf_t64_generator(uint64_t *generator) BF_CHECKED BF_NONNULL(1);

/* ------------------------------------------------------------------------------------------------------------------ */
/* t128: GF(2^128), a level of the tower. An element is a bf_u128. */

/* sums: the sum of the elements at each index. BF_LENGTH unless left, right and sums have one length. */
uint32_t bf_t128_add(const bf_u128 *left, size_t left_length, const bf_u128 *right, size_t right_length,
    bf_u128 *sums, size_t sums_length) BF_CHECKED;

/* products: the product of the elements at each index. BF_LENGTH unless left, right and products have one length. */
uint32_t bf_t128_multiply(const bf_u128 *left, size_t left_length, const bf_u128 *right, size_t right_length,
    bf_u128 *products, size_t products_length) BF_CHECKED;

/* products: the product of each element and the scalar. BF_LENGTH unless values and products have one length. */
uint32_t bf_t128_multiply_by(const bf_u128 *values, size_t values_length, const bf_u128 *scalar,
    bf_u128 *products, size_t products_length) BF_CHECKED BF_NONNULL(3);

/* Adds to each element of sums the scalar times the value at its index. BF_LENGTH unless sums and values have one
 * length. */
uint32_t bf_t128_add_scaled(bf_u128 *sums, size_t sums_length, const bf_u128 *scalar,
    const bf_u128 *values, size_t values_length) BF_CHECKED BF_NONNULL(3);

/* squares: the square of each element. BF_LENGTH unless values and squares have one length. */
uint32_t bf_t128_square(const bf_u128 *values, size_t values_length,
    bf_u128 *squares, size_t squares_length) BF_CHECKED;

/* inverses: the inverse of each element, and 0 for 0. BF_LENGTH unless values and inverses have one length. */
uint32_t bf_t128_inverse(const bf_u128 *values, size_t values_length,
    bf_u128 *inverses, size_t inverses_length) BF_CHECKED;

/* inverses: the same as inverse. BF_LENGTH unless values and inverses have one length. */
uint32_t bf_t128_batch_inverse(const bf_u128 *values, size_t values_length,
    bf_u128 *inverses, size_t inverses_length) BF_CHECKED;

/* roots: the square root of each element. BF_LENGTH unless values and roots have one length. */
uint32_t bf_t128_square_root(const bf_u128 *values, size_t values_length,
    bf_u128 *roots, size_t roots_length) BF_CHECKED;

/* powers: each element to the power of the exponent; to the power 0 it is 1. BF_LENGTH unless values and powers have
 * one length. */
uint32_t bf_t128_power(const bf_u128 *values, size_t values_length, uint64_t exponent,
    bf_u128 *powers, size_t powers_length) BF_CHECKED;

/* product: the product of all elements, 1 of none. */
uint32_t bf_t128_product(const bf_u128 *values, size_t values_length, bf_u128 *product) BF_CHECKED BF_NONNULL(3);

/* sum: the sum of the products at each index, 0 of none. BF_LENGTH unless left and right have one length. */
uint32_t bf_t128_dot_product(const bf_u128 *left, size_t left_length, const bf_u128 *right, size_t right_length,
    bf_u128 *sum) BF_CHECKED BF_NONNULL(5);

/* values: the value at each point of the polynomial with these coefficients, the constant one first; any number of
 * coefficients. BF_LENGTH unless points and values have one length. */
uint32_t bf_t128_evaluate(const bf_u128 *coefficients, size_t coefficients_length,
    const bf_u128 *points, size_t points_length, bf_u128 *values, size_t values_length) BF_CHECKED;

/* Adds to each element of sums the value at its index. BF_LENGTH unless sums and values have one length. */
uint32_t bf_t128_add_in_place(bf_u128 *sums, size_t sums_length,
    const bf_u128 *values, size_t values_length) BF_CHECKED;

/* Multiplies each element of products by the value at its index. BF_LENGTH unless products and values have one
 * length. */
uint32_t bf_t128_multiply_in_place(bf_u128 *products, size_t products_length,
    const bf_u128 *values, size_t values_length) BF_CHECKED;

/* Multiplies each element by the scalar. */
uint32_t bf_t128_multiply_by_in_place(bf_u128 *values, size_t values_length,
    const bf_u128 *scalar) BF_CHECKED BF_NONNULL(3);

/* Squares each element. */
uint32_t bf_t128_square_in_place(bf_u128 *values, size_t values_length) BF_CHECKED;

/* Leaves the inverse of each element, and 0 of 0. */
uint32_t bf_t128_inverse_in_place(bf_u128 *values, size_t values_length) BF_CHECKED;

/* Leaves the square root of each element. */
uint32_t bf_t128_square_root_in_place(bf_u128 *values, size_t values_length) BF_CHECKED;

/* Raises each element to the power of the exponent; to the power 0 it is 1. */
uint32_t bf_t128_power_in_place(bf_u128 *values, size_t values_length, uint64_t exponent) BF_CHECKED;

/* generator: the generator of the field's multiplicative group that the library names. */
uint32_t bf_t128_generator(bf_u128 *generator) BF_CHECKED BF_NONNULL(1);

/* ------------------------------------------------------------------------------------------------------------------ */
/* r8: GF(2)[x] modulo x^8 + x^4 + x^3 + x + 1, the bytes of AES (FIPS 197). An element is a uint8_t. */

/* sums: the sum of the elements at each index. BF_LENGTH unless left, right and sums have one length. */
uint32_t bf_r8_add(const uint8_t *left, size_t left_length, const uint8_t *right, size_t right_length,
    uint8_t *sums, size_t sums_length) BF_CHECKED;

/* products: the product of the elements at each index. BF_LENGTH unless left, right and products have one length. */
uint32_t bf_r8_multiply(const uint8_t *left, size_t left_length, const uint8_t *right, size_t right_length,
    uint8_t *products, size_t products_length) BF_CHECKED;

/* products: the product of each element and the scalar. BF_LENGTH unless values and products have one length. */
uint32_t bf_r8_multiply_by(const uint8_t *values, size_t values_length, uint8_t scalar,
    uint8_t *products, size_t products_length) BF_CHECKED;

/* Adds to each element of sums the scalar times the value at its index. BF_LENGTH unless sums and values have one
 * length. */
uint32_t bf_r8_add_scaled(uint8_t *sums, size_t sums_length, uint8_t scalar,
    const uint8_t *values, size_t values_length) BF_CHECKED;

/* squares: the square of each element. BF_LENGTH unless values and squares have one length. */
uint32_t bf_r8_square(const uint8_t *values, size_t values_length, uint8_t *squares, size_t squares_length) BF_CHECKED;

/* inverses: the inverse of each element, and 0 for 0. BF_LENGTH unless values and inverses have one length. */
uint32_t bf_r8_inverse(const uint8_t *values, size_t values_length,
    uint8_t *inverses, size_t inverses_length) BF_CHECKED;

/* inverses: the same as inverse. BF_LENGTH unless values and inverses have one length. */
uint32_t bf_r8_batch_inverse(const uint8_t *values, size_t values_length,
    uint8_t *inverses, size_t inverses_length) BF_CHECKED;

/* roots: the square root of each element. BF_LENGTH unless values and roots have one length. */
uint32_t bf_r8_square_root(const uint8_t *values, size_t values_length, uint8_t *roots, size_t roots_length) BF_CHECKED;

/* powers: each element to the power of the exponent; to the power 0 it is 1. BF_LENGTH unless values and powers have
 * one length. */
uint32_t bf_r8_power(const uint8_t *values, size_t values_length, uint64_t exponent,
    uint8_t *powers, size_t powers_length) BF_CHECKED;

/* product: the product of all elements, 1 of none. */
uint32_t bf_r8_product(const uint8_t *values, size_t values_length, uint8_t *product) BF_CHECKED BF_NONNULL(3);

/* sum: the sum of the products at each index, 0 of none. BF_LENGTH unless left and right have one length. */
uint32_t bf_r8_dot_product(const uint8_t *left, size_t left_length, const uint8_t *right, size_t right_length,
    uint8_t *sum) BF_CHECKED BF_NONNULL(5);

/* values: the value at each point of the polynomial with these coefficients, the constant one first; any number of
 * coefficients. BF_LENGTH unless points and values have one length. */
uint32_t bf_r8_evaluate(const uint8_t *coefficients, size_t coefficients_length,
    const uint8_t *points, size_t points_length, uint8_t *values, size_t values_length) BF_CHECKED;

/* Adds to each element of sums the value at its index. BF_LENGTH unless sums and values have one length. */
uint32_t bf_r8_add_in_place(uint8_t *sums, size_t sums_length, const uint8_t *values, size_t values_length) BF_CHECKED;

/* Multiplies each element of products by the value at its index. BF_LENGTH unless products and values have one
 * length. */
uint32_t bf_r8_multiply_in_place(uint8_t *products, size_t products_length,
    const uint8_t *values, size_t values_length) BF_CHECKED;

/* Multiplies each element by the scalar. */
uint32_t bf_r8_multiply_by_in_place(uint8_t *values, size_t values_length, uint8_t scalar) BF_CHECKED;

/* Squares each element. */
uint32_t bf_r8_square_in_place(uint8_t *values, size_t values_length) BF_CHECKED;

/* Leaves the inverse of each element, and 0 of 0. */
uint32_t bf_r8_inverse_in_place(uint8_t *values, size_t values_length) BF_CHECKED;

/* Leaves the square root of each element. */
uint32_t bf_r8_square_root_in_place(uint8_t *values, size_t values_length) BF_CHECKED;

/* Raises each element to the power of the exponent; to the power 0 it is 1. */
uint32_t bf_r8_power_in_place(uint8_t *values, size_t values_length, uint64_t exponent) BF_CHECKED;

/* generator: the generator of the field's multiplicative group that the library names. */
uint32_t bf_r8_generator(uint8_t *generator) BF_CHECKED BF_NONNULL(1);

/* ------------------------------------------------------------------------------------------------------------------ */
/* p64: GF(2)[x] modulo x^64 + x^4 + x^3 + x + 1. An element is a uint64_t. */

/* sums: the sum of the elements at each index. BF_LENGTH unless left, right and sums have one length. */
uint32_t bf_p64_add(const uint64_t *left, size_t left_length, const uint64_t *right, size_t right_length,
    uint64_t *sums, size_t sums_length) BF_CHECKED;

/* products: the product of the elements at each index. BF_LENGTH unless left, right and products have one length. */
uint32_t bf_p64_multiply(const uint64_t *left, size_t left_length, const uint64_t *right, size_t right_length,
    uint64_t *products, size_t products_length) BF_CHECKED;

/* products: the product of each element and the scalar. BF_LENGTH unless values and products have one length. */
uint32_t bf_p64_multiply_by(const uint64_t *values, size_t values_length, uint64_t scalar,
    uint64_t *products, size_t products_length) BF_CHECKED;

/* Adds to each element of sums the scalar times the value at its index. BF_LENGTH unless sums and values have one
 * length. */
uint32_t bf_p64_add_scaled(uint64_t *sums, size_t sums_length, uint64_t scalar,
    const uint64_t *values, size_t values_length) BF_CHECKED;

/* squares: the square of each element. BF_LENGTH unless values and squares have one length. */
uint32_t bf_p64_square(const uint64_t *values, size_t values_length,
    uint64_t *squares, size_t squares_length) BF_CHECKED;

/* inverses: the inverse of each element, and 0 for 0. BF_LENGTH unless values and inverses have one length. */
uint32_t bf_p64_inverse(const uint64_t *values, size_t values_length,
    uint64_t *inverses, size_t inverses_length) BF_CHECKED;

/* inverses: the same as inverse. BF_LENGTH unless values and inverses have one length. */
uint32_t bf_p64_batch_inverse(const uint64_t *values, size_t values_length,
    uint64_t *inverses, size_t inverses_length) BF_CHECKED;

/* roots: the square root of each element. BF_LENGTH unless values and roots have one length. */
uint32_t bf_p64_square_root(const uint64_t *values, size_t values_length,
    uint64_t *roots, size_t roots_length) BF_CHECKED;

/* powers: each element to the power of the exponent; to the power 0 it is 1. BF_LENGTH unless values and powers have
 * one length. */
uint32_t bf_p64_power(const uint64_t *values, size_t values_length, uint64_t exponent,
    uint64_t *powers, size_t powers_length) BF_CHECKED;

/* product: the product of all elements, 1 of none. */
uint32_t bf_p64_product(const uint64_t *values, size_t values_length, uint64_t *product) BF_CHECKED BF_NONNULL(3);

/* sum: the sum of the products at each index, 0 of none. BF_LENGTH unless left and right have one length. */
uint32_t bf_p64_dot_product(const uint64_t *left, size_t left_length, const uint64_t *right, size_t right_length,
    uint64_t *sum) BF_CHECKED BF_NONNULL(5);

/* values: the value at each point of the polynomial with these coefficients, the constant one first; any number of
 * coefficients. BF_LENGTH unless points and values have one length. */
uint32_t bf_p64_evaluate(const uint64_t *coefficients, size_t coefficients_length,
    const uint64_t *points, size_t points_length, uint64_t *values, size_t values_length) BF_CHECKED;

/* Adds to each element of sums the value at its index. BF_LENGTH unless sums and values have one length. */
uint32_t bf_p64_add_in_place(uint64_t *sums, size_t sums_length,
    const uint64_t *values, size_t values_length) BF_CHECKED;

/* Multiplies each element of products by the value at its index. BF_LENGTH unless products and values have one
 * length. */
uint32_t bf_p64_multiply_in_place(uint64_t *products, size_t products_length,
    const uint64_t *values, size_t values_length) BF_CHECKED;

/* Multiplies each element by the scalar. */
uint32_t bf_p64_multiply_by_in_place(uint64_t *values, size_t values_length, uint64_t scalar) BF_CHECKED;

/* Squares each element. */
uint32_t bf_p64_square_in_place(uint64_t *values, size_t values_length) BF_CHECKED;

/* Leaves the inverse of each element, and 0 of 0. */
uint32_t bf_p64_inverse_in_place(uint64_t *values, size_t values_length) BF_CHECKED;

/* Leaves the square root of each element. */
uint32_t bf_p64_square_root_in_place(uint64_t *values, size_t values_length) BF_CHECKED;

/* Raises each element to the power of the exponent; to the power 0 it is 1. */
uint32_t bf_p64_power_in_place(uint64_t *values, size_t values_length, uint64_t exponent) BF_CHECKED;

/* generator: the generator of the field's multiplicative group that the library names. */
uint32_t bf_p64_generator(uint64_t *generator) BF_CHECKED BF_NONNULL(1);

/* ------------------------------------------------------------------------------------------------------------------ */
/* g128: GF(2)[x] modulo x^128 + x^7 + x^2 + x + 1, the field of GHASH (NIST SP 800-38D), bit i for x^i. An element
 * is a bf_u128. */

/* sums: the sum of the elements at each index. BF_LENGTH unless left, right and sums have one length. */
uint32_t bf_g128_add(const bf_u128 *left, size_t left_length, const bf_u128 *right, size_t right_length,
    bf_u128 *sums, size_t sums_length) BF_CHECKED;

/* products: the product of the elements at each index. BF_LENGTH unless left, right and products have one length. */
uint32_t bf_g128_multiply(const bf_u128 *left, size_t left_length, const bf_u128 *right, size_t right_length,
    bf_u128 *products, size_t products_length) BF_CHECKED;

/* products: the product of each element and the scalar. BF_LENGTH unless values and products have one length. */
uint32_t bf_g128_multiply_by(const bf_u128 *values, size_t values_length, const bf_u128 *scalar,
    bf_u128 *products, size_t products_length) BF_CHECKED BF_NONNULL(3);

/* Adds to each element of sums the scalar times the value at its index. BF_LENGTH unless sums and values have one
 * length. */
uint32_t bf_g128_add_scaled(bf_u128 *sums, size_t sums_length, const bf_u128 *scalar,
    const bf_u128 *values, size_t values_length) BF_CHECKED BF_NONNULL(3);

/* squares: the square of each element. BF_LENGTH unless values and squares have one length. */
uint32_t bf_g128_square(const bf_u128 *values, size_t values_length,
    bf_u128 *squares, size_t squares_length) BF_CHECKED;

/* inverses: the inverse of each element, and 0 for 0. BF_LENGTH unless values and inverses have one length. */
uint32_t bf_g128_inverse(const bf_u128 *values, size_t values_length,
    bf_u128 *inverses, size_t inverses_length) BF_CHECKED;

/* inverses: the same as inverse. BF_LENGTH unless values and inverses have one length. */
uint32_t bf_g128_batch_inverse(const bf_u128 *values, size_t values_length,
    bf_u128 *inverses, size_t inverses_length) BF_CHECKED;

/* roots: the square root of each element. BF_LENGTH unless values and roots have one length. */
uint32_t bf_g128_square_root(const bf_u128 *values, size_t values_length,
    bf_u128 *roots, size_t roots_length) BF_CHECKED;

/* powers: each element to the power of the exponent; to the power 0 it is 1. BF_LENGTH unless values and powers have
 * one length. */
uint32_t bf_g128_power(const bf_u128 *values, size_t values_length, uint64_t exponent,
    bf_u128 *powers, size_t powers_length) BF_CHECKED;

/* product: the product of all elements, 1 of none. */
uint32_t bf_g128_product(const bf_u128 *values, size_t values_length, bf_u128 *product) BF_CHECKED BF_NONNULL(3);

/* sum: the sum of the products at each index, 0 of none. BF_LENGTH unless left and right have one length. */
uint32_t bf_g128_dot_product(const bf_u128 *left, size_t left_length, const bf_u128 *right, size_t right_length,
    bf_u128 *sum) BF_CHECKED BF_NONNULL(5);

/* values: the value at each point of the polynomial with these coefficients, the constant one first; any number of
 * coefficients. BF_LENGTH unless points and values have one length. */
uint32_t bf_g128_evaluate(const bf_u128 *coefficients, size_t coefficients_length,
    const bf_u128 *points, size_t points_length, bf_u128 *values, size_t values_length) BF_CHECKED;

/* Adds to each element of sums the value at its index. BF_LENGTH unless sums and values have one length. */
uint32_t bf_g128_add_in_place(bf_u128 *sums, size_t sums_length,
    const bf_u128 *values, size_t values_length) BF_CHECKED;

/* Multiplies each element of products by the value at its index. BF_LENGTH unless products and values have one
 * length. */
uint32_t bf_g128_multiply_in_place(bf_u128 *products, size_t products_length,
    const bf_u128 *values, size_t values_length) BF_CHECKED;

/* Multiplies each element by the scalar. */
uint32_t bf_g128_multiply_by_in_place(bf_u128 *values, size_t values_length,
    const bf_u128 *scalar) BF_CHECKED BF_NONNULL(3);

/* Squares each element. */
uint32_t bf_g128_square_in_place(bf_u128 *values, size_t values_length) BF_CHECKED;

/* Leaves the inverse of each element, and 0 of 0. */
uint32_t bf_g128_inverse_in_place(bf_u128 *values, size_t values_length) BF_CHECKED;

/* Leaves the square root of each element. */
uint32_t bf_g128_square_root_in_place(bf_u128 *values, size_t values_length) BF_CHECKED;

/* Raises each element to the power of the exponent; to the power 0 it is 1. */
uint32_t bf_g128_power_in_place(bf_u128 *values, size_t values_length, uint64_t exponent) BF_CHECKED;

/* generator: the generator of the field's multiplicative group that the library names. */
uint32_t bf_g128_generator(bf_u128 *generator) BF_CHECKED BF_NONNULL(1);

/* ------------------------------------------------------------------------------------------------------------------ */
/* p192: GF(2^64)[y] modulo y^3 + y + 1 over p64, the coefficient of 1 first. An element is a bf_u192. */

/* sums: the sum of the elements at each index. BF_LENGTH unless left, right and sums have one length. */
uint32_t bf_p192_add(const bf_u192 *left, size_t left_length, const bf_u192 *right, size_t right_length,
    bf_u192 *sums, size_t sums_length) BF_CHECKED;

/* products: the product of the elements at each index. BF_LENGTH unless left, right and products have one length. */
uint32_t bf_p192_multiply(const bf_u192 *left, size_t left_length, const bf_u192 *right, size_t right_length,
    bf_u192 *products, size_t products_length) BF_CHECKED;

/* products: the product of each element and the scalar. BF_LENGTH unless values and products have one length. */
uint32_t bf_p192_multiply_by(const bf_u192 *values, size_t values_length, const bf_u192 *scalar,
    bf_u192 *products, size_t products_length) BF_CHECKED BF_NONNULL(3);

/* Adds to each element of sums the scalar times the value at its index. BF_LENGTH unless sums and values have one
 * length. */
uint32_t bf_p192_add_scaled(bf_u192 *sums, size_t sums_length, const bf_u192 *scalar,
    const bf_u192 *values, size_t values_length) BF_CHECKED BF_NONNULL(3);

/* squares: the square of each element. BF_LENGTH unless values and squares have one length. */
uint32_t bf_p192_square(const bf_u192 *values, size_t values_length,
    bf_u192 *squares, size_t squares_length) BF_CHECKED;

/* inverses: the inverse of each element, and 0 for 0. BF_LENGTH unless values and inverses have one length. */
uint32_t bf_p192_inverse(const bf_u192 *values, size_t values_length,
    bf_u192 *inverses, size_t inverses_length) BF_CHECKED;

/* inverses: the same as inverse. BF_LENGTH unless values and inverses have one length. */
uint32_t bf_p192_batch_inverse(const bf_u192 *values, size_t values_length,
    bf_u192 *inverses, size_t inverses_length) BF_CHECKED;

/* roots: the square root of each element. BF_LENGTH unless values and roots have one length. */
uint32_t bf_p192_square_root(const bf_u192 *values, size_t values_length,
    bf_u192 *roots, size_t roots_length) BF_CHECKED;

/* powers: each element to the power of the exponent; to the power 0 it is 1. BF_LENGTH unless values and powers have
 * one length. */
uint32_t bf_p192_power(const bf_u192 *values, size_t values_length, uint64_t exponent,
    bf_u192 *powers, size_t powers_length) BF_CHECKED;

/* product: the product of all elements, 1 of none. */
uint32_t bf_p192_product(const bf_u192 *values, size_t values_length, bf_u192 *product) BF_CHECKED BF_NONNULL(3);

/* sum: the sum of the products at each index, 0 of none. BF_LENGTH unless left and right have one length. */
uint32_t bf_p192_dot_product(const bf_u192 *left, size_t left_length, const bf_u192 *right, size_t right_length,
    bf_u192 *sum) BF_CHECKED BF_NONNULL(5);

/* values: the value at each point of the polynomial with these coefficients, the constant one first; any number of
 * coefficients. BF_LENGTH unless points and values have one length. */
uint32_t bf_p192_evaluate(const bf_u192 *coefficients, size_t coefficients_length,
    const bf_u192 *points, size_t points_length, bf_u192 *values, size_t values_length) BF_CHECKED;

/* Adds to each element of sums the value at its index. BF_LENGTH unless sums and values have one length. */
uint32_t bf_p192_add_in_place(bf_u192 *sums, size_t sums_length,
    const bf_u192 *values, size_t values_length) BF_CHECKED;

/* Multiplies each element of products by the value at its index. BF_LENGTH unless products and values have one
 * length. */
uint32_t bf_p192_multiply_in_place(bf_u192 *products, size_t products_length,
    const bf_u192 *values, size_t values_length) BF_CHECKED;

/* Multiplies each element by the scalar. */
uint32_t bf_p192_multiply_by_in_place(bf_u192 *values, size_t values_length,
    const bf_u192 *scalar) BF_CHECKED BF_NONNULL(3);

/* Squares each element. */
uint32_t bf_p192_square_in_place(bf_u192 *values, size_t values_length) BF_CHECKED;

/* Leaves the inverse of each element, and 0 of 0. */
uint32_t bf_p192_inverse_in_place(bf_u192 *values, size_t values_length) BF_CHECKED;

/* Leaves the square root of each element. */
uint32_t bf_p192_square_root_in_place(bf_u192 *values, size_t values_length) BF_CHECKED;

/* Raises each element to the power of the exponent; to the power 0 it is 1. */
uint32_t bf_p192_power_in_place(bf_u192 *values, size_t values_length, uint64_t exponent) BF_CHECKED;

/* generator: the generator of the field's multiplicative group that the library names. */
uint32_t bf_p192_generator(bf_u192 *generator) BF_CHECKED BF_NONNULL(1);

/* ------------------------------------------------------------------------------------------------------------------ */
/* Matrices over gf2. */

/* product: the product of left, of rows rows of inner elements, and right, of inner rows of columns elements.
 * BF_LENGTH unless left has rows * inner elements, right inner * columns, and product rows * columns.
 * BF_NOT_AN_ELEMENT unless each word that is read is below 2. */
uint32_t bf_gf2_matrix_multiply(const uint8_t *left, size_t left_length, const uint8_t *right, size_t right_length,
    uint8_t *product, size_t product_length, size_t rows, size_t inner, size_t columns) BF_CHECKED;

/* Brings a matrix of rows rows of columns elements to reduced row echelon form; rank is its rank, the first rank of
 * the rows places of pivots become the columns of its leading entries, and the others stay. BF_LENGTH unless matrix
 * has rows * columns elements, and pivots rows places. BF_NOT_AN_ELEMENT unless each word that is read is below 2. */
uint32_t bf_gf2_matrix_row_reduce(uint8_t *matrix, size_t matrix_length, size_t rows, size_t columns,
    size_t *pivots, size_t pivots_length, size_t *rank) BF_CHECKED BF_NONNULL(7);

/* rank: the rank of a matrix of rows rows of columns elements, in as much space and rows places, which may be
 * written whatever the status. BF_LENGTH unless matrix and space have rows * columns elements, and places has rows
 * places. BF_NOT_AN_ELEMENT unless each word that is read is below 2. */
uint32_t bf_gf2_matrix_rank(const uint8_t *matrix, size_t matrix_length, size_t rows, size_t columns,
    uint8_t *space, size_t space_length, size_t *places, size_t places_length, size_t *rank) BF_CHECKED BF_NONNULL(9);

/* determinant: the determinant of a matrix of size rows of size elements, in as much space, which may be written
 * whatever the status; 1 of no rows. BF_LENGTH unless matrix and space have size * size elements. BF_NOT_AN_ELEMENT
 * unless each word that is read is below 2. */
uint32_t bf_gf2_matrix_determinant(const uint8_t *matrix, size_t matrix_length, size_t size,
    uint8_t *space, size_t space_length, uint8_t *determinant) BF_CHECKED BF_NONNULL(6);

/* inverse: the inverse of a matrix of size rows of size elements, in space for two of these and size places, which
 * may be written whatever the status. BF_LENGTH unless matrix and inverse have size * size elements, space 2 * size
 * * size, and places size places. BF_NOT_AN_ELEMENT unless each word that is read is below 2. BF_UNSOLVABLE unless
 * the matrix has an inverse. */
uint32_t bf_gf2_matrix_inverse(const uint8_t *matrix, size_t matrix_length, size_t size,
    uint8_t *inverse, size_t inverse_length, uint8_t *space, size_t space_length,
    size_t *places, size_t places_length) BF_CHECKED;

/* solution: a solution x of matrix * x = right, of rows equations in columns unknowns, in space for rows times
 * columns + 1 elements and rows places, which may be written whatever the status; an unknown that the others leave
 * open is 0. BF_LENGTH unless matrix has rows * columns elements, right rows, solution columns, space rows *
 * (columns + 1), and places rows places. BF_NOT_AN_ELEMENT unless each word that is read is below 2. BF_UNSOLVABLE
 * unless there is a solution. */
uint32_t bf_gf2_matrix_solve(const uint8_t *matrix, size_t matrix_length, size_t rows, size_t columns,
    const uint8_t *right, size_t right_length, uint8_t *solution, size_t solution_length,
    uint8_t *space, size_t space_length, size_t *places, size_t places_length) BF_CHECKED;

/* ------------------------------------------------------------------------------------------------------------------ */
/* Matrices over t2. */

/* product: the product of left, of rows rows of inner elements, and right, of inner rows of columns elements.
 * BF_LENGTH unless left has rows * inner elements, right inner * columns, and product rows * columns.
 * BF_NOT_AN_ELEMENT unless each word that is read is below 4. */
uint32_t bf_t2_matrix_multiply(const uint8_t *left, size_t left_length, const uint8_t *right, size_t right_length,
    uint8_t *product, size_t product_length, size_t rows, size_t inner, size_t columns) BF_CHECKED;

/* Brings a matrix of rows rows of columns elements to reduced row echelon form; rank is its rank, the first rank of
 * the rows places of pivots become the columns of its leading entries, and the others stay. BF_LENGTH unless matrix
 * has rows * columns elements, and pivots rows places. BF_NOT_AN_ELEMENT unless each word that is read is below 4. */
uint32_t bf_t2_matrix_row_reduce(uint8_t *matrix, size_t matrix_length, size_t rows, size_t columns,
    size_t *pivots, size_t pivots_length, size_t *rank) BF_CHECKED BF_NONNULL(7);

/* rank: the rank of a matrix of rows rows of columns elements, in as much space and rows places, which may be
 * written whatever the status. BF_LENGTH unless matrix and space have rows * columns elements, and places has rows
 * places. BF_NOT_AN_ELEMENT unless each word that is read is below 4. */
uint32_t bf_t2_matrix_rank(const uint8_t *matrix, size_t matrix_length, size_t rows, size_t columns,
    uint8_t *space, size_t space_length, size_t *places, size_t places_length, size_t *rank) BF_CHECKED BF_NONNULL(9);

/* determinant: the determinant of a matrix of size rows of size elements, in as much space, which may be written
 * whatever the status; 1 of no rows. BF_LENGTH unless matrix and space have size * size elements. BF_NOT_AN_ELEMENT
 * unless each word that is read is below 4. */
uint32_t bf_t2_matrix_determinant(const uint8_t *matrix, size_t matrix_length, size_t size,
    uint8_t *space, size_t space_length, uint8_t *determinant) BF_CHECKED BF_NONNULL(6);

/* inverse: the inverse of a matrix of size rows of size elements, in space for two of these and size places, which
 * may be written whatever the status. BF_LENGTH unless matrix and inverse have size * size elements, space 2 * size
 * * size, and places size places. BF_NOT_AN_ELEMENT unless each word that is read is below 4. BF_UNSOLVABLE unless
 * the matrix has an inverse. */
uint32_t bf_t2_matrix_inverse(const uint8_t *matrix, size_t matrix_length, size_t size,
    uint8_t *inverse, size_t inverse_length, uint8_t *space, size_t space_length,
    size_t *places, size_t places_length) BF_CHECKED;

/* solution: a solution x of matrix * x = right, of rows equations in columns unknowns, in space for rows times
 * columns + 1 elements and rows places, which may be written whatever the status; an unknown that the others leave
 * open is 0. BF_LENGTH unless matrix has rows * columns elements, right rows, solution columns, space rows *
 * (columns + 1), and places rows places. BF_NOT_AN_ELEMENT unless each word that is read is below 4. BF_UNSOLVABLE
 * unless there is a solution. */
uint32_t bf_t2_matrix_solve(const uint8_t *matrix, size_t matrix_length, size_t rows, size_t columns,
    const uint8_t *right, size_t right_length, uint8_t *solution, size_t solution_length,
    uint8_t *space, size_t space_length, size_t *places, size_t places_length) BF_CHECKED;

/* ------------------------------------------------------------------------------------------------------------------ */
/* Matrices over t4. */

/* product: the product of left, of rows rows of inner elements, and right, of inner rows of columns elements.
 * BF_LENGTH unless left has rows * inner elements, right inner * columns, and product rows * columns.
 * BF_NOT_AN_ELEMENT unless each word that is read is below 16. */
uint32_t bf_t4_matrix_multiply(const uint8_t *left, size_t left_length, const uint8_t *right, size_t right_length,
    uint8_t *product, size_t product_length, size_t rows, size_t inner, size_t columns) BF_CHECKED;

/* Brings a matrix of rows rows of columns elements to reduced row echelon form; rank is its rank, the first rank of
 * the rows places of pivots become the columns of its leading entries, and the others stay. BF_LENGTH unless matrix
 * has rows * columns elements, and pivots rows places. BF_NOT_AN_ELEMENT unless each word that is read is below 16. */
uint32_t bf_t4_matrix_row_reduce(uint8_t *matrix, size_t matrix_length, size_t rows, size_t columns,
    size_t *pivots, size_t pivots_length, size_t *rank) BF_CHECKED BF_NONNULL(7);

/* rank: the rank of a matrix of rows rows of columns elements, in as much space and rows places, which may be
 * written whatever the status. BF_LENGTH unless matrix and space have rows * columns elements, and places has rows
 * places. BF_NOT_AN_ELEMENT unless each word that is read is below 16. */
uint32_t bf_t4_matrix_rank(const uint8_t *matrix, size_t matrix_length, size_t rows, size_t columns,
    uint8_t *space, size_t space_length, size_t *places, size_t places_length, size_t *rank) BF_CHECKED BF_NONNULL(9);

/* determinant: the determinant of a matrix of size rows of size elements, in as much space, which may be written
 * whatever the status; 1 of no rows. BF_LENGTH unless matrix and space have size * size elements. BF_NOT_AN_ELEMENT
 * unless each word that is read is below 16. */
uint32_t bf_t4_matrix_determinant(const uint8_t *matrix, size_t matrix_length, size_t size,
    uint8_t *space, size_t space_length, uint8_t *determinant) BF_CHECKED BF_NONNULL(6);

/* inverse: the inverse of a matrix of size rows of size elements, in space for two of these and size places, which
 * may be written whatever the status. BF_LENGTH unless matrix and inverse have size * size elements, space 2 * size
 * * size, and places size places. BF_NOT_AN_ELEMENT unless each word that is read is below 16. BF_UNSOLVABLE unless
 * the matrix has an inverse. */
uint32_t bf_t4_matrix_inverse(const uint8_t *matrix, size_t matrix_length, size_t size,
    uint8_t *inverse, size_t inverse_length, uint8_t *space, size_t space_length,
    size_t *places, size_t places_length) BF_CHECKED;

/* solution: a solution x of matrix * x = right, of rows equations in columns unknowns, in space for rows times
 * columns + 1 elements and rows places, which may be written whatever the status; an unknown that the others leave
 * open is 0. BF_LENGTH unless matrix has rows * columns elements, right rows, solution columns, space rows *
 * (columns + 1), and places rows places. BF_NOT_AN_ELEMENT unless each word that is read is below 16. BF_UNSOLVABLE
 * unless there is a solution. */
uint32_t bf_t4_matrix_solve(const uint8_t *matrix, size_t matrix_length, size_t rows, size_t columns,
    const uint8_t *right, size_t right_length, uint8_t *solution, size_t solution_length,
    uint8_t *space, size_t space_length, size_t *places, size_t places_length) BF_CHECKED;

/* ------------------------------------------------------------------------------------------------------------------ */
/* Matrices over t8. */

/* product: the product of left, of rows rows of inner elements, and right, of inner rows of columns elements.
 * BF_LENGTH unless left has rows * inner elements, right inner * columns, and product rows * columns. It takes 64
 * KiB of the stack. */
uint32_t bf_t8_matrix_multiply(const uint8_t *left, size_t left_length, const uint8_t *right, size_t right_length,
    uint8_t *product, size_t product_length, size_t rows, size_t inner, size_t columns) BF_CHECKED;

/* Brings a matrix of rows rows of columns elements to reduced row echelon form; rank is its rank, the first rank of
 * the rows places of pivots become the columns of its leading entries, and the others stay. BF_LENGTH unless matrix
 * has rows * columns elements, and pivots rows places. */
uint32_t bf_t8_matrix_row_reduce(uint8_t *matrix, size_t matrix_length, size_t rows, size_t columns,
    size_t *pivots, size_t pivots_length, size_t *rank) BF_CHECKED BF_NONNULL(7);

/* rank: the rank of a matrix of rows rows of columns elements, in as much space and rows places, which may be
 * written whatever the status. BF_LENGTH unless matrix and space have rows * columns elements, and places has rows
 * places. */
uint32_t bf_t8_matrix_rank(const uint8_t *matrix, size_t matrix_length, size_t rows, size_t columns,
    uint8_t *space, size_t space_length, size_t *places, size_t places_length, size_t *rank) BF_CHECKED BF_NONNULL(9);

/* determinant: the determinant of a matrix of size rows of size elements, in as much space, which may be written
 * whatever the status; 1 of no rows. BF_LENGTH unless matrix and space have size * size elements. */
uint32_t bf_t8_matrix_determinant(const uint8_t *matrix, size_t matrix_length, size_t size,
    uint8_t *space, size_t space_length, uint8_t *determinant) BF_CHECKED BF_NONNULL(6);

/* inverse: the inverse of a matrix of size rows of size elements, in space for two of these and size places, which
 * may be written whatever the status. BF_LENGTH unless matrix and inverse have size * size elements, space 2 * size
 * * size, and places size places. BF_UNSOLVABLE unless the matrix has an inverse. */
uint32_t bf_t8_matrix_inverse(const uint8_t *matrix, size_t matrix_length, size_t size,
    uint8_t *inverse, size_t inverse_length, uint8_t *space, size_t space_length,
    size_t *places, size_t places_length) BF_CHECKED;

/* solution: a solution x of matrix * x = right, of rows equations in columns unknowns, in space for rows times
 * columns + 1 elements and rows places, which may be written whatever the status; an unknown that the others leave
 * open is 0. BF_LENGTH unless matrix has rows * columns elements, right rows, solution columns, space rows *
 * (columns + 1), and places rows places. BF_UNSOLVABLE unless there is a solution. */
uint32_t bf_t8_matrix_solve(const uint8_t *matrix, size_t matrix_length, size_t rows, size_t columns,
    const uint8_t *right, size_t right_length, uint8_t *solution, size_t solution_length,
    uint8_t *space, size_t space_length, size_t *places, size_t places_length) BF_CHECKED;

/* ------------------------------------------------------------------------------------------------------------------ */
/* Matrices over t16. */

/* product: the product of left, of rows rows of inner elements, and right, of inner rows of columns elements.
 * BF_LENGTH unless left has rows * inner elements, right inner * columns, and product rows * columns. */
uint32_t bf_t16_matrix_multiply(const uint16_t *left, size_t left_length, const uint16_t *right, size_t right_length,
    uint16_t *product, size_t product_length, size_t rows, size_t inner, size_t columns) BF_CHECKED;

/* Brings a matrix of rows rows of columns elements to reduced row echelon form; rank is its rank, the first rank of
 * the rows places of pivots become the columns of its leading entries, and the others stay. BF_LENGTH unless matrix
 * has rows * columns elements, and pivots rows places. */
uint32_t bf_t16_matrix_row_reduce(uint16_t *matrix, size_t matrix_length, size_t rows, size_t columns,
    size_t *pivots, size_t pivots_length, size_t *rank) BF_CHECKED BF_NONNULL(7);

/* rank: the rank of a matrix of rows rows of columns elements, in as much space and rows places, which may be
 * written whatever the status. BF_LENGTH unless matrix and space have rows * columns elements, and places has rows
 * places. */
uint32_t bf_t16_matrix_rank(const uint16_t *matrix, size_t matrix_length, size_t rows, size_t columns,
    uint16_t *space, size_t space_length, size_t *places, size_t places_length, size_t *rank) BF_CHECKED BF_NONNULL(9);

/* determinant: the determinant of a matrix of size rows of size elements, in as much space, which may be written
 * whatever the status; 1 of no rows. BF_LENGTH unless matrix and space have size * size elements. */
uint32_t bf_t16_matrix_determinant(const uint16_t *matrix, size_t matrix_length, size_t size,
    uint16_t *space, size_t space_length, uint16_t *determinant) BF_CHECKED BF_NONNULL(6);

/* inverse: the inverse of a matrix of size rows of size elements, in space for two of these and size places, which
 * may be written whatever the status. BF_LENGTH unless matrix and inverse have size * size elements, space 2 * size
 * * size, and places size places. BF_UNSOLVABLE unless the matrix has an inverse. */
uint32_t bf_t16_matrix_inverse(const uint16_t *matrix, size_t matrix_length, size_t size,
    uint16_t *inverse, size_t inverse_length, uint16_t *space, size_t space_length,
    size_t *places, size_t places_length) BF_CHECKED;

/* solution: a solution x of matrix * x = right, of rows equations in columns unknowns, in space for rows times
 * columns + 1 elements and rows places, which may be written whatever the status; an unknown that the others leave
 * open is 0. BF_LENGTH unless matrix has rows * columns elements, right rows, solution columns, space rows *
 * (columns + 1), and places rows places. BF_UNSOLVABLE unless there is a solution. */
uint32_t bf_t16_matrix_solve(const uint16_t *matrix, size_t matrix_length, size_t rows, size_t columns,
    const uint16_t *right, size_t right_length, uint16_t *solution, size_t solution_length,
    uint16_t *space, size_t space_length, size_t *places, size_t places_length) BF_CHECKED;

/* ------------------------------------------------------------------------------------------------------------------ */
/* Matrices over t32. */

/* product: the product of left, of rows rows of inner elements, and right, of inner rows of columns elements.
 * BF_LENGTH unless left has rows * inner elements, right inner * columns, and product rows * columns. */
uint32_t bf_t32_matrix_multiply(const uint32_t *left, size_t left_length, const uint32_t *right, size_t right_length,
    uint32_t *product, size_t product_length, size_t rows, size_t inner, size_t columns) BF_CHECKED;

/* Brings a matrix of rows rows of columns elements to reduced row echelon form; rank is its rank, the first rank of
 * the rows places of pivots become the columns of its leading entries, and the others stay. BF_LENGTH unless matrix
 * has rows * columns elements, and pivots rows places. */
uint32_t bf_t32_matrix_row_reduce(uint32_t *matrix, size_t matrix_length, size_t rows, size_t columns,
    size_t *pivots, size_t pivots_length, size_t *rank) BF_CHECKED BF_NONNULL(7);

/* rank: the rank of a matrix of rows rows of columns elements, in as much space and rows places, which may be
 * written whatever the status. BF_LENGTH unless matrix and space have rows * columns elements, and places has rows
 * places. */
uint32_t bf_t32_matrix_rank(const uint32_t *matrix, size_t matrix_length, size_t rows, size_t columns,
    uint32_t *space, size_t space_length, size_t *places, size_t places_length, size_t *rank) BF_CHECKED BF_NONNULL(9);

/* determinant: the determinant of a matrix of size rows of size elements, in as much space, which may be written
 * whatever the status; 1 of no rows. BF_LENGTH unless matrix and space have size * size elements. */
uint32_t bf_t32_matrix_determinant(const uint32_t *matrix, size_t matrix_length, size_t size,
    uint32_t *space, size_t space_length, uint32_t *determinant) BF_CHECKED BF_NONNULL(6);

/* inverse: the inverse of a matrix of size rows of size elements, in space for two of these and size places, which
 * may be written whatever the status. BF_LENGTH unless matrix and inverse have size * size elements, space 2 * size
 * * size, and places size places. BF_UNSOLVABLE unless the matrix has an inverse. */
uint32_t bf_t32_matrix_inverse(const uint32_t *matrix, size_t matrix_length, size_t size,
    uint32_t *inverse, size_t inverse_length, uint32_t *space, size_t space_length,
    size_t *places, size_t places_length) BF_CHECKED;

/* solution: a solution x of matrix * x = right, of rows equations in columns unknowns, in space for rows times
 * columns + 1 elements and rows places, which may be written whatever the status; an unknown that the others leave
 * open is 0. BF_LENGTH unless matrix has rows * columns elements, right rows, solution columns, space rows *
 * (columns + 1), and places rows places. BF_UNSOLVABLE unless there is a solution. */
uint32_t bf_t32_matrix_solve(const uint32_t *matrix, size_t matrix_length, size_t rows, size_t columns,
    const uint32_t *right, size_t right_length, uint32_t *solution, size_t solution_length,
    uint32_t *space, size_t space_length, size_t *places, size_t places_length) BF_CHECKED;

/* ------------------------------------------------------------------------------------------------------------------ */
/* Matrices over t64. */

/* product: the product of left, of rows rows of inner elements, and right, of inner rows of columns elements.
 * BF_LENGTH unless left has rows * inner elements, right inner * columns, and product rows * columns. */
uint32_t bf_t64_matrix_multiply(const uint64_t *left, size_t left_length, const uint64_t *right, size_t right_length,
    uint64_t *product, size_t product_length, size_t rows, size_t inner, size_t columns) BF_CHECKED;

/* Brings a matrix of rows rows of columns elements to reduced row echelon form; rank is its rank, the first rank of
 * the rows places of pivots become the columns of its leading entries, and the others stay. BF_LENGTH unless matrix
 * has rows * columns elements, and pivots rows places. */
uint32_t bf_t64_matrix_row_reduce(uint64_t *matrix, size_t matrix_length, size_t rows, size_t columns,
    size_t *pivots, size_t pivots_length, size_t *rank) BF_CHECKED BF_NONNULL(7);

/* rank: the rank of a matrix of rows rows of columns elements, in as much space and rows places, which may be
 * written whatever the status. BF_LENGTH unless matrix and space have rows * columns elements, and places has rows
 * places. */
uint32_t bf_t64_matrix_rank(const uint64_t *matrix, size_t matrix_length, size_t rows, size_t columns,
    uint64_t *space, size_t space_length, size_t *places, size_t places_length, size_t *rank) BF_CHECKED BF_NONNULL(9);

/* determinant: the determinant of a matrix of size rows of size elements, in as much space, which may be written
 * whatever the status; 1 of no rows. BF_LENGTH unless matrix and space have size * size elements. */
uint32_t bf_t64_matrix_determinant(const uint64_t *matrix, size_t matrix_length, size_t size,
    uint64_t *space, size_t space_length, uint64_t *determinant) BF_CHECKED BF_NONNULL(6);

/* inverse: the inverse of a matrix of size rows of size elements, in space for two of these and size places, which
 * may be written whatever the status. BF_LENGTH unless matrix and inverse have size * size elements, space 2 * size
 * * size, and places size places. BF_UNSOLVABLE unless the matrix has an inverse. */
uint32_t bf_t64_matrix_inverse(const uint64_t *matrix, size_t matrix_length, size_t size,
    uint64_t *inverse, size_t inverse_length, uint64_t *space, size_t space_length,
    size_t *places, size_t places_length) BF_CHECKED;

/* solution: a solution x of matrix * x = right, of rows equations in columns unknowns, in space for rows times
 * columns + 1 elements and rows places, which may be written whatever the status; an unknown that the others leave
 * open is 0. BF_LENGTH unless matrix has rows * columns elements, right rows, solution columns, space rows *
 * (columns + 1), and places rows places. BF_UNSOLVABLE unless there is a solution. */
uint32_t bf_t64_matrix_solve(const uint64_t *matrix, size_t matrix_length, size_t rows, size_t columns,
    const uint64_t *right, size_t right_length, uint64_t *solution, size_t solution_length,
    uint64_t *space, size_t space_length, size_t *places, size_t places_length) BF_CHECKED;

/* ------------------------------------------------------------------------------------------------------------------ */
/* Matrices over t128. */

/* product: the product of left, of rows rows of inner elements, and right, of inner rows of columns elements.
 * BF_LENGTH unless left has rows * inner elements, right inner * columns, and product rows * columns. */
uint32_t bf_t128_matrix_multiply(const bf_u128 *left, size_t left_length, const bf_u128 *right, size_t right_length,
    bf_u128 *product, size_t product_length, size_t rows, size_t inner, size_t columns) BF_CHECKED;

/* Brings a matrix of rows rows of columns elements to reduced row echelon form; rank is its rank, the first rank of
 * the rows places of pivots become the columns of its leading entries, and the others stay. BF_LENGTH unless matrix
 * has rows * columns elements, and pivots rows places. */
uint32_t bf_t128_matrix_row_reduce(bf_u128 *matrix, size_t matrix_length, size_t rows, size_t columns,
    size_t *pivots, size_t pivots_length, size_t *rank) BF_CHECKED BF_NONNULL(7);

/* rank: the rank of a matrix of rows rows of columns elements, in as much space and rows places, which may be
 * written whatever the status. BF_LENGTH unless matrix and space have rows * columns elements, and places has rows
 * places. */
uint32_t bf_t128_matrix_rank(const bf_u128 *matrix, size_t matrix_length, size_t rows, size_t columns,
    bf_u128 *space, size_t space_length, size_t *places, size_t places_length, size_t *rank) BF_CHECKED BF_NONNULL(9);

/* determinant: the determinant of a matrix of size rows of size elements, in as much space, which may be written
 * whatever the status; 1 of no rows. BF_LENGTH unless matrix and space have size * size elements. */
uint32_t bf_t128_matrix_determinant(const bf_u128 *matrix, size_t matrix_length, size_t size,
    bf_u128 *space, size_t space_length, bf_u128 *determinant) BF_CHECKED BF_NONNULL(6);

/* inverse: the inverse of a matrix of size rows of size elements, in space for two of these and size places, which
 * may be written whatever the status. BF_LENGTH unless matrix and inverse have size * size elements, space 2 * size
 * * size, and places size places. BF_UNSOLVABLE unless the matrix has an inverse. */
uint32_t bf_t128_matrix_inverse(const bf_u128 *matrix, size_t matrix_length, size_t size,
    bf_u128 *inverse, size_t inverse_length, bf_u128 *space, size_t space_length,
    size_t *places, size_t places_length) BF_CHECKED;

/* solution: a solution x of matrix * x = right, of rows equations in columns unknowns, in space for rows times
 * columns + 1 elements and rows places, which may be written whatever the status; an unknown that the others leave
 * open is 0. BF_LENGTH unless matrix has rows * columns elements, right rows, solution columns, space rows *
 * (columns + 1), and places rows places. BF_UNSOLVABLE unless there is a solution. */
uint32_t bf_t128_matrix_solve(const bf_u128 *matrix, size_t matrix_length, size_t rows, size_t columns,
    const bf_u128 *right, size_t right_length, bf_u128 *solution, size_t solution_length,
    bf_u128 *space, size_t space_length, size_t *places, size_t places_length) BF_CHECKED;

/* ------------------------------------------------------------------------------------------------------------------ */
/* Matrices over r8. */

/* product: the product of left, of rows rows of inner elements, and right, of inner rows of columns elements.
 * BF_LENGTH unless left has rows * inner elements, right inner * columns, and product rows * columns. It takes 64
 * KiB of the stack. */
uint32_t bf_r8_matrix_multiply(const uint8_t *left, size_t left_length, const uint8_t *right, size_t right_length,
    uint8_t *product, size_t product_length, size_t rows, size_t inner, size_t columns) BF_CHECKED;

/* Brings a matrix of rows rows of columns elements to reduced row echelon form; rank is its rank, the first rank of
 * the rows places of pivots become the columns of its leading entries, and the others stay. BF_LENGTH unless matrix
 * has rows * columns elements, and pivots rows places. */
uint32_t bf_r8_matrix_row_reduce(uint8_t *matrix, size_t matrix_length, size_t rows, size_t columns,
    size_t *pivots, size_t pivots_length, size_t *rank) BF_CHECKED BF_NONNULL(7);

/* rank: the rank of a matrix of rows rows of columns elements, in as much space and rows places, which may be
 * written whatever the status. BF_LENGTH unless matrix and space have rows * columns elements, and places has rows
 * places. */
uint32_t bf_r8_matrix_rank(const uint8_t *matrix, size_t matrix_length, size_t rows, size_t columns,
    uint8_t *space, size_t space_length, size_t *places, size_t places_length, size_t *rank) BF_CHECKED BF_NONNULL(9);

/* determinant: the determinant of a matrix of size rows of size elements, in as much space, which may be written
 * whatever the status; 1 of no rows. BF_LENGTH unless matrix and space have size * size elements. */
uint32_t bf_r8_matrix_determinant(const uint8_t *matrix, size_t matrix_length, size_t size,
    uint8_t *space, size_t space_length, uint8_t *determinant) BF_CHECKED BF_NONNULL(6);

/* inverse: the inverse of a matrix of size rows of size elements, in space for two of these and size places, which
 * may be written whatever the status. BF_LENGTH unless matrix and inverse have size * size elements, space 2 * size
 * * size, and places size places. BF_UNSOLVABLE unless the matrix has an inverse. */
uint32_t bf_r8_matrix_inverse(const uint8_t *matrix, size_t matrix_length, size_t size,
    uint8_t *inverse, size_t inverse_length, uint8_t *space, size_t space_length,
    size_t *places, size_t places_length) BF_CHECKED;

/* solution: a solution x of matrix * x = right, of rows equations in columns unknowns, in space for rows times
 * columns + 1 elements and rows places, which may be written whatever the status; an unknown that the others leave
 * open is 0. BF_LENGTH unless matrix has rows * columns elements, right rows, solution columns, space rows *
 * (columns + 1), and places rows places. BF_UNSOLVABLE unless there is a solution. */
uint32_t bf_r8_matrix_solve(const uint8_t *matrix, size_t matrix_length, size_t rows, size_t columns,
    const uint8_t *right, size_t right_length, uint8_t *solution, size_t solution_length,
    uint8_t *space, size_t space_length, size_t *places, size_t places_length) BF_CHECKED;

/* ------------------------------------------------------------------------------------------------------------------ */
/* Matrices over p64. */

/* product: the product of left, of rows rows of inner elements, and right, of inner rows of columns elements.
 * BF_LENGTH unless left has rows * inner elements, right inner * columns, and product rows * columns. */
uint32_t bf_p64_matrix_multiply(const uint64_t *left, size_t left_length, const uint64_t *right, size_t right_length,
    uint64_t *product, size_t product_length, size_t rows, size_t inner, size_t columns) BF_CHECKED;

/* Brings a matrix of rows rows of columns elements to reduced row echelon form; rank is its rank, the first rank of
 * the rows places of pivots become the columns of its leading entries, and the others stay. BF_LENGTH unless matrix
 * has rows * columns elements, and pivots rows places. */
uint32_t bf_p64_matrix_row_reduce(uint64_t *matrix, size_t matrix_length, size_t rows, size_t columns,
    size_t *pivots, size_t pivots_length, size_t *rank) BF_CHECKED BF_NONNULL(7);

/* rank: the rank of a matrix of rows rows of columns elements, in as much space and rows places, which may be
 * written whatever the status. BF_LENGTH unless matrix and space have rows * columns elements, and places has rows
 * places. */
uint32_t bf_p64_matrix_rank(const uint64_t *matrix, size_t matrix_length, size_t rows, size_t columns,
    uint64_t *space, size_t space_length, size_t *places, size_t places_length, size_t *rank) BF_CHECKED BF_NONNULL(9);

/* determinant: the determinant of a matrix of size rows of size elements, in as much space, which may be written
 * whatever the status; 1 of no rows. BF_LENGTH unless matrix and space have size * size elements. */
uint32_t bf_p64_matrix_determinant(const uint64_t *matrix, size_t matrix_length, size_t size,
    uint64_t *space, size_t space_length, uint64_t *determinant) BF_CHECKED BF_NONNULL(6);

/* inverse: the inverse of a matrix of size rows of size elements, in space for two of these and size places, which
 * may be written whatever the status. BF_LENGTH unless matrix and inverse have size * size elements, space 2 * size
 * * size, and places size places. BF_UNSOLVABLE unless the matrix has an inverse. */
uint32_t bf_p64_matrix_inverse(const uint64_t *matrix, size_t matrix_length, size_t size,
    uint64_t *inverse, size_t inverse_length, uint64_t *space, size_t space_length,
    size_t *places, size_t places_length) BF_CHECKED;

/* solution: a solution x of matrix * x = right, of rows equations in columns unknowns, in space for rows times
 * columns + 1 elements and rows places, which may be written whatever the status; an unknown that the others leave
 * open is 0. BF_LENGTH unless matrix has rows * columns elements, right rows, solution columns, space rows *
 * (columns + 1), and places rows places. BF_UNSOLVABLE unless there is a solution. */
uint32_t bf_p64_matrix_solve(const uint64_t *matrix, size_t matrix_length, size_t rows, size_t columns,
    const uint64_t *right, size_t right_length, uint64_t *solution, size_t solution_length,
    uint64_t *space, size_t space_length, size_t *places, size_t places_length) BF_CHECKED;

/* ------------------------------------------------------------------------------------------------------------------ */
/* Matrices over g128. */

/* product: the product of left, of rows rows of inner elements, and right, of inner rows of columns elements.
 * BF_LENGTH unless left has rows * inner elements, right inner * columns, and product rows * columns. */
uint32_t bf_g128_matrix_multiply(const bf_u128 *left, size_t left_length, const bf_u128 *right, size_t right_length,
    bf_u128 *product, size_t product_length, size_t rows, size_t inner, size_t columns) BF_CHECKED;

/* Brings a matrix of rows rows of columns elements to reduced row echelon form; rank is its rank, the first rank of
 * the rows places of pivots become the columns of its leading entries, and the others stay. BF_LENGTH unless matrix
 * has rows * columns elements, and pivots rows places. */
uint32_t bf_g128_matrix_row_reduce(bf_u128 *matrix, size_t matrix_length, size_t rows, size_t columns,
    size_t *pivots, size_t pivots_length, size_t *rank) BF_CHECKED BF_NONNULL(7);

/* rank: the rank of a matrix of rows rows of columns elements, in as much space and rows places, which may be
 * written whatever the status. BF_LENGTH unless matrix and space have rows * columns elements, and places has rows
 * places. */
uint32_t bf_g128_matrix_rank(const bf_u128 *matrix, size_t matrix_length, size_t rows, size_t columns,
    bf_u128 *space, size_t space_length, size_t *places, size_t places_length, size_t *rank) BF_CHECKED BF_NONNULL(9);

/* determinant: the determinant of a matrix of size rows of size elements, in as much space, which may be written
 * whatever the status; 1 of no rows. BF_LENGTH unless matrix and space have size * size elements. */
uint32_t bf_g128_matrix_determinant(const bf_u128 *matrix, size_t matrix_length, size_t size,
    bf_u128 *space, size_t space_length, bf_u128 *determinant) BF_CHECKED BF_NONNULL(6);

/* inverse: the inverse of a matrix of size rows of size elements, in space for two of these and size places, which
 * may be written whatever the status. BF_LENGTH unless matrix and inverse have size * size elements, space 2 * size
 * * size, and places size places. BF_UNSOLVABLE unless the matrix has an inverse. */
uint32_t bf_g128_matrix_inverse(const bf_u128 *matrix, size_t matrix_length, size_t size,
    bf_u128 *inverse, size_t inverse_length, bf_u128 *space, size_t space_length,
    size_t *places, size_t places_length) BF_CHECKED;

/* solution: a solution x of matrix * x = right, of rows equations in columns unknowns, in space for rows times
 * columns + 1 elements and rows places, which may be written whatever the status; an unknown that the others leave
 * open is 0. BF_LENGTH unless matrix has rows * columns elements, right rows, solution columns, space rows *
 * (columns + 1), and places rows places. BF_UNSOLVABLE unless there is a solution. */
uint32_t bf_g128_matrix_solve(const bf_u128 *matrix, size_t matrix_length, size_t rows, size_t columns,
    const bf_u128 *right, size_t right_length, bf_u128 *solution, size_t solution_length,
    bf_u128 *space, size_t space_length, size_t *places, size_t places_length) BF_CHECKED;

/* ------------------------------------------------------------------------------------------------------------------ */
/* Matrices over p192. */

/* product: the product of left, of rows rows of inner elements, and right, of inner rows of columns elements.
 * BF_LENGTH unless left has rows * inner elements, right inner * columns, and product rows * columns. */
uint32_t bf_p192_matrix_multiply(const bf_u192 *left, size_t left_length, const bf_u192 *right, size_t right_length,
    bf_u192 *product, size_t product_length, size_t rows, size_t inner, size_t columns) BF_CHECKED;

/* Brings a matrix of rows rows of columns elements to reduced row echelon form; rank is its rank, the first rank of
 * the rows places of pivots become the columns of its leading entries, and the others stay. BF_LENGTH unless matrix
 * has rows * columns elements, and pivots rows places. */
uint32_t bf_p192_matrix_row_reduce(bf_u192 *matrix, size_t matrix_length, size_t rows, size_t columns,
    size_t *pivots, size_t pivots_length, size_t *rank) BF_CHECKED BF_NONNULL(7);

/* rank: the rank of a matrix of rows rows of columns elements, in as much space and rows places, which may be
 * written whatever the status. BF_LENGTH unless matrix and space have rows * columns elements, and places has rows
 * places. */
uint32_t bf_p192_matrix_rank(const bf_u192 *matrix, size_t matrix_length, size_t rows, size_t columns,
    bf_u192 *space, size_t space_length, size_t *places, size_t places_length, size_t *rank) BF_CHECKED BF_NONNULL(9);

/* determinant: the determinant of a matrix of size rows of size elements, in as much space, which may be written
 * whatever the status; 1 of no rows. BF_LENGTH unless matrix and space have size * size elements. */
uint32_t bf_p192_matrix_determinant(const bf_u192 *matrix, size_t matrix_length, size_t size,
    bf_u192 *space, size_t space_length, bf_u192 *determinant) BF_CHECKED BF_NONNULL(6);

/* inverse: the inverse of a matrix of size rows of size elements, in space for two of these and size places, which
 * may be written whatever the status. BF_LENGTH unless matrix and inverse have size * size elements, space 2 * size
 * * size, and places size places. BF_UNSOLVABLE unless the matrix has an inverse. */
uint32_t bf_p192_matrix_inverse(const bf_u192 *matrix, size_t matrix_length, size_t size,
    bf_u192 *inverse, size_t inverse_length, bf_u192 *space, size_t space_length,
    size_t *places, size_t places_length) BF_CHECKED;

/* solution: a solution x of matrix * x = right, of rows equations in columns unknowns, in space for rows times
 * columns + 1 elements and rows places, which may be written whatever the status; an unknown that the others leave
 * open is 0. BF_LENGTH unless matrix has rows * columns elements, right rows, solution columns, space rows *
 * (columns + 1), and places rows places. BF_UNSOLVABLE unless there is a solution. */
uint32_t bf_p192_matrix_solve(const bf_u192 *matrix, size_t matrix_length, size_t rows, size_t columns,
    const bf_u192 *right, size_t right_length, bf_u192 *solution, size_t solution_length,
    bf_u192 *space, size_t space_length, size_t *places, size_t places_length) BF_CHECKED;

/* ------------------------------------------------------------------------------------------------------------------ */
/* Changes of basis, and linear maps over GF(2). */

/* images: the image in r8 of each element of t8, by the isomorphism of the two fields. BF_LENGTH unless values and
 * images have one length. */
uint32_t bf_t8_to_r8(const uint8_t *values, size_t values_length, uint8_t *images, size_t images_length) BF_CHECKED;

/* images: the image in t8 of each element of r8, by the isomorphism of the two fields. BF_LENGTH unless values and
 * images have one length. */
uint32_t bf_r8_to_t8(const uint8_t *values, size_t values_length, uint8_t *images, size_t images_length) BF_CHECKED;

/* images: the image in p64 of each element of t64, by the isomorphism of the two fields. BF_LENGTH unless values and
 * images have one length. */
uint32_t bf_t64_to_p64(const uint64_t *values, size_t values_length, uint64_t *images, size_t images_length) BF_CHECKED;

/* images: the image in t64 of each element of p64, by the isomorphism of the two fields. BF_LENGTH unless values and
 * images have one length. */
uint32_t bf_p64_to_t64(const uint64_t *values, size_t values_length, uint64_t *images, size_t images_length) BF_CHECKED;

/* images: the image in g128 of each element of t128, by the isomorphism of the two fields. BF_LENGTH unless values
 * and images have one length. */
uint32_t bf_t128_to_g128(const bf_u128 *values, size_t values_length, bf_u128 *images, size_t images_length) BF_CHECKED;

/* images: the image in t128 of each element of g128, by the isomorphism of the two fields. BF_LENGTH unless values
 * and images have one length. */
uint32_t bf_g128_to_t128(const bf_u128 *values, size_t values_length, bf_u128 *images, size_t images_length) BF_CHECKED;

/* mapped: for each byte the sum of the images at its set bits; eight images, that of bit 0 first. BF_LENGTH unless
 * values and mapped have one length, and there are 8 images. */
uint32_t bf_r8_linear_map(const uint8_t *values, size_t values_length, const uint8_t *images, size_t images_length,
    uint8_t *mapped, size_t mapped_length) BF_CHECKED;

/* mapped: for each word the sum of the images at its set bits; 128 images, that of bit 0 first. BF_LENGTH unless
 * values and mapped have one length, and there are 128 images. */
uint32_t bf_g128_linear_map(const bf_u128 *values, size_t values_length, const bf_u128 *images, size_t images_length,
    bf_u128 *mapped, size_t mapped_length) BF_CHECKED;

/* ------------------------------------------------------------------------------------------------------------------ */
/* Matrices over GF(2) whose rows are packed in words of 64 bits, row after row: a row of so many columns takes
 * ceil(columns / 64) words, and column j of it is bit j % 64 of its word j / 64. The bits behind the columns are 0:
 * a word where they are not is no element. */

/* product: the product over GF(2) of left, of rows rows of inner bits, and right, of inner rows of columns bits.
 * BF_LENGTH unless left has rows * ceil(inner / 64) words, right inner * ceil(columns / 64), and product rows *
 * ceil(columns / 64). */
uint32_t bf_bit_matrix_multiply(const uint64_t *left, size_t left_length, const uint64_t *right, size_t right_length,
    uint64_t *product, size_t product_length, size_t rows, size_t inner, size_t columns) BF_CHECKED;

/* transposed: the transpose of a matrix over GF(2) of rows rows of columns bits, which has columns rows of rows
 * bits. BF_LENGTH unless matrix has rows * ceil(columns / 64) words, and transposed columns * ceil(rows / 64). */
uint32_t bf_bit_matrix_transpose(const uint64_t *matrix, size_t matrix_length,
    uint64_t *transposed, size_t transposed_length, size_t rows, size_t columns) BF_CHECKED;

/* Brings a matrix over GF(2) of rows rows of columns bits to reduced row echelon form; rank is its rank, the first
 * rank of the rows places of pivots become the columns of its leading entries, and the others stay. BF_LENGTH unless
 * matrix has rows * ceil(columns / 64) words, and pivots rows places. */
uint32_t bf_bit_matrix_row_reduce(uint64_t *matrix, size_t matrix_length, size_t rows, size_t columns,
    size_t *pivots, size_t pivots_length, size_t *rank) BF_CHECKED BF_NONNULL(7);

/* rank: the rank of a matrix over GF(2) of rows rows of columns bits, in as much space and rows places, which may be
 * written whatever the status. BF_LENGTH unless matrix and space have rows * ceil(columns / 64) words, and places
 * has rows places. */
uint32_t bf_bit_matrix_rank(const uint64_t *matrix, size_t matrix_length, size_t rows, size_t columns,
    uint64_t *space, size_t space_length, size_t *places, size_t places_length, size_t *rank) BF_CHECKED BF_NONNULL(9);

/* ------------------------------------------------------------------------------------------------------------------ */
/* Fields of 2^m elements, m from 1 to 128, modulo any irreducible polynomial: bf_field_init makes a struct of the
 * caller of it, and tells exactly whether there is such a field. The modulus is x^m and the terms of tail, whose bit
 * i is the coefficient of x^i. The struct has no address in it and may be copied: words[0] is m, and words[1] and
 * words[2] the tail. An element is a bf_u128 below 2^m. A call first tests anew that the modulus is irreducible,
 * which takes as many squarings as m, so that many elements in one call cost less an element; it returns
 * BF_REDUCIBLE where a struct that bf_field_init did not make names no field. */

/* field: the field of the polynomials modulo x^degree + tail, for the other functions bf_field_*. BF_REDUCIBLE
 * unless that polynomial is irreducible, of a degree from 1 to 128, and tail has lower terms alone. */
uint32_t bf_field_init(bf_field *field, size_t degree, const bf_u128 *tail) BF_CHECKED BF_NONNULL(1) BF_NONNULL(3);

/* sums: the sum of the elements at each index. BF_LENGTH unless left, right and sums have one length.
 * BF_NOT_AN_ELEMENT unless each word that is read is below 2^degree. */
uint32_t bf_field_add(const bf_field *field, const bf_u128 *left, size_t left_length,
    const bf_u128 *right, size_t right_length, bf_u128 *sums, size_t sums_length) BF_CHECKED BF_NONNULL(1);

/* products: the product of the elements at each index. BF_LENGTH unless left, right and products have one length.
 * BF_NOT_AN_ELEMENT unless each word that is read is below 2^degree. */
uint32_t bf_field_multiply(const bf_field *field, const bf_u128 *left, size_t left_length,
    const bf_u128 *right, size_t right_length, bf_u128 *products, size_t products_length) BF_CHECKED BF_NONNULL(1);

/* products: the product of each element and the scalar. BF_LENGTH unless values and products have one length.
 * BF_NOT_AN_ELEMENT unless each word that is read is below 2^degree. */
uint32_t bf_field_multiply_by(const bf_field *field, const bf_u128 *values, size_t values_length, const bf_u128 *scalar,
    bf_u128 *products, size_t products_length) BF_CHECKED BF_NONNULL(1) BF_NONNULL(4);

/* squares: the square of each element. BF_LENGTH unless values and squares have one length. BF_NOT_AN_ELEMENT unless
 * each word that is read is below 2^degree. */
uint32_t bf_field_square(const bf_field *field, const bf_u128 *values, size_t values_length,
    bf_u128 *squares, size_t squares_length) BF_CHECKED BF_NONNULL(1);

/* inverses: the inverse of each element, and 0 for 0. BF_LENGTH unless values and inverses have one length.
 * BF_NOT_AN_ELEMENT unless each word that is read is below 2^degree. */
uint32_t bf_field_inverse(const bf_field *field, const bf_u128 *values, size_t values_length,
    bf_u128 *inverses, size_t inverses_length) BF_CHECKED BF_NONNULL(1);

/* roots: the square root of each element. BF_LENGTH unless values and roots have one length. BF_NOT_AN_ELEMENT
 * unless each word that is read is below 2^degree. */
uint32_t bf_field_square_root(const bf_field *field, const bf_u128 *values, size_t values_length,
    bf_u128 *roots, size_t roots_length) BF_CHECKED BF_NONNULL(1);

/* powers: each element to the power of the exponent; to the power 0 it is 1. BF_LENGTH unless values and powers have
 * one length. BF_NOT_AN_ELEMENT unless each word that is read is below 2^degree. */
uint32_t bf_field_power(const bf_field *field, const bf_u128 *values, size_t values_length, uint64_t exponent,
    bf_u128 *powers, size_t powers_length) BF_CHECKED BF_NONNULL(1);

/* traces: the trace of each element over GF(2), which is 0 or 1. BF_LENGTH unless values and traces have one length.
 * BF_NOT_AN_ELEMENT unless each word that is read is below 2^degree. */
uint32_t bf_field_trace(const bf_field *field, const bf_u128 *values, size_t values_length,
    bf_u128 *traces, size_t traces_length) BF_CHECKED BF_NONNULL(1);

/* quotients: the quotient of the elements at each index, and 0 where that of right is 0. BF_LENGTH unless left,
 * right and quotients have one length. BF_NOT_AN_ELEMENT unless each word that is read is below 2^degree. */
uint32_t bf_field_divide(const bf_field *field, const bf_u128 *left, size_t left_length,
    const bf_u128 *right, size_t right_length, bf_u128 *quotients, size_t quotients_length) BF_CHECKED BF_NONNULL(1);

/* sum: the sum of the products of the elements at each index, which is 0 of none. BF_LENGTH unless left and right
 * have one length. BF_NOT_AN_ELEMENT unless each word that is read is below 2^degree. */
uint32_t bf_field_dot_product(const bf_field *field, const bf_u128 *left, size_t left_length,
    const bf_u128 *right, size_t right_length, bf_u128 *sum) BF_CHECKED BF_NONNULL(1) BF_NONNULL(6);

/* values: the value at each point of the polynomial with these coefficients, the constant one first; of none it is
 * 0. BF_LENGTH unless points and values have one length. BF_NOT_AN_ELEMENT unless each word that is read is below
 * 2^degree. */
uint32_t bf_field_evaluate(const bf_field *field, const bf_u128 *coefficients, size_t coefficients_length,
    const bf_u128 *points, size_t points_length, bf_u128 *values, size_t values_length) BF_CHECKED BF_NONNULL(1);

/* element: the least primitive element, whose powers are all elements but 0. BF_UNSOLVABLE unless there is one below
 * 65536, as in every field that has been looked at. */
uint32_t bf_field_primitive_element(const bf_field *field, bf_u128 *element) BF_CHECKED BF_NONNULL(1) BF_NONNULL(2);

/* logarithms: the logarithm of each element to the base: the least exponent to which the power of the base is the
 * element, found in as many steps as the greatest prime factor of the order of the base is. BF_LENGTH unless values
 * and logarithms have one length. BF_NOT_AN_ELEMENT unless each word that is read is below 2^degree. BF_UNSOLVABLE
 * unless each element is a power of the base. */
uint32_t bf_field_logarithm(const bf_field *field, const bf_u128 *values, size_t values_length, const bf_u128 *base,
    bf_u128 *logarithms, size_t logarithms_length) BF_CHECKED BF_NONNULL(1) BF_NONNULL(4);

/* orders: the order of each element, the least exponent above 0 to which its power is 1, and 0 for 0, which has
 * none. BF_LENGTH unless values and orders have one length. BF_NOT_AN_ELEMENT unless each word that is read is below
 * 2^degree. */
uint32_t bf_field_order(const bf_field *field, const bf_u128 *values, size_t values_length,
    bf_u128 *orders, size_t orders_length) BF_CHECKED BF_NONNULL(1);

/* traces: the trace of each element over the subfield of 2^subfield_degree elements: the sum of its conjugates, an
 * element of the subfield as it lies in the field. BF_UNSOLVABLE unless subfield_degree divides the degree of the
 * field. BF_LENGTH unless values and traces have one length. BF_NOT_AN_ELEMENT unless each word that is read is
 * below 2^degree. */
uint32_t bf_field_trace_to(const bf_field *field, const bf_u128 *values, size_t values_length, size_t subfield_degree,
    bf_u128 *traces, size_t traces_length) BF_CHECKED BF_NONNULL(1);

/* norms: the norm of each element over the subfield of 2^subfield_degree elements: the product of its conjugates, an
 * element of the subfield as it lies in the field. BF_UNSOLVABLE unless subfield_degree divides the degree of the
 * field. BF_LENGTH unless values and norms have one length. BF_NOT_AN_ELEMENT unless each word that is read is below
 * 2^degree. */
uint32_t bf_field_norm_to(const bf_field *field, const bf_u128 *values, size_t values_length, size_t subfield_degree,
    bf_u128 *norms, size_t norms_length) BF_CHECKED BF_NONNULL(1);

/* The minimal polynomial of the element over GF(2), which is x^degree + tail: the irreducible polynomial of which
 * the element is a root. BF_NOT_AN_ELEMENT unless element is one of the field. */
uint32_t bf_field_minimal_polynomial(const bf_field *field, const bf_u128 *element, size_t *degree,
    bf_u128 *tail) BF_CHECKED BF_NONNULL(1) BF_NONNULL(2) BF_NONNULL(3) BF_NONNULL(4);

/* next: the least tail from tail on, as a number, with which x^degree + next is irreducible, for bf_field_init; from
 * tail + 1 on it is the next after one. BF_UNSOLVABLE unless there is one, of a degree from 1 to 128. */
uint32_t bf_field_next_irreducible(size_t degree, const bf_u128 *tail,
    bf_u128 *next) BF_CHECKED BF_NONNULL(2) BF_NONNULL(3);

/* next: the least tail from tail on, as a number, with which x^degree + next is primitive: it is irreducible, and x
 * has the order 2^degree - 1 modulo it. BF_UNSOLVABLE unless there is one, of a degree from 1 to 128. */
uint32_t bf_field_next_primitive(size_t degree, const bf_u128 *tail,
    bf_u128 *next) BF_CHECKED BF_NONNULL(2) BF_NONNULL(3);

/* root: an element of target that is a root of the modulus of source, by which bf_field_embed takes elements of
 * source to target. BF_UNSOLVABLE unless the degree of source divides that of target. */
uint32_t bf_field_embedding(const bf_field *source, const bf_field *target,
    bf_u128 *root) BF_CHECKED BF_NONNULL(1) BF_NONNULL(2) BF_NONNULL(3);

/* images: the image in target of each element of source: the value at the root of the polynomial that it is, so that
 * sums and products are kept. BF_UNSOLVABLE unless root is a root of the modulus of source in target. BF_LENGTH
 * unless values and images have one length. BF_NOT_AN_ELEMENT unless each word that is read is below 2^degree. */
uint32_t bf_field_embed(const bf_field *source, const bf_field *target, const bf_u128 *root,
    const bf_u128 *values, size_t values_length,
    bf_u128 *images, size_t images_length) BF_CHECKED BF_NONNULL(1) BF_NONNULL(2) BF_NONNULL(3);

/* product: the product of left, of rows rows of inner elements, and right, of inner rows of columns elements.
 * BF_LENGTH unless left has rows * inner elements, right inner * columns, and product rows * columns.
 * BF_NOT_AN_ELEMENT unless each word that is read is below 2^degree. */
uint32_t bf_field_matrix_multiply(const bf_field *field, const bf_u128 *left, size_t left_length,
    const bf_u128 *right, size_t right_length, bf_u128 *product, size_t product_length, size_t rows, size_t inner,
    size_t columns) BF_CHECKED BF_NONNULL(1);

/* Brings a matrix of rows rows of columns elements to reduced row echelon form; rank is its rank, the first rank of
 * the rows places of pivots become the columns of its leading entries, and the others stay. BF_LENGTH unless matrix
 * has rows * columns elements, and pivots rows places. BF_NOT_AN_ELEMENT unless each word that is read is below
 * 2^degree. */
uint32_t bf_field_matrix_row_reduce(const bf_field *field, bf_u128 *matrix, size_t matrix_length, size_t rows,
    size_t columns, size_t *pivots, size_t pivots_length, size_t *rank) BF_CHECKED BF_NONNULL(1) BF_NONNULL(8);

/* rank: the rank of a matrix of rows rows of columns elements, in as much space and rows places, which may be
 * written whatever the status. BF_LENGTH unless matrix and space have rows * columns elements, and places has rows
 * places. BF_NOT_AN_ELEMENT unless each word that is read is below 2^degree. */
uint32_t bf_field_matrix_rank(const bf_field *field, const bf_u128 *matrix, size_t matrix_length, size_t rows,
    size_t columns, bf_u128 *space, size_t space_length, size_t *places, size_t places_length,
    size_t *rank) BF_CHECKED BF_NONNULL(1) BF_NONNULL(10);

/* determinant: the determinant of a matrix of size rows of size elements, in as much space, which may be written
 * whatever the status; 1 of no rows. BF_LENGTH unless matrix and space have size * size elements. BF_NOT_AN_ELEMENT
 * unless each word that is read is below 2^degree. */
uint32_t bf_field_matrix_determinant(const bf_field *field, const bf_u128 *matrix, size_t matrix_length, size_t size,
    bf_u128 *space, size_t space_length, bf_u128 *determinant) BF_CHECKED BF_NONNULL(1) BF_NONNULL(7);

/* inverse: the inverse of a matrix of size rows of size elements, in space for two of these and size places, which
 * may be written whatever the status. BF_LENGTH unless matrix and inverse have size * size elements, space 2 * size
 * * size, and places size places. BF_NOT_AN_ELEMENT unless each word that is read is below 2^degree. BF_UNSOLVABLE
 * unless the matrix has an inverse. */
uint32_t bf_field_matrix_inverse(const bf_field *field, const bf_u128 *matrix, size_t matrix_length, size_t size,
    bf_u128 *inverse, size_t inverse_length, bf_u128 *space, size_t space_length,
    size_t *places, size_t places_length) BF_CHECKED BF_NONNULL(1);

/* solution: a solution x of matrix * x = right, of rows equations in columns unknowns, in space for rows times
 * columns + 1 elements and rows places, which may be written whatever the status; an unknown that the others leave
 * open is 0. BF_LENGTH unless matrix has rows * columns elements, right rows, solution columns, space rows *
 * (columns + 1), and places rows places. BF_NOT_AN_ELEMENT unless each word that is read is below 2^degree.
 * BF_UNSOLVABLE unless there is a solution. */
uint32_t bf_field_matrix_solve(const bf_field *field, const bf_u128 *matrix, size_t matrix_length, size_t rows,
    size_t columns, const bf_u128 *right, size_t right_length, bf_u128 *solution, size_t solution_length,
    bf_u128 *space, size_t space_length, size_t *places, size_t places_length) BF_CHECKED BF_NONNULL(1);

/* ------------------------------------------------------------------------------------------------------------------ */
/* Stages of additive transforms over g128, and the whole transform over g128 and levels of the tower. s_0(x) = x,
 * and s_(j+1)(x) = s_j(x)^2 + s_j(x). The basis of subspace polynomials is the products of the s_j: coefficient k is
 * that of the product of the s_j over the set bits j of k. Point p is the shift, and Cantor vector b for each set
 * bit b of p; vector 0 is 1, and of v^2 + v each other vector v makes the one before. In the low stages the factor
 * of stage j at index p is shifts[j], and basis[t] for each set bit t of p >> (j + 1). */

/* low += scalar * high, and then high += low, at each index. BF_LENGTH unless low and high have one length. */
uint32_t bf_g128_butterfly_forward(bf_u128 *low, size_t low_length, bf_u128 *high, size_t high_length,
    const bf_u128 *scalar) BF_CHECKED BF_NONNULL(5);

/* high += low, and then low += scalar * high, at each index. BF_LENGTH unless low and high have one length. */
uint32_t bf_g128_butterfly_inverse(bf_u128 *low, size_t low_length, bf_u128 *high, size_t high_length,
    const bf_u128 *scalar) BF_CHECKED BF_NONNULL(5);

/* The four lowest stages of an additive transform over runs of sixteen values, the first of which is run first_run;
 * four shifts, and a basis of 3 to 128 elements, 2 to the power of three less than which is at least the number
 * behind the last run. BF_LENGTH unless values has a multiple of 16, shifts 4 and basis 3 to 128; where there are
 * values, first_run and the number of runs are together at most 2 to the power of 3 less than the length of basis. */
uint32_t bf_g128_low_stages(bf_u128 *values, size_t values_length, const bf_u128 *shifts, size_t shifts_length,
    const bf_u128 *basis, size_t basis_length, size_t first_run) BF_CHECKED;

/* The value at each of 2^m points, m from 0 to 40, of the polynomial with these coefficients in the basis of
 * subspace polynomials. BF_LENGTH unless values has 2^m elements, for an m from 0 to 40. */
uint32_t bf_g128_transform(bf_u128 *values, size_t values_length, const bf_u128 *shift) BF_CHECKED BF_NONNULL(3);

/* The coefficients that bf_g128_transform takes to these values. BF_LENGTH unless values has 2^m elements, for an m
 * from 0 to 40. */
uint32_t bf_g128_inverse_transform(bf_u128 *values, size_t values_length,
    const bf_u128 *shift) BF_CHECKED BF_NONNULL(3);

/* The same as bf_g128_transform, over t16; it is fastest where the shift is 0 or below 65536. BF_LENGTH unless
 * values has 2^m elements, for an m from 0 to 16. */
uint32_t bf_t16_transform(uint16_t *values, size_t values_length, uint16_t shift) BF_CHECKED;

/* The coefficients that bf_t16_transform takes to these values. BF_LENGTH unless values has 2^m elements, for an m
 * from 0 to 16. */
uint32_t bf_t16_inverse_transform(uint16_t *values, size_t values_length, uint16_t shift) BF_CHECKED;

/* The same as bf_g128_transform, over t32; it is fastest where the shift is 0 or below 65536. BF_LENGTH unless
 * values has 2^m elements, for an m from 0 to 32. */
uint32_t bf_t32_transform(uint32_t *values, size_t values_length, uint32_t shift) BF_CHECKED;

/* The coefficients that bf_t32_transform takes to these values. BF_LENGTH unless values has 2^m elements, for an m
 * from 0 to 32. */
uint32_t bf_t32_inverse_transform(uint32_t *values, size_t values_length, uint32_t shift) BF_CHECKED;

/* The same as bf_g128_transform, over t64; it is fastest where the shift is 0 or below 65536. BF_LENGTH unless
 * values has 2^m elements, for an m from 0 to 40. */
uint32_t bf_t64_transform(uint64_t *values, size_t values_length, uint64_t shift) BF_CHECKED;

/* The coefficients that bf_t64_transform takes to these values. BF_LENGTH unless values has 2^m elements, for an m
 * from 0 to 40. */
uint32_t bf_t64_inverse_transform(uint64_t *values, size_t values_length, uint64_t shift) BF_CHECKED;

/* The same as bf_g128_transform, over t128; it is fastest where the shift is 0 or below 65536. BF_LENGTH unless
 * values has 2^m elements, for an m from 0 to 40. */
uint32_t bf_t128_transform(bf_u128 *values, size_t values_length, const bf_u128 *shift) BF_CHECKED BF_NONNULL(3);

/* The coefficients that bf_t128_transform takes to these values. BF_LENGTH unless values has 2^m elements, for an m
 * from 0 to 40. */
uint32_t bf_t128_inverse_transform(bf_u128 *values, size_t values_length,
    const bf_u128 *shift) BF_CHECKED BF_NONNULL(3);

/* ------------------------------------------------------------------------------------------------------------------ */
/* Hashes of authentication tags. Nothing is claimed on timing. A message in pieces of any length is hashed by a
 * struct of the caller: bf_tag_ghash_init makes it of the key, bf_tag_ghash_update adds bytes to its message, and
 * bf_tag_ghash_final writes what bf_tag_ghash gives of the whole message. It has no address in it, so that a copy of
 * it goes on by itself, and one that was made of a key serves for many messages; it tells the key. By one that these
 * functions did not make a call writes bytes of which nothing is said. For GCM the associated data come first, then
 * bf_tag_ghash_pad, and then the ciphertext, and bf_tag_gcm_ghash_final writes what bf_tag_gcm_ghash gives. GCM-SIV
 * goes so by POLYVAL, over the plain text: behind that come bf_tag_polyval_pad, 16 bytes more, which are both
 * lengths in bits, 8 bytes each, the lowest first, and bf_tag_polyval_final. */

/* hash: GHASH of the message (NIST SP 800-38D), zeros added to whole blocks. BF_LENGTH unless key and hash have 16
 * bytes. */
uint32_t bf_tag_ghash(const uint8_t *key, size_t key_length, const uint8_t *message, size_t message_length,
    uint8_t *hash, size_t hash_length) BF_CHECKED;

/* hash: POLYVAL of the message (RFC 8452), zeros added to whole blocks. BF_LENGTH unless key and hash have 16 bytes. */
uint32_t bf_tag_polyval(const uint8_t *key, size_t key_length, const uint8_t *message, size_t message_length,
    uint8_t *hash, size_t hash_length) BF_CHECKED;

/* hash: the hash of GCM over associated data and ciphertext, each below 2^61 bytes, with the block of their lengths.
 * BF_LENGTH unless key and hash have 16 bytes, and associated and ciphertext below 2^61 each. */
uint32_t bf_tag_gcm_ghash(const uint8_t *key, size_t key_length, const uint8_t *associated, size_t associated_length,
    const uint8_t *ciphertext, size_t ciphertext_length, uint8_t *hash, size_t hash_length) BF_CHECKED;

/* state: the hash of the empty message under the key, to which bf_tag_ghash_update adds bytes. BF_LENGTH unless key
 * has 16 bytes. */
uint32_t bf_tag_ghash_init(bf_ghash_state *state, const uint8_t *key, size_t key_length) BF_CHECKED BF_NONNULL(1);

/* Adds bytes to the message, of any number: no zeros come between them and the next ones. */
uint32_t bf_tag_ghash_update(bf_ghash_state *state,
    const uint8_t *message, size_t message_length) BF_CHECKED BF_NONNULL(1);

/* Adds as many zeros as make the message whole blocks, which may be none. */
uint32_t bf_tag_ghash_pad(bf_ghash_state *state) BF_CHECKED BF_NONNULL(1);

/* hash: what bf_tag_ghash gives of the message, which is then empty, under the same key. BF_LENGTH unless hash has
 * 16 bytes. */
uint32_t bf_tag_ghash_final(bf_ghash_state *state, uint8_t *hash, size_t hash_length) BF_CHECKED BF_NONNULL(1);

/* state: the hash of the empty message under the key, to which bf_tag_polyval_update adds bytes. BF_LENGTH unless
 * key has 16 bytes. */
uint32_t bf_tag_polyval_init(bf_polyval_state *state, const uint8_t *key, size_t key_length) BF_CHECKED BF_NONNULL(1);

/* Adds bytes to the message, of any number: no zeros come between them and the next ones. */
uint32_t bf_tag_polyval_update(bf_polyval_state *state,
    const uint8_t *message, size_t message_length) BF_CHECKED BF_NONNULL(1);

/* Adds as many zeros as make the message whole blocks, which may be none. */
uint32_t bf_tag_polyval_pad(bf_polyval_state *state) BF_CHECKED BF_NONNULL(1);

/* hash: what bf_tag_polyval gives of the message, which is then empty, under the same key. BF_LENGTH unless hash has
 * 16 bytes. */
uint32_t bf_tag_polyval_final(bf_polyval_state *state, uint8_t *hash, size_t hash_length) BF_CHECKED BF_NONNULL(1);

/* hash: what bf_tag_gcm_ghash gives, where the message is the associated data, bf_tag_ghash_pad behind them, and the
 * ciphertext, by their lengths in bytes, each below 2^61; the message is then empty, under the same key. BF_LENGTH
 * unless hash has 16 bytes, and both lengths are below 2^61. */
uint32_t bf_tag_gcm_ghash_final(bf_ghash_state *state, size_t associated_length, size_t ciphertext_length,
    uint8_t *hash, size_t hash_length) BF_CHECKED BF_NONNULL(1);

/* equal: 1 where the two have the same bytes, else 0. What a compiler made of it was looked at: all bytes are read
 * whatever they are, and one test comes at the end; unlike lengths return at once. docs/THEOREMS.md says what was
 * looked at of other functions. */
uint32_t bf_tags_are_equal(const uint8_t *left, size_t left_length, const uint8_t *right, size_t right_length,
    uint8_t *equal) BF_CHECKED BF_NONNULL(5);

/* ------------------------------------------------------------------------------------------------------------------ */
/* Reed-Solomon codes over bytes modulo x^8 + x^4 + x^3 + x^2 + 1: shard i has the values at the byte i of the
 * polynomials that the data determine. */

/* How many bytes the tables of a code take, as bf_rs_tables_length gives it, for an array of that length. */
#define BF_RS_TABLES_LENGTH(data, parity) ((size_t)128 * (data) * (((parity) + 3) / 4))

/* length: how many bytes the tables of the code take: 32 for each pair of a shard of data and one of parity, parity
 * counted up to a multiple of 4. BF_CODE if data and parity are not both at least 1 and together at most 256. */
uint32_t bf_rs_tables_length(size_t data, size_t parity, uint64_t *length) BF_CHECKED BF_NONNULL(3);

/* tables: the tables of the code, by which bf_rs_encode_prepared and bf_rs_verify_prepared work; they are read
 * faster from a multiple of 16 on. BF_CODE if data and parity are not both at least 1 and together at most 256.
 * BF_LENGTH unless tables has the bytes that bf_rs_tables_length gives. */
uint32_t bf_rs_prepare(size_t data, size_t parity, uint8_t *tables, size_t tables_length) BF_CHECKED;

/* Adds to sums what a shard of data is in a shard of parity, by the tables that bf_rs_prepare wrote for this code;
 * once each shard of data was added to zeros, in any order, sums is that shard of parity. BF_CODE if data and parity
 * are not both at least 1 and together at most 256. BF_LENGTH unless tables has the bytes that bf_rs_tables_length
 * gives, data_shard is below data and parity_shard below parity, and shard and sums have one length. */
uint32_t bf_rs_add_shard(size_t data, size_t parity, const uint8_t *tables, size_t tables_length, size_t data_shard,
    size_t parity_shard, const uint8_t *shard, size_t shard_length, uint8_t *sums, size_t sums_length) BF_CHECKED;

/* Writes the shards of parity, which stand behind those of data; all shards stand one after the other and have one
 * size. BF_CODE if data and parity are not both at least 1 and together at most 256. BF_LENGTH unless shards has a
 * multiple, but not 0, of data + parity bytes. */
uint32_t bf_rs_encode(size_t data, size_t parity, uint8_t *shards, size_t shards_length) BF_CHECKED;

/* Writes the shards of parity, as bf_rs_encode does, by the tables that bf_rs_prepare wrote for this code; by other
 * bytes it writes parity of which nothing is said, and the data stay. BF_CODE if data and parity are not both at
 * least 1 and together at most 256. BF_LENGTH unless tables has the bytes that bf_rs_tables_length gives, and shards
 * a multiple, but not 0, of data + parity. */
uint32_t bf_rs_encode_prepared(size_t data, size_t parity, const uint8_t *tables, size_t tables_length,
    uint8_t *shards, size_t shards_length) BF_CHECKED;

/* Writes the shards of parity of shards that stand apart, each of size bytes: the pointers are those of the shards of
 * data and of parity, of which none of parity overlaps another shard. tables is what bf_rs_prepare wrote for this code.
 * It is bf_rs_add_shard for each pair of shards, and no function of the library: it is tested and not proved. BF_CODE
 * and BF_LENGTH are those of bf_rs_add_shard. */
static inline uint32_t BF_CHECKED bf_rs_encode_pointers(size_t data, size_t parity, const uint8_t *tables,
    size_t tables_length, const uint8_t *const *shards, uint8_t *const *parity_shards, size_t size)
{
    size_t row, place, at;
    /* Without bytes a call tells whether the counts and the tables fit, before anything is written. */
    uint32_t status = bf_rs_add_shard(data, parity, tables, tables_length, 0, 0, NULL, 0, NULL, 0);
    for (row = 0; status == BF_OK && row < parity; row++) {
        for (place = 0; place < size; place++) {
            parity_shards[row][place] = 0;
        }
        for (at = 0; status == BF_OK && at < data; at++) {
            status = bf_rs_add_shard(
                data, parity, tables, tables_length, at, row, shards[at], size, parity_shards[row], size);
        }
    }
    return status;
}

/* whole: 1 where the shards of parity are those of the data, else 0. BF_CODE if data and parity are not both at
 * least 1 and together at most 256. BF_LENGTH unless shards has a multiple, but not 0, of data + parity bytes. */
uint32_t bf_rs_verify(size_t data, size_t parity, const uint8_t *shards, size_t shards_length,
    uint8_t *whole) BF_CHECKED BF_NONNULL(5);

/* whole: 1 where the shards of parity are those of the data, else 0, by the tables that bf_rs_prepare wrote for this
 * code; by other bytes it is 0 or 1. BF_CODE if data and parity are not both at least 1 and together at most 256.
 * BF_LENGTH unless tables has the bytes that bf_rs_tables_length gives, and shards a multiple, but not 0, of data +
 * parity. */
uint32_t bf_rs_verify_prepared(size_t data, size_t parity, const uint8_t *tables, size_t tables_length,
    const uint8_t *shards, size_t shards_length, uint8_t *whole) BF_CHECKED BF_NONNULL(7);

/* factors: the factor of each shard in a missing one, which is the sum of the products of the present shards by
 * their factors: shard i is missing where present[i] is 0, and the factors of all but the first present shards, as
 * many as data, are 0. BF_CODE if data and parity are not both at least 1 and together at most 256. BF_LENGTH unless
 * present and factors have data + parity bytes, and shard is below data + parity and missing. BF_TOO_FEW_SHARDS
 * unless at least as many entries of present as data are not 0. */
uint32_t bf_rs_shard_factors(size_t data, size_t parity, const uint8_t *present, size_t present_length, size_t shard,
    uint8_t *factors, size_t factors_length) BF_CHECKED;

/* Adds to each byte of sums the product of the byte of shard at its index by the factor, modulo x^8 + x^4 + x^3 +
 * x^2 + 1. BF_LENGTH unless shard and sums have one length. */
uint32_t bf_rs_add_multiple(uint8_t factor, const uint8_t *shard, size_t shard_length,
    uint8_t *sums, size_t sums_length) BF_CHECKED;

/* The tables of the missing shards, by which bf_rs_reconstruct_prepared and bf_rs_reconstruct_data_prepared restore
 * them in every stripe that lacks the same ones; they have as many bytes as those of the code, whatever shards are
 * missing, and of the bytes behind them nothing is said. BF_CODE if data and parity are not both at least 1 and
 * together at most 256. BF_LENGTH unless tables has the bytes that bf_rs_tables_length gives, and present has data +
 * parity. BF_TOO_FEW_SHARDS unless at least as many entries of present as data are not 0. */
uint32_t bf_rs_prepare_reconstruct(size_t data, size_t parity, const uint8_t *present, size_t present_length,
    uint8_t *tables, size_t tables_length) BF_CHECKED;

/* Writes the missing shards: shard i is missing where present[i] is 0. BF_CODE if data and parity are not both at
 * least 1 and together at most 256. BF_LENGTH unless shards has a multiple, but not 0, of data + parity bytes, and
 * present has data + parity. BF_TOO_FEW_SHARDS unless at least as many entries of present as data are not 0. */
uint32_t bf_rs_reconstruct(size_t data, size_t parity, uint8_t *shards, size_t shards_length,
    const uint8_t *present, size_t present_length) BF_CHECKED;

/* Writes the missing shards of data alone. BF_CODE if data and parity are not both at least 1 and together at most
 * 256. BF_LENGTH unless shards has a multiple, but not 0, of data + parity bytes, and present has data + parity.
 * BF_TOO_FEW_SHARDS unless at least as many entries of present as data are not 0. */
uint32_t bf_rs_reconstruct_data(size_t data, size_t parity, uint8_t *shards, size_t shards_length,
    const uint8_t *present, size_t present_length) BF_CHECKED;

/* Writes the missing shards, as bf_rs_reconstruct does, by the tables that bf_rs_prepare_reconstruct wrote for this
 * code and these flags; by other bytes it writes missing shards of which nothing is said, and those present stay.
 * BF_CODE if data and parity are not both at least 1 and together at most 256. BF_LENGTH unless tables has the bytes
 * that bf_rs_tables_length gives, shards a multiple, but not 0, of data + parity, and present data + parity.
 * BF_TOO_FEW_SHARDS unless at least as many entries of present as data are not 0. */
uint32_t bf_rs_reconstruct_prepared(size_t data, size_t parity, const uint8_t *tables, size_t tables_length,
    uint8_t *shards, size_t shards_length, const uint8_t *present, size_t present_length) BF_CHECKED;

/* Writes the missing shards of data alone, by the same tables. BF_CODE if data and parity are not both at least 1
 * and together at most 256. BF_LENGTH unless tables has the bytes that bf_rs_tables_length gives, shards a multiple,
 * but not 0, of data + parity, and present data + parity. BF_TOO_FEW_SHARDS unless at least as many entries of
 * present as data are not 0. */
uint32_t bf_rs_reconstruct_data_prepared(size_t data, size_t parity, const uint8_t *tables, size_t tables_length,
    uint8_t *shards, size_t shards_length, const uint8_t *present, size_t present_length) BF_CHECKED;

/* Writes the missing shards of shards that stand apart, each of size bytes. shards has the pointers of those of
 * data, and then of those of parity; a shard that is missing overlaps no other. Shard i is missing where present[i]
 * is 0; where its pointer is NULL too it is left out, as those of parity may be. This is bf_rs_shard_factors for
 * each missing shard, and bf_rs_add_multiple for each pair, and no function of the library: it is tested and not
 * proved. BF_CODE, BF_LENGTH (of a size of 0) and BF_TOO_FEW_SHARDS come as from bf_rs_reconstruct, and then the
 * shards are as before. */
static inline uint32_t BF_CHECKED bf_rs_reconstruct_pointers(
    size_t data, size_t parity, uint8_t *const *shards, const uint8_t *present, size_t size)
{
    uint8_t factors[256];
    uint64_t tables_length;
    size_t lost, place, at;
    /* This tells whether there is such a code, before flags are read. */
    uint32_t status = bf_rs_tables_length(data, parity, &tables_length);
    if (status == BF_OK && size == 0) {
        status = BF_LENGTH;
    }
    for (lost = 0; status == BF_OK && lost < data + parity; lost++) {
        if (present[lost]) {
            continue;
        }
        status = bf_rs_shard_factors(data, parity, present, data + parity, lost, factors, data + parity);
        for (place = 0; status == BF_OK && shards[lost] && place < size; place++) {
            shards[lost][place] = 0;
        }
        for (at = 0; status == BF_OK && shards[lost] && at < data + parity; at++) {
            if (factors[at]) {
                status = bf_rs_add_multiple(factors[at], shards[at], size, shards[lost], size);
            }
        }
    }
    return status;
}

/* ------------------------------------------------------------------------------------------------------------------ */
/* Reed-Solomon codes over bytes that correct errors. A word has so many symbols, at most 255, of which so many are
 * data and come first. The first symbol is the coefficient of the highest power, and a word is one of the code where
 * its polynomial is 0 at each root: g to the power of root_step * (first_root + m), for each m below symbols - data.
 * The field is that of the modulus, bit i for x^i, and g the generator that standards take: 0x11d (QR codes, DVB)
 * and 0x187 (CCSDS) with g = x, and 0x11b (AES) with g = x + 1. So QR codes have first_root 0 and root_step 1, DVB
 * has 204, 188, 0 and 1, and CCSDS 255, 223, 112 and 11, its bytes in the basis 1, x, .., x^7. Words stand one after
 * the other, and each call finds the code anew, which takes as long as some words: many words at once are faster. */

/* Writes the symbols behind the data of each word, so that it is a word of the code. BF_CODE if modulus is none of
 * those above, data is 0 or not below symbols, symbols is above 255, or a power of g^root_step with an exponent from
 * 1 to symbols - 1 is 1. BF_LENGTH unless words has a multiple of symbols. */
uint32_t bf_code_encode(uint64_t modulus, size_t symbols, size_t data, uint64_t first_root, uint64_t root_step,
    uint8_t *words, size_t words_length) BF_CHECKED;

/* syndromes: the values of each word at the roots, that at the first root first; symbols - data of them a word.
 * BF_CODE if modulus is none of those above, data is 0 or not below symbols, symbols is above 255, or a power of
 * g^root_step with an exponent from 1 to symbols - 1 is 1. BF_LENGTH unless words has a multiple of symbols, and
 * syndromes symbols - data for each word. */
uint32_t bf_code_syndromes(uint64_t modulus, size_t symbols, size_t data, uint64_t first_root, uint64_t root_step,
    const uint8_t *words, size_t words_length, uint8_t *syndromes, size_t syndromes_length) BF_CHECKED;

/* flags: 1 for each word that is one of the code, 0 for each other. BF_CODE if modulus is none of those above, data
 * is 0 or not below symbols, symbols is above 255, or a power of g^root_step with an exponent from 1 to symbols - 1
 * is 1. BF_LENGTH unless words has a multiple of symbols, and flags one for each word. */
uint32_t bf_code_are_words(uint64_t modulus, size_t symbols, size_t data, uint64_t first_root, uint64_t root_step,
    const uint8_t *words, size_t words_length, uint8_t *flags, size_t flags_length) BF_CHECKED;

/* corrected: corrects each word, and writes how many of its symbols changed; a symbol is erased where its byte of
 * erasures is not 0. A word becomes the only word of the code from which it differs at t places beside e erased
 * ones, with 2 * t + e at most symbols - data. Where there is none it stays, and corrected is 65535. BF_CODE if
 * modulus is none of those above, data is 0 or not below symbols, symbols is above 255, or a power of g^root_step
 * with an exponent from 1 to symbols - 1 is 1. BF_LENGTH unless words has a multiple of symbols, erasures as many
 * bytes or none, and corrected one for each word. */
uint32_t bf_code_correct(uint64_t modulus, size_t symbols, size_t data, uint64_t first_root, uint64_t root_step,
    uint8_t *words, size_t words_length, const uint8_t *erasures, size_t erasures_length,
    uint16_t *corrected, size_t corrected_length) BF_CHECKED;

/* The same as bf_code_encode, of words that stand interleaved: the first symbols of all words, one after the other,
 * then the second symbols. BF_CODE if modulus is none of those above, data is 0 or not below symbols, symbols is
 * above 255, or a power of g^root_step with an exponent from 1 to symbols - 1 is 1. BF_LENGTH unless words has a
 * multiple of symbols. */
uint32_t bf_code_encode_interleaved(uint64_t modulus, size_t symbols, size_t data, uint64_t first_root,
    uint64_t root_step, uint8_t *words, size_t words_length) BF_CHECKED;

/* syndromes: the same as bf_code_syndromes, of words that stand interleaved, whose values do too: those of all words
 * at a root stand one after the other. BF_CODE if modulus is none of those above, data is 0 or not below symbols,
 * symbols is above 255, or a power of g^root_step with an exponent from 1 to symbols - 1 is 1. BF_LENGTH unless
 * words has a multiple of symbols, and syndromes symbols - data for each word. */
uint32_t bf_code_syndromes_interleaved(uint64_t modulus, size_t symbols, size_t data, uint64_t first_root,
    uint64_t root_step, const uint8_t *words, size_t words_length,
    uint8_t *syndromes, size_t syndromes_length) BF_CHECKED;

/* Corrects each word as bf_code_correct does, of words that stand interleaved, and writes to corrected 1 for a word
 * that it could correct, or that had no error, and 0 for each other. Symbol i of every word is erased where byte i
 * of erasures is not 0. To syndromes it writes the values of the received words, as bf_code_syndromes_interleaved
 * does. BF_CODE if modulus is none of those above, data is 0 or not below symbols, symbols is above 255, or a power
 * of g^root_step with an exponent from 1 to symbols - 1 is 1. BF_LENGTH unless words has a multiple of symbols,
 * erasures one byte for each symbol of a word or none, syndromes symbols - data for each word, and corrected one for
 * each. */
uint32_t bf_code_correct_interleaved(uint64_t modulus, size_t symbols, size_t data, uint64_t first_root,
    uint64_t root_step, uint8_t *words, size_t words_length, const uint8_t *erasures, size_t erasures_length,
    uint8_t *syndromes, size_t syndromes_length, uint8_t *corrected, size_t corrected_length) BF_CHECKED;

/* ------------------------------------------------------------------------------------------------------------------ */
/* The same codes over a field of the caller's choice, of up to 65536 elements, with words of up to 65535 symbols. A
 * symbol is an element, bit i for x^i. The roots are root to the power of first_root + m, for each m below symbols -
 * data, where root is any element of an order that is at least symbols. The same words over bytes are faster by the
 * functions above. */

/* Writes the symbols behind the data of each word, so that it is a word of the code; what stood there is not read.
 * BF_REDUCIBLE unless field names a field, as what bf_field_init made does. BF_CODE if the field has more than 65536
 * elements, data is 0 or not below symbols, symbols is above 65535, root is 0 or no element, or a power of it with
 * an exponent from 1 to symbols - 1 is 1. BF_LENGTH unless words has a multiple of symbols, and space symbols - data
 * + 1. BF_NOT_AN_ELEMENT unless each symbol of data is an element. */
uint32_t bf_field_code_encode(const bf_field *field, size_t symbols, size_t data, uint64_t first_root, uint64_t root,
    uint16_t *words, size_t words_length, uint16_t *space, size_t space_length) BF_CHECKED BF_NONNULL(1);

/* syndromes: the values of each word at the roots, that at the first root first; symbols - data of them a word.
 * BF_REDUCIBLE unless field names a field, as what bf_field_init made does. BF_CODE if the field has more than 65536
 * elements, data is 0 or not below symbols, symbols is above 65535, root is 0 or no element, or a power of it with
 * an exponent from 1 to symbols - 1 is 1. BF_LENGTH unless words has a multiple of symbols, and syndromes symbols -
 * data for each word. BF_NOT_AN_ELEMENT unless each symbol is an element. */
uint32_t bf_field_code_syndromes(const bf_field *field, size_t symbols, size_t data, uint64_t first_root, uint64_t root,
    const uint16_t *words, size_t words_length, uint16_t *syndromes, size_t syndromes_length) BF_CHECKED BF_NONNULL(1);

/* flags: 1 for each word that is one of the code, 0 for each other. BF_REDUCIBLE unless field names a field, as what
 * bf_field_init made does. BF_CODE if the field has more than 65536 elements, data is 0 or not below symbols,
 * symbols is above 65535, root is 0 or no element, or a power of it with an exponent from 1 to symbols - 1 is 1.
 * BF_LENGTH unless words has a multiple of symbols, and flags one for each word. BF_NOT_AN_ELEMENT unless each
 * symbol is an element. */
uint32_t bf_field_code_are_words(const bf_field *field, size_t symbols, size_t data, uint64_t first_root, uint64_t root,
    const uint16_t *words, size_t words_length, uint8_t *flags, size_t flags_length) BF_CHECKED BF_NONNULL(1);

/* Corrects each word as bf_code_correct does, and writes how many of its symbols changed, or 65535 where it is near
 * to no word of the code. A bool is the byte 0 or 1, before the call too. BF_REDUCIBLE unless field names a field,
 * as what bf_field_init made does. BF_CODE if the field has more than 65536 elements, data is 0 or not below
 * symbols, symbols is above 65535, root is 0 or no element, or a power of it with an exponent from 1 to symbols - 1
 * is 1. BF_LENGTH unless words has a multiple of symbols, erasures as many bytes or none, corrected one for each
 * word, space 2 * symbols + 5 * (symbols - data) + 3, marks 2 * symbols, and places symbols. BF_NOT_AN_ELEMENT
 * unless each symbol is an element. */
uint32_t bf_field_code_correct(const bf_field *field, size_t symbols, size_t data, uint64_t first_root, uint64_t root,
    uint16_t *words, size_t words_length, const uint8_t *erasures, size_t erasures_length,
    uint16_t *corrected, size_t corrected_length, uint16_t *space, size_t space_length,
    bool *marks, size_t marks_length, size_t *places, size_t places_length) BF_CHECKED BF_NONNULL(1);

/* ------------------------------------------------------------------------------------------------------------------ */
/* Binary BCH codes: words of so many bits, at most 255, each a byte that is 0 or 1, of which the data come first.
 * The first bit is the coefficient of the highest power, and a word is one of the code where its polynomial is 0 at
 * the powers 1 to 2 * errors of g^root_step, of the field of the modulus as above. The order of that power is the
 * length of a whole word: 255 for root_step 1, and 15 for 17, which is the code over the field of 16 elements. With
 * fewer bits a word is shortened: it lacks data at its front. */

/* data: how many bits of a word are data: all but one for each root and each square of a root, of a square and so
 * on. BF_CODE if modulus is none of those above, errors is 0, 2 * errors is not below bits, bits is above 255, a
 * power of g^root_step with an exponent from 1 to bits - 1 is 1, or no bits are left for data. */
uint32_t bf_bch_data(uint64_t modulus, size_t bits, size_t errors, uint64_t root_step,
    uint64_t *data) BF_CHECKED BF_NONNULL(5);

/* Writes the bits behind the data of each word, so that it is a word of the code; what stood there is not read.
 * BF_CODE if modulus is none of those above, errors is 0, 2 * errors is not below bits, bits is above 255, a power
 * of g^root_step with an exponent from 1 to bits - 1 is 1, or no bits are left for data. BF_LENGTH unless words has
 * a multiple of bits. BF_NOT_AN_ELEMENT unless each byte of data is 0 or 1. */
uint32_t bf_bch_encode(uint64_t modulus, size_t bits, size_t errors, uint64_t root_step,
    uint8_t *words, size_t words_length) BF_CHECKED;

/* flags: 1 for each word that is one of the code, 0 for each other; a byte above 1 is in no word. BF_CODE if modulus
 * is none of those above, errors is 0, 2 * errors is not below bits, bits is above 255, a power of g^root_step with
 * an exponent from 1 to bits - 1 is 1, or no bits are left for data. BF_LENGTH unless words has a multiple of bits,
 * and flags one for each word. */
uint32_t bf_bch_are_words(uint64_t modulus, size_t bits, size_t errors, uint64_t root_step,
    const uint8_t *words, size_t words_length, uint8_t *flags, size_t flags_length) BF_CHECKED;

/* corrected: corrects each word, and writes how many of its bits changed; a bit is erased where its byte of erasures
 * is not 0. A word becomes the only word of the code from which it differs at t places beside e erased ones, with t
 * + e / 2 at most errors. Where there is none it stays, and corrected is 65535. BF_CODE if modulus is none of those
 * above, errors is 0, 2 * errors is not below bits, bits is above 255, a power of g^root_step with an exponent from
 * 1 to bits - 1 is 1, or no bits are left for data. BF_LENGTH unless words has a multiple of bits, erasures as many
 * or none, and corrected one for each word. */
uint32_t bf_bch_correct(uint64_t modulus, size_t bits, size_t errors, uint64_t root_step,
    uint8_t *words, size_t words_length, const uint8_t *erasures, size_t erasures_length,
    uint16_t *corrected, size_t corrected_length) BF_CHECKED;

/* ------------------------------------------------------------------------------------------------------------------ */
/* Reed-Solomon codes over t16 by additive transforms, of thousands of shards: column i of the shards, their word i,
 * has the values of one polynomial. With 2^n the least power of two that is at least data, it has a degree below
 * 2^n; shard j of data is its value at point j, shard j of parity that at point 2^n + j, and it is 0 at the points
 * from data to 2^n. Point p is the sum of Cantor vector b for each set bit b of p, as above. Shards of data stand
 * one after the other, and so do those of parity, in an array of their own. A call works in space, with as many
 * columns at once as pays; what that has before does not matter, and behind the call nothing is said of it. */

/* length: how many words of space each call of the code takes: 40 times the least power of two that is at least
 * data, counted up to a power of two, and parity together. BF_CODE if data and parity are not both at least 1, or
 * data, counted up to a power of two, and parity are together more than 65536. */
uint32_t bf_erasure_space(size_t data, size_t parity, uint64_t *length) BF_CHECKED BF_NONNULL(3);

/* parity_shards: the shards of parity of these shards of data. BF_CODE if data and parity are not both at least 1,
 * or data, counted up to a power of two, and parity are together more than 65536. BF_LENGTH unless shards has data,
 * and parity_shards parity, times one number of words, which is not 0, and space at least what bf_erasure_space
 * gives. */
uint32_t bf_erasure_encode(size_t data, size_t parity, const uint16_t *shards, size_t shards_length,
    uint16_t *parity_shards, size_t parity_shards_length, uint16_t *space, size_t space_length) BF_CHECKED;

/* whole: 1 where the shards of parity are those of the data, else 0. BF_CODE if data and parity are not both at
 * least 1, or data, counted up to a power of two, and parity are together more than 65536. BF_LENGTH unless shards
 * has data, and parity_shards parity, times one number of words, which is not 0, and space at least what
 * bf_erasure_space gives. */
uint32_t bf_erasure_verify(size_t data, size_t parity, const uint16_t *shards, size_t shards_length,
    const uint16_t *parity_shards, size_t parity_shards_length, uint16_t *space, size_t space_length,
    uint8_t *whole) BF_CHECKED BF_NONNULL(9);

/* Writes the missing shards: shard i, of the data and then of the parity, is missing where present[i] is 0. BF_CODE
 * if data and parity are not both at least 1, or data, counted up to a power of two, and parity are together more
 * than 65536. BF_LENGTH unless shards has data, and parity_shards parity, times one number of words, which is not 0,
 * and space at least what bf_erasure_space gives, and present has data + parity. BF_TOO_FEW_SHARDS unless at least
 * as many entries of present as data are not 0. It takes 64 KiB of the stack, for the flags of the shards. */
uint32_t bf_erasure_reconstruct(size_t data, size_t parity, uint16_t *shards, size_t shards_length,
    uint16_t *parity_shards, size_t parity_shards_length, const uint8_t *present, size_t present_length,
    uint16_t *space, size_t space_length) BF_CHECKED;

/* ------------------------------------------------------------------------------------------------------------------ */
/* Shares of a secret (A. Shamir, How to share a secret, 1979), byte by byte: a byte of the secret is the constant
 * coefficient of a polynomial over 256 elements, whose other needed - 1 coefficients are drawn bytes, row after row
 * in draws, that of x first. A share has the values of these polynomials at its index, a byte other than 0. These
 * calls draw nothing and keep nothing: what was passed to them is left where it is. Bytes of a secret, of draws and
 * of shares are masked, shifted and added, and nothing is looked up by them. */

/* shares: writes count shares of a secret, any needed of which restore it, where fewer say nothing of it. Share i,
 * counted from 0, has the index i + 1, is as long as the secret and stands behind those before it. modulus is 0x11b
 * for the field of AES, or 0x11d for that of libgfshare. draws has needed - 1 times the length of secret bytes,
 * which the caller draws for this secret alone from a source of cryptographic quality, each from all 256, 0 among
 * them, and keeps from everybody. BF_CODE if modulus is another number, or not 2 <= needed <= count <= 255.
 * BF_LENGTH unless secret has a byte or more, draws needed - 1 times as many, and shares count times as many. */
uint32_t bf_secret_split(uint64_t modulus, size_t needed, size_t count, const uint8_t *secret, size_t secret_length,
    const uint8_t *draws, size_t draws_length, uint8_t *shares, size_t shares_length) BF_CHECKED;

/* secret: writes the secret of shares with these indexes, of which needed are needed; they stand one after the
 * other. Of more than needed all have to be those of one secret; whether bytes of needed shares are right cannot be
 * told. BF_CODE if modulus is another number, or needed is below 2. BF_TOO_FEW_SHARDS unless there are at least
 * needed indexes. BF_CODE if there are more than 255 indexes, one is 0, or two are equal. BF_LENGTH unless secret
 * has a byte or more, and shares as many for each of indexes. BF_UNSOLVABLE unless the shares lie, byte by byte, on
 * polynomials of needed coefficients. */
uint32_t bf_secret_combine(uint64_t modulus, size_t needed, const uint8_t *indexes, size_t indexes_length,
    const uint8_t *shares, size_t shares_length, uint8_t *secret, size_t secret_length) BF_CHECKED;

/* Restores a secret as bf_secret_combine does, of shares some of which may be wrong, and writes to wrong for each
 * share 1 where it is wrong, else 0. A share is wrong if any of its bytes is, and of n shares up to (n - needed) / 2
 * may be. BF_CODE if modulus is another number. BF_LENGTH unless wrong has a byte for each of indexes. BF_CODE if
 * needed is below 2. BF_TOO_FEW_SHARDS unless there are at least needed indexes. BF_CODE if there are more than 255
 * indexes, one is 0, or two are equal. BF_LENGTH unless secret has a byte or more, and shares as many for each of
 * indexes. BF_UNSOLVABLE unless so few shares are wrong. */
uint32_t bf_secret_combine_correcting(uint64_t modulus, size_t needed, const uint8_t *indexes, size_t indexes_length,
    const uint8_t *shares, size_t shares_length, uint8_t *secret, size_t secret_length,
    uint8_t *wrong, size_t wrong_length) BF_CHECKED;

/* ------------------------------------------------------------------------------------------------------------------ */
/* Lines of text: a field by its name above, an operation (add, mul, square, inv or sqrt) and its operands, with
 * spaces between. An operand has two hexadecimal digits for each byte of an element, the highest byte first; of p192
 * the three coefficients stand so, that of 1 first. An answer has the same form in lower case, or is none for the
 * inverse of 0, or else error and the number of what is wrong with the line. */

/* Writes to the front of answer what the program binfield answers to the line, as 41 to t8 mul 10 10, without a line
 * feed; written is how many bytes that is, at most 48, and the bytes of answer behind them stay. BF_LENGTH unless
 * answer has at least as many bytes as are written, for which 48 are enough. */
uint32_t bf_answer(const uint8_t *line, size_t line_length, uint8_t *answer, size_t answer_length,
    uint64_t *written) BF_CHECKED BF_NONNULL(5);

#ifdef __cplusplus
}
#endif

#endif
