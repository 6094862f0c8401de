//! The functions of libbinary_field by the processor's carryless multiply instruction. Written by scripts/make_hardware.py; do not edit.

/// The field of GHASH.
pub const G128: u32 = 1;
/// GF(2)\[x\] modulo x^64 + x^4 + x^3 + x + 1.
pub const P64: u32 = 2;
/// GHASH and POLYVAL.
pub const HASHES: u32 = 4;
/// Single products of the levels of 64 and 128 bits of the tower.
pub const TOWERS: u32 = 8;
/// All groups.
pub const ALL: u32 = 15;

unsafe extern "C" {
    /// Compares the kernels of groups, and has their functions go by them.
    pub fn bf_hw_begin(groups: u32) -> u32;
    /// The groups that go by kernels now.
    pub fn bf_hw_groups() -> u32;
    /// As bf_g128_multiply. products: the product of the elements at each place.
    pub fn bf_hw_g128_multiply(left: *const [u64; 2], left_length: usize, right: *const [u64; 2], right_length: usize,
        products: *mut [u64; 2], products_length: usize) -> u32;
    /// As bf_g128_multiply_by. products: the product of each element and the scalar.
    pub fn bf_hw_g128_multiply_by(values: *const [u64; 2], values_length: usize, scalar: *const [u64; 2], products: *mut [u64; 2],
        products_length: usize) -> u32;
    /// As bf_g128_add_scaled. Adds to each element of sums the scalar times the value at its place.
    pub fn bf_hw_g128_add_scaled(sums: *mut [u64; 2], sums_length: usize, scalar: *const [u64; 2], values: *const [u64; 2],
        values_length: usize) -> u32;
    /// As bf_g128_square. squares: the square of each element.
    pub fn bf_hw_g128_square(values: *const [u64; 2], values_length: usize, squares: *mut [u64; 2], squares_length: usize) -> u32;
    /// As bf_g128_inverse. inverses: the inverse of each element, and 0 for 0.
    pub fn bf_hw_g128_inverse(values: *const [u64; 2], values_length: usize, inverses: *mut [u64; 2], inverses_length: usize) -> u32;
    /// As bf_g128_batch_inverse. inverses: the same as inverse.
    pub fn bf_hw_g128_batch_inverse(values: *const [u64; 2], values_length: usize, inverses: *mut [u64; 2], inverses_length: usize) -> u32;
    /// As bf_g128_power. powers: each element to the power of the exponent; to the power 0 it is 1.
    pub fn bf_hw_g128_power(values: *const [u64; 2], values_length: usize, exponent: u64, powers: *mut [u64; 2],
        powers_length: usize) -> u32;
    /// As bf_g128_dot_product. sum: the sum of the products at each place, 0 of none.
    pub fn bf_hw_g128_dot_product(left: *const [u64; 2], left_length: usize, right: *const [u64; 2], right_length: usize,
        sum: *mut [u64; 2]) -> u32;
    /// As bf_g128_evaluate. values: the value at each point of the polynomial with these coefficients, the constant one first; any number
    /// of coefficients.
    pub fn bf_hw_g128_evaluate(coefficients: *const [u64; 2], coefficients_length: usize, points: *const [u64; 2], points_length: usize,
        values: *mut [u64; 2], values_length: usize) -> u32;
    /// As bf_g128_multiply_in_place. Multiplies each element of products by the value at its place.
    pub fn bf_hw_g128_multiply_in_place(products: *mut [u64; 2], products_length: usize, values: *const [u64; 2],
        values_length: usize) -> u32;
    /// As bf_g128_multiply_by_in_place. Multiplies each element by the scalar.
    pub fn bf_hw_g128_multiply_by_in_place(values: *mut [u64; 2], values_length: usize, scalar: *const [u64; 2]) -> u32;
    /// As bf_g128_square_in_place. Squares each element.
    pub fn bf_hw_g128_square_in_place(values: *mut [u64; 2], values_length: usize) -> u32;
    /// As bf_g128_inverse_in_place. Leaves the inverse of each element, and 0 of 0.
    pub fn bf_hw_g128_inverse_in_place(values: *mut [u64; 2], values_length: usize) -> u32;
    /// As bf_g128_power_in_place. Raises each element to the power of the exponent; to the power 0 it is 1.
    pub fn bf_hw_g128_power_in_place(values: *mut [u64; 2], values_length: usize, exponent: u64) -> u32;
    /// As bf_g128_butterfly_forward. low += scalar * high, and then high += low, at each place.
    pub fn bf_hw_g128_butterfly_forward(low: *mut [u64; 2], low_length: usize, high: *mut [u64; 2], high_length: usize,
        scalar: *const [u64; 2]) -> u32;
    /// As bf_g128_butterfly_inverse. high += low, and then low += scalar * high, at each place.
    pub fn bf_hw_g128_butterfly_inverse(low: *mut [u64; 2], low_length: usize, high: *mut [u64; 2], high_length: usize,
        scalar: *const [u64; 2]) -> u32;
    /// As bf_g128_low_stages. The four lowest stages of an additive transform over runs of sixteen values, the first of which is run
    /// first_run; four shifts, and a basis of 3 to 128 elements, 2 to the power of three less than which is at least the number behind the
    /// last run.
    pub fn bf_hw_g128_low_stages(values: *mut [u64; 2], values_length: usize, shifts: *const [u64; 2], shifts_length: usize,
        basis: *const [u64; 2], basis_length: usize, first_run: usize) -> u32;
    /// As bf_g128_transform. The value at each of 2^m points, m from 0 to 40, of the polynomial with these coefficients in the basis of
    /// subspace polynomials.
    pub fn bf_hw_g128_transform(values: *mut [u64; 2], values_length: usize, shift: *const [u64; 2]) -> u32;
    /// As bf_g128_inverse_transform. The coefficients that bf_hw_g128_transform takes to these values.
    pub fn bf_hw_g128_inverse_transform(values: *mut [u64; 2], values_length: usize, shift: *const [u64; 2]) -> u32;
    /// As bf_p64_multiply. products: the product of the elements at each place.
    pub fn bf_hw_p64_multiply(left: *const u64, left_length: usize, right: *const u64, right_length: usize, products: *mut u64,
        products_length: usize) -> u32;
    /// As bf_p64_multiply_by. products: the product of each element and the scalar.
    pub fn bf_hw_p64_multiply_by(values: *const u64, values_length: usize, scalar: u64, products: *mut u64, products_length: usize) -> u32;
    /// As bf_p64_add_scaled. Adds to each element of sums the scalar times the value at its place.
    pub fn bf_hw_p64_add_scaled(sums: *mut u64, sums_length: usize, scalar: u64, values: *const u64, values_length: usize) -> u32;
    /// As bf_p64_square. squares: the square of each element.
    pub fn bf_hw_p64_square(values: *const u64, values_length: usize, squares: *mut u64, squares_length: usize) -> u32;
    /// As bf_p64_inverse. inverses: the inverse of each element, and 0 for 0.
    pub fn bf_hw_p64_inverse(values: *const u64, values_length: usize, inverses: *mut u64, inverses_length: usize) -> u32;
    /// As bf_p64_batch_inverse. inverses: the same as inverse.
    pub fn bf_hw_p64_batch_inverse(values: *const u64, values_length: usize, inverses: *mut u64, inverses_length: usize) -> u32;
    /// As bf_p64_power. powers: each element to the power of the exponent; to the power 0 it is 1.
    pub fn bf_hw_p64_power(values: *const u64, values_length: usize, exponent: u64, powers: *mut u64, powers_length: usize) -> u32;
    /// As bf_p64_dot_product. sum: the sum of the products at each place, 0 of none.
    pub fn bf_hw_p64_dot_product(left: *const u64, left_length: usize, right: *const u64, right_length: usize, sum: *mut u64) -> u32;
    /// As bf_p64_evaluate. values: the value at each point of the polynomial with these coefficients, the constant one first; any number of
    /// coefficients.
    pub fn bf_hw_p64_evaluate(coefficients: *const u64, coefficients_length: usize, points: *const u64, points_length: usize,
        values: *mut u64, values_length: usize) -> u32;
    /// As bf_p64_multiply_in_place. Multiplies each element of products by the value at its place.
    pub fn bf_hw_p64_multiply_in_place(products: *mut u64, products_length: usize, values: *const u64, values_length: usize) -> u32;
    /// As bf_p64_multiply_by_in_place. Multiplies each element by the scalar.
    pub fn bf_hw_p64_multiply_by_in_place(values: *mut u64, values_length: usize, scalar: u64) -> u32;
    /// As bf_p64_square_in_place. Squares each element.
    pub fn bf_hw_p64_square_in_place(values: *mut u64, values_length: usize) -> u32;
    /// As bf_p64_inverse_in_place. Leaves the inverse of each element, and 0 of 0.
    pub fn bf_hw_p64_inverse_in_place(values: *mut u64, values_length: usize) -> u32;
    /// As bf_p64_power_in_place. Raises each element to the power of the exponent; to the power 0 it is 1.
    pub fn bf_hw_p64_power_in_place(values: *mut u64, values_length: usize, exponent: u64) -> u32;
    /// As bf_tag_ghash. hash: GHASH of the message (NIST SP 800-38D), zeros added to whole blocks; key and hash have 16 bytes.
    pub fn bf_hw_tag_ghash(key: *const u8, key_length: usize, message: *const u8, message_length: usize, hash: *mut u8,
        hash_length: usize) -> u32;
    /// As bf_tag_polyval. hash: POLYVAL of the message (RFC 8452), zeros added to whole blocks; key and hash have 16 bytes.
    pub fn bf_hw_tag_polyval(key: *const u8, key_length: usize, message: *const u8, message_length: usize, hash: *mut u8,
        hash_length: usize) -> u32;
    /// As bf_tag_gcm_ghash. hash: the hash of GCM over associated data and ciphertext, each below 2^61 bytes, with the block of their
    /// lengths; key and hash have 16 bytes.
    pub fn bf_hw_tag_gcm_ghash(key: *const u8, key_length: usize, associated: *const u8, associated_length: usize, ciphertext: *const u8,
        ciphertext_length: usize, hash: *mut u8, hash_length: usize) -> u32;
    /// As bf_tag_ghash_init. state: the hash of the empty message under the key, to which bf_hw_tag_ghash_update adds bytes; key has 16
    /// bytes.
    pub fn bf_hw_tag_ghash_init(state: *mut [u64; 13], key: *const u8, key_length: usize) -> u32;
    /// As bf_tag_ghash_update. Adds bytes to the message, of any number: no zeros come between them and the next ones.
    pub fn bf_hw_tag_ghash_update(state: *mut [u64; 13], message: *const u8, message_length: usize) -> u32;
    /// As bf_tag_ghash_pad. Adds as many zeros as make the message whole blocks, which may be none.
    pub fn bf_hw_tag_ghash_pad(state: *mut [u64; 13]) -> u32;
    /// As bf_tag_ghash_final. hash: what bf_hw_tag_ghash gives of the message, which is then empty, under the same key; hash has 16 bytes.
    pub fn bf_hw_tag_ghash_final(state: *mut [u64; 13], hash: *mut u8, hash_length: usize) -> u32;
    /// As bf_tag_polyval_init. state: the hash of the empty message under the key, to which bf_hw_tag_polyval_update adds bytes; key has 16
    /// bytes.
    pub fn bf_hw_tag_polyval_init(state: *mut [u64; 13], key: *const u8, key_length: usize) -> u32;
    /// As bf_tag_polyval_update. Adds bytes to the message, of any number: no zeros come between them and the next ones.
    pub fn bf_hw_tag_polyval_update(state: *mut [u64; 13], message: *const u8, message_length: usize) -> u32;
    /// As bf_tag_polyval_pad. Adds as many zeros as make the message whole blocks, which may be none.
    pub fn bf_hw_tag_polyval_pad(state: *mut [u64; 13]) -> u32;
    /// As bf_tag_polyval_final. hash: what bf_hw_tag_polyval gives of the message, which is then empty, under the same key; hash has 16
    /// bytes.
    pub fn bf_hw_tag_polyval_final(state: *mut [u64; 13], hash: *mut u8, hash_length: usize) -> u32;
    /// As bf_tag_gcm_ghash_final. hash: what bf_hw_tag_gcm_ghash gives, where the message is the associated data, bf_hw_tag_ghash_pad
    /// behind them, and the ciphertext, by their lengths in bytes, each below 2^61; the message is then empty, under the same key; hash has
    /// 16 bytes.
    pub fn bf_hw_tag_gcm_ghash_final(state: *mut [u64; 13], associated_length: usize, ciphertext_length: usize, hash: *mut u8,
        hash_length: usize) -> u32;
    /// As bf_t64_multiply. products: the product of the elements at each place.
    pub fn bf_hw_t64_multiply(left: *const u64, left_length: usize, right: *const u64, right_length: usize, products: *mut u64,
        products_length: usize) -> u32;
    /// As bf_t64_multiply_in_place. Multiplies each element of products by the value at its place.
    pub fn bf_hw_t64_multiply_in_place(products: *mut u64, products_length: usize, values: *const u64, values_length: usize) -> u32;
    /// As bf_t128_multiply. products: the product of the elements at each place.
    pub fn bf_hw_t128_multiply(left: *const [u64; 2], left_length: usize, right: *const [u64; 2], right_length: usize,
        products: *mut [u64; 2], products_length: usize) -> u32;
    /// As bf_t128_multiply_in_place. Multiplies each element of products by the value at its place.
    pub fn bf_hw_t128_multiply_in_place(products: *mut [u64; 2], products_length: usize, values: *const [u64; 2],
        values_length: usize) -> u32;
}
