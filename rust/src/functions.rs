//! The functions of libbinary_field. Written by scripts/make_bindings.py; do not edit.
//!
//! An array is a pointer, which may be null beside a length of 0, and a length that counts elements. What is written overlaps
//! nothing else of the call. On a status that is not `BF_OK` everything that a function could write is as before, but for `space` and
//! `places`, in which it works. The function `bf_FIELD_NAME` of a field is `NAME` in the module `FIELD`.

use core::ffi::c_char;

/// Success.
pub const BF_OK: u32 = 0;
/// Mismatched or invalid lengths.
pub const BF_LENGTH: u32 = 1;
/// A word is not an element of the field.
pub const BF_NOT_AN_ELEMENT: u32 = 2;
/// Out of memory, which no function of this version returns.
pub const BF_MEMORY: u32 = 3;
/// No code or shares have these numbers.
pub const BF_CODE: u32 = 4;
/// Too few shards or shares are present.
pub const BF_TOO_FEW_SHARDS: u32 = 5;
/// The equations have no solution, the matrix no inverse, or there is no secret or root.
pub const BF_UNSOLVABLE: u32 = 6;
/// The modulus is no irreducible polynomial of degree 1 to 128.
pub const BF_REDUCIBLE: u32 = 7;

/// The functions of fields, by a field's word and by what one element is passed as. Some fields have more to say, where words are read or of
/// the stack that the product of two matrices takes.
macro_rules! functions_of_fields {
    ($($field:ident: $word:ty, $scalar:ty $(, read $read:literal)? $(, stack $stack:literal)?;)*) => {$(
        #[doc = concat!("The functions of ", stringify!($field), ".")]
        pub mod $field {
            unsafe extern "C" {
                /// sums: the sum of the elements at each place. BF_LENGTH unless left, right and sums have one length.
                $(#[doc = $read])?
                #[link_name = concat!("bf_", stringify!($field), "_add")]
                pub fn add(left: *const $word, left_length: usize, right: *const $word, right_length: usize, sums: *mut $word,
                    sums_length: usize) -> u32;
                /// products: the product of the elements at each place. BF_LENGTH unless left, right and products have one length.
                $(#[doc = $read])?
                #[link_name = concat!("bf_", stringify!($field), "_multiply")]
                pub fn multiply(left: *const $word, left_length: usize, right: *const $word, right_length: usize, products: *mut $word,
                    products_length: usize) -> u32;
                /// products: the product of each element and the scalar. BF_LENGTH unless values and products have one length.
                $(#[doc = $read])?
                #[link_name = concat!("bf_", stringify!($field), "_multiply_by")]
                pub fn multiply_by(values: *const $word, values_length: usize, scalar: $scalar, products: *mut $word,
                    products_length: usize) -> u32;
                /// Adds to each element of sums the scalar times the value at its place. BF_LENGTH unless sums and values have one length.
                $(#[doc = $read])?
                #[link_name = concat!("bf_", stringify!($field), "_add_scaled")]
                pub fn add_scaled(sums: *mut $word, sums_length: usize, scalar: $scalar, values: *const $word, values_length: usize) -> u32;
                /// squares: the square of each element. BF_LENGTH unless values and squares have one length.
                $(#[doc = $read])?
                #[link_name = concat!("bf_", stringify!($field), "_square")]
                pub fn square(values: *const $word, values_length: usize, squares: *mut $word, squares_length: usize) -> u32;
                /// inverses: the inverse of each element, and 0 for 0. BF_LENGTH unless values and inverses have one length.
                $(#[doc = $read])?
                #[link_name = concat!("bf_", stringify!($field), "_inverse")]
                pub fn inverse(values: *const $word, values_length: usize, inverses: *mut $word, inverses_length: usize) -> u32;
                /// inverses: the same as inverse. BF_LENGTH unless values and inverses have one length.
                $(#[doc = $read])?
                #[link_name = concat!("bf_", stringify!($field), "_batch_inverse")]
                pub fn batch_inverse(values: *const $word, values_length: usize, inverses: *mut $word, inverses_length: usize) -> u32;
                /// roots: the square root of each element. BF_LENGTH unless values and roots have one length.
                $(#[doc = $read])?
                #[link_name = concat!("bf_", stringify!($field), "_square_root")]
                pub fn square_root(values: *const $word, values_length: usize, roots: *mut $word, roots_length: usize) -> u32;
                /// powers: each element to the power of the exponent; to the power 0 it is 1. BF_LENGTH unless values and powers have one
                /// length.
                $(#[doc = $read])?
                #[link_name = concat!("bf_", stringify!($field), "_power")]
                pub fn power(values: *const $word, values_length: usize, exponent: u64, powers: *mut $word, powers_length: usize) -> u32;
                /// product: the product of all elements, 1 of none.
                $(#[doc = $read])?
                #[link_name = concat!("bf_", stringify!($field), "_product")]
                pub fn product(values: *const $word, values_length: usize, product: *mut $word) -> u32;
                /// sum: the sum of the products at each place, 0 of none. BF_LENGTH unless left and right have one length.
                $(#[doc = $read])?
                #[link_name = concat!("bf_", stringify!($field), "_dot_product")]
                pub fn dot_product(left: *const $word, left_length: usize, right: *const $word, right_length: usize,
                    sum: *mut $word) -> u32;
                /// values: the value at each point of the polynomial with these coefficients, the constant one first; any number of
                /// coefficients. BF_LENGTH unless points and values have one length.
                $(#[doc = $read])?
                #[link_name = concat!("bf_", stringify!($field), "_evaluate")]
                pub fn evaluate(coefficients: *const $word, coefficients_length: usize, points: *const $word, points_length: usize,
                    values: *mut $word, values_length: usize) -> u32;
                /// Adds to each element of sums the value at its place. BF_LENGTH unless sums and values have one length.
                $(#[doc = $read])?
                #[link_name = concat!("bf_", stringify!($field), "_add_in_place")]
                pub fn add_in_place(sums: *mut $word, sums_length: usize, values: *const $word, values_length: usize) -> u32;
                /// Multiplies each element of products by the value at its place. BF_LENGTH unless products and values have one length.
                $(#[doc = $read])?
                #[link_name = concat!("bf_", stringify!($field), "_multiply_in_place")]
                pub fn multiply_in_place(products: *mut $word, products_length: usize, values: *const $word, values_length: usize) -> u32;
                /// Multiplies each element by the scalar.
                $(#[doc = $read])?
                #[link_name = concat!("bf_", stringify!($field), "_multiply_by_in_place")]
                pub fn multiply_by_in_place(values: *mut $word, values_length: usize, scalar: $scalar) -> u32;
                /// Squares each element.
                $(#[doc = $read])?
                #[link_name = concat!("bf_", stringify!($field), "_square_in_place")]
                pub fn square_in_place(values: *mut $word, values_length: usize) -> u32;
                /// Leaves the inverse of each element, and 0 of 0.
                $(#[doc = $read])?
                #[link_name = concat!("bf_", stringify!($field), "_inverse_in_place")]
                pub fn inverse_in_place(values: *mut $word, values_length: usize) -> u32;
                /// Leaves the square root of each element.
                $(#[doc = $read])?
                #[link_name = concat!("bf_", stringify!($field), "_square_root_in_place")]
                pub fn square_root_in_place(values: *mut $word, values_length: usize) -> u32;
                /// Raises each element to the power of the exponent; to the power 0 it is 1.
                $(#[doc = $read])?
                #[link_name = concat!("bf_", stringify!($field), "_power_in_place")]
                pub fn power_in_place(values: *mut $word, values_length: usize, exponent: u64) -> u32;
                /// product: the product of left, of rows rows of inner elements, and right, of inner rows of columns elements. BF_LENGTH
                /// unless left has rows * inner elements, right inner * columns, and product rows * columns.
                $(#[doc = $read])?
                $(#[doc = $stack])?
                #[link_name = concat!("bf_", stringify!($field), "_matrix_multiply")]
                pub fn matrix_multiply(left: *const $word, left_length: usize, right: *const $word, right_length: usize,
                    product: *mut $word, product_length: usize, rows: usize, inner: usize, columns: usize) -> u32;
                /// Brings a matrix of rows rows of columns elements to reduced row echelon form; rank is its rank, the first rank of the
                /// rows places of pivots become the columns of its leading entries, and the others stay. BF_LENGTH unless matrix has rows *
                /// columns elements, and pivots rows places.
                $(#[doc = $read])?
                #[link_name = concat!("bf_", stringify!($field), "_matrix_row_reduce")]
                pub fn matrix_row_reduce(matrix: *mut $word, matrix_length: usize, rows: usize, columns: usize, pivots: *mut usize,
                    pivots_length: usize, rank: *mut usize) -> u32;
                /// rank: the rank of a matrix of rows rows of columns elements, in as much space and rows places, which may be written
                /// whatever the status. BF_LENGTH unless matrix and space have rows * columns elements, and places has rows places.
                $(#[doc = $read])?
                #[link_name = concat!("bf_", stringify!($field), "_matrix_rank")]
                pub fn matrix_rank(matrix: *const $word, matrix_length: usize, rows: usize, columns: usize, space: *mut $word,
                    space_length: usize, places: *mut usize, places_length: usize, rank: *mut usize) -> u32;
                /// determinant: the determinant of a matrix of size rows of size elements, in as much space, which may be written whatever
                /// the status; 1 of no rows. BF_LENGTH unless matrix and space have size * size elements.
                $(#[doc = $read])?
                #[link_name = concat!("bf_", stringify!($field), "_matrix_determinant")]
                pub fn matrix_determinant(matrix: *const $word, matrix_length: usize, size: usize, space: *mut $word, space_length: usize,
                    determinant: *mut $word) -> u32;
                /// inverse: the inverse of a matrix of size rows of size elements, in space for two of these and size places, which may be
                /// written whatever the status. BF_LENGTH unless matrix and inverse have size * size elements, space 2 * size * size, and
                /// places size places.
                $(#[doc = $read])?
                /// BF_UNSOLVABLE unless the matrix has an inverse.
                #[link_name = concat!("bf_", stringify!($field), "_matrix_inverse")]
                pub fn matrix_inverse(matrix: *const $word, matrix_length: usize, size: usize, inverse: *mut $word, inverse_length: usize,
                    space: *mut $word, space_length: usize, places: *mut usize, places_length: usize) -> u32;
                /// solution: a solution x of matrix * x = right, of rows equations in columns unknowns, in space for rows times columns + 1
                /// elements and rows places, which may be written whatever the status; an unknown that the others leave open is 0.
                /// BF_LENGTH unless matrix has rows * columns elements, right rows, solution columns, space rows * (columns + 1), and
                /// places rows places.
                $(#[doc = $read])?
                /// BF_UNSOLVABLE unless there is a solution.
                #[link_name = concat!("bf_", stringify!($field), "_matrix_solve")]
                pub fn matrix_solve(matrix: *const $word, matrix_length: usize, rows: usize, columns: usize, right: *const $word,
                    right_length: usize, solution: *mut $word, solution_length: usize, space: *mut $word, space_length: usize,
                    places: *mut usize, places_length: usize) -> u32;
            }
        }
    )*};
}

functions_of_fields! {
    gf2: u8, u8, read "BF_NOT_AN_ELEMENT unless each word that is read is below 2.";
    t2: u8, u8, read "BF_NOT_AN_ELEMENT unless each word that is read is below 4.";
    t4: u8, u8, read "BF_NOT_AN_ELEMENT unless each word that is read is below 16.";
    t8: u8, u8, stack "It takes 64 KiB of the stack.";
    t16: u16, u16;
    t32: u32, u32;
    t64: u64, u64;
    t128: [u64; 2], *const [u64; 2];
    r8: u8, u8, stack "It takes 64 KiB of the stack.";
    p64: u64, u64;
    g128: [u64; 2], *const [u64; 2];
    p192: [u64; 3], *const [u64; 3];
}

unsafe extern "C" {
    /// The processor whose form of the functions is called: "x86-64-v2", "x86-64-v3" or "aarch64", and never NULL. The form is chosen once,
    /// before main, as the best that runs on the processor at hand. The environment variable BINARY_FIELD_PROCESSOR=x86-64-v2 lowers that
    /// choice, and never raises it.
    pub fn bf_processor() -> *const c_char;
    /// images: the image in r8 of each element of t8, by the isomorphism of the two fields. BF_LENGTH unless values and images have one
    /// length.
    pub fn bf_t8_to_r8(values: *const u8, values_length: usize, images: *mut u8, images_length: usize) -> u32;
    /// images: the image in t8 of each element of r8, by the isomorphism of the two fields. BF_LENGTH unless values and images have one
    /// length.
    pub fn bf_r8_to_t8(values: *const u8, values_length: usize, images: *mut u8, images_length: usize) -> u32;
    /// images: the image in p64 of each element of t64, by the isomorphism of the two fields. BF_LENGTH unless values and images have one
    /// length.
    pub fn bf_t64_to_p64(values: *const u64, values_length: usize, images: *mut u64, images_length: usize) -> u32;
    /// images: the image in t64 of each element of p64, by the isomorphism of the two fields. BF_LENGTH unless values and images have one
    /// length.
    pub fn bf_p64_to_t64(values: *const u64, values_length: usize, images: *mut u64, images_length: usize) -> u32;
    /// images: the image in g128 of each element of t128, by the isomorphism of the two fields. BF_LENGTH unless values and images have one
    /// length.
    pub fn bf_t128_to_g128(values: *const [u64; 2], values_length: usize, images: *mut [u64; 2], images_length: usize) -> u32;
    /// images: the image in t128 of each element of g128, by the isomorphism of the two fields. BF_LENGTH unless values and images have one
    /// length.
    pub fn bf_g128_to_t128(values: *const [u64; 2], values_length: usize, images: *mut [u64; 2], images_length: usize) -> u32;
    /// mapped: for each byte the sum of the images at its set bits; eight images, that of bit 0 first. BF_LENGTH unless values and mapped
    /// have one length, and there are 8 images.
    pub fn bf_r8_linear_map(values: *const u8, values_length: usize, images: *const u8, images_length: usize, mapped: *mut u8,
        mapped_length: usize) -> u32;
    /// mapped: for each word the sum of the images at its set bits; 128 images, that of bit 0 first. BF_LENGTH unless values and mapped
    /// have one length, and there are 128 images.
    pub fn bf_g128_linear_map(values: *const [u64; 2], values_length: usize, images: *const [u64; 2], images_length: usize,
        mapped: *mut [u64; 2], mapped_length: usize) -> u32;
    /// product: the product over GF(2) of left, of rows rows of inner bits, and right, of inner rows of columns bits. BF_LENGTH unless left
    /// has rows * ceil(inner / 64) words, right inner * ceil(columns / 64), and product rows * ceil(columns / 64).
    pub fn bf_bit_matrix_multiply(left: *const u64, left_length: usize, right: *const u64, right_length: usize, product: *mut u64,
        product_length: usize, rows: usize, inner: usize, columns: usize) -> u32;
    /// transposed: the transpose of a matrix over GF(2) of rows rows of columns bits, which has columns rows of rows bits. BF_LENGTH unless
    /// matrix has rows * ceil(columns / 64) words, and transposed columns * ceil(rows / 64).
    pub fn bf_bit_matrix_transpose(matrix: *const u64, matrix_length: usize, transposed: *mut u64, transposed_length: usize, rows: usize,
        columns: usize) -> u32;
    /// Brings a matrix over GF(2) of rows rows of columns bits to reduced row echelon form; rank is its rank, the first rank of the rows
    /// places of pivots become the columns of its leading entries, and the others stay. BF_LENGTH unless matrix has rows * ceil(columns /
    /// 64) words, and pivots rows places.
    pub fn bf_bit_matrix_row_reduce(matrix: *mut u64, matrix_length: usize, rows: usize, columns: usize, pivots: *mut usize,
        pivots_length: usize, rank: *mut usize) -> u32;
    /// rank: the rank of a matrix over GF(2) of rows rows of columns bits, in as much space and rows places, which may be written whatever
    /// the status. BF_LENGTH unless matrix and space have rows * ceil(columns / 64) words, and places has rows places.
    pub fn bf_bit_matrix_rank(matrix: *const u64, matrix_length: usize, rows: usize, columns: usize, space: *mut u64, space_length: usize,
        places: *mut usize, places_length: usize, rank: *mut usize) -> u32;
    /// field: the field of the polynomials modulo x^degree + tail, for the other functions bf_field_*. BF_REDUCIBLE unless that polynomial
    /// is irreducible, of a degree from 1 to 128, and tail has lower terms alone.
    pub fn bf_field_init(field: *mut [u64; 5], degree: usize, tail: *const [u64; 2]) -> u32;
    /// sums: the sum of the elements at each place. BF_LENGTH unless left, right and sums have one length. BF_NOT_AN_ELEMENT unless each
    /// word that is read is below 2^degree.
    pub fn bf_field_add(field: *const [u64; 5], left: *const [u64; 2], left_length: usize, right: *const [u64; 2], right_length: usize,
        sums: *mut [u64; 2], sums_length: usize) -> u32;
    /// products: the product of the elements at each place. BF_LENGTH unless left, right and products have one length. BF_NOT_AN_ELEMENT
    /// unless each word that is read is below 2^degree.
    pub fn bf_field_multiply(field: *const [u64; 5], left: *const [u64; 2], left_length: usize, right: *const [u64; 2], right_length: usize,
        products: *mut [u64; 2], products_length: usize) -> u32;
    /// products: the product of each element and the scalar. BF_LENGTH unless values and products have one length. BF_NOT_AN_ELEMENT unless
    /// each word that is read is below 2^degree.
    pub fn bf_field_multiply_by(field: *const [u64; 5], values: *const [u64; 2], values_length: usize, scalar: *const [u64; 2],
        products: *mut [u64; 2], products_length: usize) -> u32;
    /// squares: the square of each element. BF_LENGTH unless values and squares have one length. BF_NOT_AN_ELEMENT unless each word that is
    /// read is below 2^degree.
    pub fn bf_field_square(field: *const [u64; 5], values: *const [u64; 2], values_length: usize, squares: *mut [u64; 2],
        squares_length: usize) -> u32;
    /// inverses: the inverse of each element, and 0 for 0. BF_LENGTH unless values and inverses have one length. BF_NOT_AN_ELEMENT unless
    /// each word that is read is below 2^degree.
    pub fn bf_field_inverse(field: *const [u64; 5], values: *const [u64; 2], values_length: usize, inverses: *mut [u64; 2],
        inverses_length: usize) -> u32;
    /// roots: the square root of each element. BF_LENGTH unless values and roots have one length. BF_NOT_AN_ELEMENT unless each word that
    /// is read is below 2^degree.
    pub fn bf_field_square_root(field: *const [u64; 5], values: *const [u64; 2], values_length: usize, roots: *mut [u64; 2],
        roots_length: usize) -> u32;
    /// powers: each element to the power of the exponent; to the power 0 it is 1. BF_LENGTH unless values and powers have one length.
    /// BF_NOT_AN_ELEMENT unless each word that is read is below 2^degree.
    pub fn bf_field_power(field: *const [u64; 5], values: *const [u64; 2], values_length: usize, exponent: u64, powers: *mut [u64; 2],
        powers_length: usize) -> u32;
    /// traces: the trace of each element over GF(2), which is 0 or 1. BF_LENGTH unless values and traces have one length. BF_NOT_AN_ELEMENT
    /// unless each word that is read is below 2^degree.
    pub fn bf_field_trace(field: *const [u64; 5], values: *const [u64; 2], values_length: usize, traces: *mut [u64; 2],
        traces_length: usize) -> u32;
    /// quotients: the quotient of the elements at each place, and 0 where that of right is 0. BF_LENGTH unless left, right and quotients
    /// have one length. BF_NOT_AN_ELEMENT unless each word that is read is below 2^degree.
    pub fn bf_field_divide(field: *const [u64; 5], left: *const [u64; 2], left_length: usize, right: *const [u64; 2], right_length: usize,
        quotients: *mut [u64; 2], quotients_length: usize) -> u32;
    /// sum: the sum of the products of the elements at each place, which is 0 of none. BF_LENGTH unless left and right have one length.
    /// BF_NOT_AN_ELEMENT unless each word that is read is below 2^degree.
    pub fn bf_field_dot_product(field: *const [u64; 5], left: *const [u64; 2], left_length: usize, right: *const [u64; 2],
        right_length: usize, sum: *mut [u64; 2]) -> u32;
    /// values: the value at each point of the polynomial with these coefficients, the constant one first; of none it is 0. BF_LENGTH unless
    /// points and values have one length. BF_NOT_AN_ELEMENT unless each word that is read is below 2^degree.
    pub fn bf_field_evaluate(field: *const [u64; 5], coefficients: *const [u64; 2], coefficients_length: usize, points: *const [u64; 2],
        points_length: usize, values: *mut [u64; 2], values_length: usize) -> u32;
    /// element: the least primitive element, whose powers are all elements but 0. BF_UNSOLVABLE unless there is one below 65536, as in
    /// every field that has been looked at.
    pub fn bf_field_primitive_element(field: *const [u64; 5], element: *mut [u64; 2]) -> u32;
    /// logarithms: the logarithm of each element to the base: the least exponent to which the power of the base is the element, found in as
    /// many steps as the greatest prime factor of the order of the base is. BF_LENGTH unless values and logarithms have one length.
    /// BF_NOT_AN_ELEMENT unless each word that is read is below 2^degree. BF_UNSOLVABLE unless each element is a power of the base.
    pub fn bf_field_logarithm(field: *const [u64; 5], values: *const [u64; 2], values_length: usize, base: *const [u64; 2],
        logarithms: *mut [u64; 2], logarithms_length: usize) -> u32;
    /// orders: the order of each element, the least exponent above 0 to which its power is 1, and 0 for 0, which has none. BF_LENGTH unless
    /// values and orders have one length. BF_NOT_AN_ELEMENT unless each word that is read is below 2^degree.
    pub fn bf_field_order(field: *const [u64; 5], values: *const [u64; 2], values_length: usize, orders: *mut [u64; 2],
        orders_length: usize) -> u32;
    /// traces: the trace of each element over the subfield of 2^subfield_degree elements: the sum of its conjugates, an element of the
    /// subfield as it lies in the field. BF_UNSOLVABLE unless subfield_degree divides the degree of the field. BF_LENGTH unless values and
    /// traces have one length. BF_NOT_AN_ELEMENT unless each word that is read is below 2^degree.
    pub fn bf_field_trace_to(field: *const [u64; 5], values: *const [u64; 2], values_length: usize, subfield_degree: usize,
        traces: *mut [u64; 2], traces_length: usize) -> u32;
    /// norms: the norm of each element over the subfield of 2^subfield_degree elements: the product of its conjugates, an element of the
    /// subfield as it lies in the field. BF_UNSOLVABLE unless subfield_degree divides the degree of the field. BF_LENGTH unless values and
    /// norms have one length. BF_NOT_AN_ELEMENT unless each word that is read is below 2^degree.
    pub fn bf_field_norm_to(field: *const [u64; 5], values: *const [u64; 2], values_length: usize, subfield_degree: usize,
        norms: *mut [u64; 2], norms_length: usize) -> u32;
    /// The minimal polynomial of the element over GF(2), which is x^degree + tail: the irreducible polynomial of which the element is a
    /// root. BF_NOT_AN_ELEMENT unless element is one of the field.
    pub fn bf_field_minimal_polynomial(field: *const [u64; 5], element: *const [u64; 2], degree: *mut usize, tail: *mut [u64; 2]) -> u32;
    /// next: the least tail from tail on, as a number, with which x^degree + next is irreducible, for bf_field_init; from tail + 1 on it is
    /// the next after one. BF_UNSOLVABLE unless there is one, of a degree from 1 to 128.
    pub fn bf_field_next_irreducible(degree: usize, tail: *const [u64; 2], next: *mut [u64; 2]) -> u32;
    /// next: the least tail from tail on, as a number, with which x^degree + next is primitive: it is irreducible, and x has the order
    /// 2^degree - 1 modulo it. BF_UNSOLVABLE unless there is one, of a degree from 1 to 128.
    pub fn bf_field_next_primitive(degree: usize, tail: *const [u64; 2], next: *mut [u64; 2]) -> u32;
    /// root: an element of target that is a root of the modulus of source, by which bf_field_embed takes elements of source to target.
    /// BF_UNSOLVABLE unless the degree of source divides that of target.
    pub fn bf_field_embedding(source: *const [u64; 5], target: *const [u64; 5], root: *mut [u64; 2]) -> u32;
    /// images: the image in target of each element of source: the value at the root of the polynomial that it is, so that sums and products
    /// are kept. BF_UNSOLVABLE unless root is a root of the modulus of source in target. BF_LENGTH unless values and images have one
    /// length. BF_NOT_AN_ELEMENT unless each word that is read is below 2^degree.
    pub fn bf_field_embed(source: *const [u64; 5], target: *const [u64; 5], root: *const [u64; 2], values: *const [u64; 2],
        values_length: usize, images: *mut [u64; 2], images_length: usize) -> u32;
    /// product: the product of left, of rows rows of inner elements, and right, of inner rows of columns elements. BF_LENGTH unless left
    /// has rows * inner elements, right inner * columns, and product rows * columns. BF_NOT_AN_ELEMENT unless each word that is read is
    /// below 2^degree.
    pub fn bf_field_matrix_multiply(field: *const [u64; 5], left: *const [u64; 2], left_length: usize, right: *const [u64; 2],
        right_length: usize, product: *mut [u64; 2], product_length: usize, rows: usize, inner: usize, columns: usize) -> u32;
    /// Brings a matrix of rows rows of columns elements to reduced row echelon form; rank is its rank, the first rank of the rows places of
    /// pivots become the columns of its leading entries, and the others stay. BF_LENGTH unless matrix has rows * columns elements, and
    /// pivots rows places. BF_NOT_AN_ELEMENT unless each word that is read is below 2^degree.
    pub fn bf_field_matrix_row_reduce(field: *const [u64; 5], matrix: *mut [u64; 2], matrix_length: usize, rows: usize, columns: usize,
        pivots: *mut usize, pivots_length: usize, rank: *mut usize) -> u32;
    /// rank: the rank of a matrix of rows rows of columns elements, in as much space and rows places, which may be written whatever the
    /// status. BF_LENGTH unless matrix and space have rows * columns elements, and places has rows places. BF_NOT_AN_ELEMENT unless each
    /// word that is read is below 2^degree.
    pub fn bf_field_matrix_rank(field: *const [u64; 5], matrix: *const [u64; 2], matrix_length: usize, rows: usize, columns: usize,
        space: *mut [u64; 2], space_length: usize, places: *mut usize, places_length: usize, rank: *mut usize) -> u32;
    /// determinant: the determinant of a matrix of size rows of size elements, in as much space, which may be written whatever the status;
    /// 1 of no rows. BF_LENGTH unless matrix and space have size * size elements. BF_NOT_AN_ELEMENT unless each word that is read is below
    /// 2^degree.
    pub fn bf_field_matrix_determinant(field: *const [u64; 5], matrix: *const [u64; 2], matrix_length: usize, size: usize,
        space: *mut [u64; 2], space_length: usize, determinant: *mut [u64; 2]) -> u32;
    /// inverse: the inverse of a matrix of size rows of size elements, in space for two of these and size places, which may be written
    /// whatever the status. BF_LENGTH unless matrix and inverse have size * size elements, space 2 * size * size, and places size places.
    /// BF_NOT_AN_ELEMENT unless each word that is read is below 2^degree. BF_UNSOLVABLE unless the matrix has an inverse.
    pub fn bf_field_matrix_inverse(field: *const [u64; 5], matrix: *const [u64; 2], matrix_length: usize, size: usize,
        inverse: *mut [u64; 2], inverse_length: usize, space: *mut [u64; 2], space_length: usize, places: *mut usize,
        places_length: usize) -> u32;
    /// solution: a solution x of matrix * x = right, of rows equations in columns unknowns, in space for rows times columns + 1 elements
    /// and rows places, which may be written whatever the status; an unknown that the others leave open is 0. BF_LENGTH unless matrix has
    /// rows * columns elements, right rows, solution columns, space rows * (columns + 1), and places rows places. BF_NOT_AN_ELEMENT unless
    /// each word that is read is below 2^degree. BF_UNSOLVABLE unless there is a solution.
    pub fn bf_field_matrix_solve(field: *const [u64; 5], matrix: *const [u64; 2], matrix_length: usize, rows: usize, columns: usize,
        right: *const [u64; 2], right_length: usize, solution: *mut [u64; 2], solution_length: usize, space: *mut [u64; 2],
        space_length: usize, places: *mut usize, places_length: usize) -> u32;
    /// low += scalar * high, and then high += low, at each place. BF_LENGTH unless low and high have one length.
    pub fn bf_g128_butterfly_forward(low: *mut [u64; 2], low_length: usize, high: *mut [u64; 2], high_length: usize,
        scalar: *const [u64; 2]) -> u32;
    /// high += low, and then low += scalar * high, at each place. BF_LENGTH unless low and high have one length.
    pub fn bf_g128_butterfly_inverse(low: *mut [u64; 2], low_length: usize, high: *mut [u64; 2], high_length: usize,
        scalar: *const [u64; 2]) -> u32;
    /// The four lowest stages of an additive transform over runs of sixteen values, the first of which is run first_run; four shifts, and a
    /// basis of 3 to 128 elements, 2 to the power of three less than which is at least the number behind the last run. BF_LENGTH unless
    /// values has a multiple of 16, shifts 4 and basis 3 to 128; where there are values, first_run and the number of runs are together at
    /// most 2 to the power of 3 less than the length of basis.
    pub fn bf_g128_low_stages(values: *mut [u64; 2], values_length: usize, shifts: *const [u64; 2], shifts_length: usize,
        basis: *const [u64; 2], basis_length: usize, first_run: usize) -> u32;
    /// The value at each of 2^m points, m from 0 to 40, of the polynomial with these coefficients in the basis of subspace polynomials.
    /// BF_LENGTH unless values has 2^m elements, for an m from 0 to 40.
    pub fn bf_g128_transform(values: *mut [u64; 2], values_length: usize, shift: *const [u64; 2]) -> u32;
    /// The coefficients that bf_g128_transform takes to these values. BF_LENGTH unless values has 2^m elements, for an m from 0 to 40.
    pub fn bf_g128_inverse_transform(values: *mut [u64; 2], values_length: usize, shift: *const [u64; 2]) -> u32;
    /// The same as bf_g128_transform, over t16; it is fastest where the shift is 0 or below 65536. BF_LENGTH unless values has 2^m
    /// elements, for an m from 0 to 16.
    pub fn bf_t16_transform(values: *mut u16, values_length: usize, shift: u16) -> u32;
    /// The coefficients that bf_t16_transform takes to these values. BF_LENGTH unless values has 2^m elements, for an m from 0 to 16.
    pub fn bf_t16_inverse_transform(values: *mut u16, values_length: usize, shift: u16) -> u32;
    /// The same as bf_g128_transform, over t32; it is fastest where the shift is 0 or below 65536. BF_LENGTH unless values has 2^m
    /// elements, for an m from 0 to 32.
    pub fn bf_t32_transform(values: *mut u32, values_length: usize, shift: u32) -> u32;
    /// The coefficients that bf_t32_transform takes to these values. BF_LENGTH unless values has 2^m elements, for an m from 0 to 32.
    pub fn bf_t32_inverse_transform(values: *mut u32, values_length: usize, shift: u32) -> u32;
    /// The same as bf_g128_transform, over t64; it is fastest where the shift is 0 or below 65536. BF_LENGTH unless values has 2^m
    /// elements, for an m from 0 to 40.
    pub fn bf_t64_transform(values: *mut u64, values_length: usize, shift: u64) -> u32;
    /// The coefficients that bf_t64_transform takes to these values. BF_LENGTH unless values has 2^m elements, for an m from 0 to 40.
    pub fn bf_t64_inverse_transform(values: *mut u64, values_length: usize, shift: u64) -> u32;
    /// The same as bf_g128_transform, over t128; it is fastest where the shift is 0 or below 65536. BF_LENGTH unless values has 2^m
    /// elements, for an m from 0 to 40.
    pub fn bf_t128_transform(values: *mut [u64; 2], values_length: usize, shift: *const [u64; 2]) -> u32;
    /// The coefficients that bf_t128_transform takes to these values. BF_LENGTH unless values has 2^m elements, for an m from 0 to 40.
    pub fn bf_t128_inverse_transform(values: *mut [u64; 2], values_length: usize, shift: *const [u64; 2]) -> u32;
    /// hash: GHASH of the message (NIST SP 800-38D), zeros added to whole blocks. BF_LENGTH unless key and hash have 16 bytes.
    pub fn bf_tag_ghash(key: *const u8, key_length: usize, message: *const u8, message_length: usize, hash: *mut u8,
        hash_length: usize) -> u32;
    /// hash: POLYVAL of the message (RFC 8452), zeros added to whole blocks. BF_LENGTH unless key and hash have 16 bytes.
    pub fn bf_tag_polyval(key: *const u8, key_length: usize, message: *const u8, message_length: usize, hash: *mut u8,
        hash_length: usize) -> u32;
    /// hash: the hash of GCM over associated data and ciphertext, each below 2^61 bytes, with the block of their lengths. BF_LENGTH unless
    /// key and hash have 16 bytes, and associated and ciphertext below 2^61 each.
    pub fn bf_tag_gcm_ghash(key: *const u8, key_length: usize, associated: *const u8, associated_length: usize, ciphertext: *const u8,
        ciphertext_length: usize, hash: *mut u8, hash_length: usize) -> u32;
    /// state: the hash of the empty message under the key, to which bf_tag_ghash_update adds bytes. BF_LENGTH unless key has 16 bytes.
    pub fn bf_tag_ghash_init(state: *mut [u64; 13], key: *const u8, key_length: usize) -> u32;
    /// Adds bytes to the message, of any number: no zeros come between them and the next ones.
    pub fn bf_tag_ghash_update(state: *mut [u64; 13], message: *const u8, message_length: usize) -> u32;
    /// Adds as many zeros as make the message whole blocks, which may be none.
    pub fn bf_tag_ghash_pad(state: *mut [u64; 13]) -> u32;
    /// hash: what bf_tag_ghash gives of the message, which is then empty, under the same key. BF_LENGTH unless hash has 16 bytes.
    pub fn bf_tag_ghash_final(state: *mut [u64; 13], hash: *mut u8, hash_length: usize) -> u32;
    /// state: the hash of the empty message under the key, to which bf_tag_polyval_update adds bytes. BF_LENGTH unless key has 16 bytes.
    pub fn bf_tag_polyval_init(state: *mut [u64; 13], key: *const u8, key_length: usize) -> u32;
    /// Adds bytes to the message, of any number: no zeros come between them and the next ones.
    pub fn bf_tag_polyval_update(state: *mut [u64; 13], message: *const u8, message_length: usize) -> u32;
    /// Adds as many zeros as make the message whole blocks, which may be none.
    pub fn bf_tag_polyval_pad(state: *mut [u64; 13]) -> u32;
    /// hash: what bf_tag_polyval gives of the message, which is then empty, under the same key. BF_LENGTH unless hash has 16 bytes.
    pub fn bf_tag_polyval_final(state: *mut [u64; 13], hash: *mut u8, hash_length: usize) -> u32;
    /// hash: what bf_tag_gcm_ghash gives, where the message is the associated data, bf_tag_ghash_pad behind them, and the ciphertext, by
    /// their lengths in bytes, each below 2^61; the message is then empty, under the same key. BF_LENGTH unless hash has 16 bytes, and both
    /// lengths are below 2^61.
    pub fn bf_tag_gcm_ghash_final(state: *mut [u64; 13], associated_length: usize, ciphertext_length: usize, hash: *mut u8,
        hash_length: usize) -> u32;
    /// equal: 1 where the two have the same bytes, else 0. What a compiler made of it was looked at: all bytes are read whatever they are,
    /// and one test comes at the end; unlike lengths return at once. docs/THEOREMS.md says what was looked at of other functions.
    pub fn bf_tags_are_equal(left: *const u8, left_length: usize, right: *const u8, right_length: usize, equal: *mut u8) -> u32;
    /// length: how many bytes the tables of the code take: 32 for each pair of a shard of data and one of parity, parity counted up to a
    /// multiple of 4. BF_CODE if data and parity are not both at least 1 and together at most 256.
    pub fn bf_rs_tables_length(data: usize, parity: usize, length: *mut u64) -> u32;
    /// tables: the tables of the code, by which bf_rs_encode_prepared and bf_rs_verify_prepared work; they are read faster from a multiple
    /// of 16 on. BF_CODE if data and parity are not both at least 1 and together at most 256. BF_LENGTH unless tables has the bytes that
    /// bf_rs_tables_length gives.
    pub fn bf_rs_prepare(data: usize, parity: usize, tables: *mut u8, tables_length: usize) -> u32;
    /// Adds to sums what a shard of data is in a shard of parity, by the tables that bf_rs_prepare wrote for this code; once each shard of
    /// data was added to zeros, in any order, sums is that shard of parity. BF_CODE if data and parity are not both at least 1 and together
    /// at most 256. BF_LENGTH unless tables has the bytes that bf_rs_tables_length gives, data_shard is below data and parity_shard below
    /// parity, and shard and sums have one length.
    pub fn bf_rs_add_shard(data: usize, parity: usize, tables: *const u8, tables_length: usize, data_shard: usize, parity_shard: usize,
        shard: *const u8, shard_length: usize, sums: *mut u8, sums_length: usize) -> u32;
    /// Writes the shards of parity, which stand behind those of data; all shards stand one after the other and have one size. BF_CODE if
    /// data and parity are not both at least 1 and together at most 256. BF_LENGTH unless shards has a multiple, but not 0, of data +
    /// parity bytes.
    pub fn bf_rs_encode(data: usize, parity: usize, shards: *mut u8, shards_length: usize) -> u32;
    /// Writes the shards of parity, as bf_rs_encode does, by the tables that bf_rs_prepare wrote for this code; by other bytes it writes
    /// parity of which nothing is said, and the data stay. BF_CODE if data and parity are not both at least 1 and together at most 256.
    /// BF_LENGTH unless tables has the bytes that bf_rs_tables_length gives, and shards a multiple, but not 0, of data + parity.
    pub fn bf_rs_encode_prepared(data: usize, parity: usize, tables: *const u8, tables_length: usize, shards: *mut u8,
        shards_length: usize) -> u32;
    /// whole: 1 where the shards of parity are those of the data, else 0. BF_CODE if data and parity are not both at least 1 and together
    /// at most 256. BF_LENGTH unless shards has a multiple, but not 0, of data + parity bytes.
    pub fn bf_rs_verify(data: usize, parity: usize, shards: *const u8, shards_length: usize, whole: *mut u8) -> u32;
    /// whole: 1 where the shards of parity are those of the data, else 0, by the tables that bf_rs_prepare wrote for this code; by other
    /// bytes it is 0 or 1. BF_CODE if data and parity are not both at least 1 and together at most 256. BF_LENGTH unless tables has the
    /// bytes that bf_rs_tables_length gives, and shards a multiple, but not 0, of data + parity.
    pub fn bf_rs_verify_prepared(data: usize, parity: usize, tables: *const u8, tables_length: usize, shards: *const u8,
        shards_length: usize, whole: *mut u8) -> u32;
    /// factors: the factor of each shard in a missing one, which is the sum of the products of the present shards by their factors: shard i
    /// is missing where present\[i\] is 0, and the factors of all but the first present shards, as many as data, are 0. BF_CODE if data and
    /// parity are not both at least 1 and together at most 256. BF_LENGTH unless present and factors have data + parity bytes, and shard is
    /// below data + parity and missing. BF_TOO_FEW_SHARDS unless at least as many entries of present as data are not 0.
    pub fn bf_rs_shard_factors(data: usize, parity: usize, present: *const u8, present_length: usize, shard: usize, factors: *mut u8,
        factors_length: usize) -> u32;
    /// Adds to each byte of sums the product of the byte of shard at its place by the factor, modulo x^8 + x^4 + x^3 + x^2 + 1. BF_LENGTH
    /// unless shard and sums have one length.
    pub fn bf_rs_add_multiple(factor: u8, shard: *const u8, shard_length: usize, sums: *mut u8, sums_length: usize) -> u32;
    /// The tables of the missing shards, by which bf_rs_reconstruct_prepared and bf_rs_reconstruct_data_prepared restore them in every
    /// stripe that lacks the same ones; they have as many bytes as those of the code, whatever shards are missing, and of the bytes behind
    /// them nothing is said. BF_CODE if data and parity are not both at least 1 and together at most 256. BF_LENGTH unless tables has the
    /// bytes that bf_rs_tables_length gives, and present has data + parity. BF_TOO_FEW_SHARDS unless at least as many entries of present as
    /// data are not 0.
    pub fn bf_rs_prepare_reconstruct(data: usize, parity: usize, present: *const u8, present_length: usize, tables: *mut u8,
        tables_length: usize) -> u32;
    /// Writes the missing shards: shard i is missing where present\[i\] is 0. BF_CODE if data and parity are not both at least 1 and
    /// together at most 256. BF_LENGTH unless shards has a multiple, but not 0, of data + parity bytes, and present has data + parity.
    /// BF_TOO_FEW_SHARDS unless at least as many entries of present as data are not 0.
    pub fn bf_rs_reconstruct(data: usize, parity: usize, shards: *mut u8, shards_length: usize, present: *const u8,
        present_length: usize) -> u32;
    /// Writes the missing shards of data alone. BF_CODE if data and parity are not both at least 1 and together at most 256. BF_LENGTH
    /// unless shards has a multiple, but not 0, of data + parity bytes, and present has data + parity. BF_TOO_FEW_SHARDS unless at least as
    /// many entries of present as data are not 0.
    pub fn bf_rs_reconstruct_data(data: usize, parity: usize, shards: *mut u8, shards_length: usize, present: *const u8,
        present_length: usize) -> u32;
    /// Writes the missing shards, as bf_rs_reconstruct does, by the tables that bf_rs_prepare_reconstruct wrote for this code and these
    /// flags; by other bytes it writes missing shards of which nothing is said, and those present stay. BF_CODE if data and parity are not
    /// both at least 1 and together at most 256. BF_LENGTH unless tables has the bytes that bf_rs_tables_length gives, shards a multiple,
    /// but not 0, of data + parity, and present data + parity. BF_TOO_FEW_SHARDS unless at least as many entries of present as data are not
    /// 0.
    pub fn bf_rs_reconstruct_prepared(data: usize, parity: usize, tables: *const u8, tables_length: usize, shards: *mut u8,
        shards_length: usize, present: *const u8, present_length: usize) -> u32;
    /// Writes the missing shards of data alone, by the same tables. BF_CODE if data and parity are not both at least 1 and together at most
    /// 256. BF_LENGTH unless tables has the bytes that bf_rs_tables_length gives, shards a multiple, but not 0, of data + parity, and
    /// present data + parity. BF_TOO_FEW_SHARDS unless at least as many entries of present as data are not 0.
    pub fn bf_rs_reconstruct_data_prepared(data: usize, parity: usize, tables: *const u8, tables_length: usize, shards: *mut u8,
        shards_length: usize, present: *const u8, present_length: usize) -> u32;
    /// Writes the symbols behind the data of each word, so that it is a word of the code. BF_CODE if modulus is none of those above, data
    /// is 0 or not below symbols, symbols is above 255, or a power of g^root_step with an exponent from 1 to symbols - 1 is 1. BF_LENGTH
    /// unless words has a multiple of symbols.
    pub fn bf_code_encode(modulus: u64, symbols: usize, data: usize, first_root: u64, root_step: u64, words: *mut u8,
        words_length: usize) -> u32;
    /// syndromes: the values of each word at the roots, that at the first root first; symbols - data of them a word. BF_CODE if modulus is
    /// none of those above, data is 0 or not below symbols, symbols is above 255, or a power of g^root_step with an exponent from 1 to
    /// symbols - 1 is 1. BF_LENGTH unless words has a multiple of symbols, and syndromes symbols - data for each word.
    pub fn bf_code_syndromes(modulus: u64, symbols: usize, data: usize, first_root: u64, root_step: u64, words: *const u8,
        words_length: usize, syndromes: *mut u8, syndromes_length: usize) -> u32;
    /// flags: 1 for each word that is one of the code, 0 for each other. BF_CODE if modulus is none of those above, data is 0 or not below
    /// symbols, symbols is above 255, or a power of g^root_step with an exponent from 1 to symbols - 1 is 1. BF_LENGTH unless words has a
    /// multiple of symbols, and flags one for each word.
    pub fn bf_code_are_words(modulus: u64, symbols: usize, data: usize, first_root: u64, root_step: u64, words: *const u8,
        words_length: usize, flags: *mut u8, flags_length: usize) -> u32;
    /// corrected: corrects each word, and writes how many of its symbols changed; a symbol is erased where its byte of erasures is not 0. A
    /// word becomes the only word of the code from which it differs at t places beside e erased ones, with 2 * t + e at most symbols -
    /// data. Where there is none it stays, and corrected is 65535. BF_CODE if modulus is none of those above, data is 0 or not below
    /// symbols, symbols is above 255, or a power of g^root_step with an exponent from 1 to symbols - 1 is 1. BF_LENGTH unless words has a
    /// multiple of symbols, erasures as many bytes or none, and corrected one for each word.
    pub fn bf_code_correct(modulus: u64, symbols: usize, data: usize, first_root: u64, root_step: u64, words: *mut u8, words_length: usize,
        erasures: *const u8, erasures_length: usize, corrected: *mut u16, corrected_length: usize) -> u32;
    /// The same as bf_code_encode, of words that stand interleaved: the first symbols of all words, one after the other, then the second
    /// symbols. BF_CODE if modulus is none of those above, data is 0 or not below symbols, symbols is above 255, or a power of g^root_step
    /// with an exponent from 1 to symbols - 1 is 1. BF_LENGTH unless words has a multiple of symbols.
    pub fn bf_code_encode_interleaved(modulus: u64, symbols: usize, data: usize, first_root: u64, root_step: u64, words: *mut u8,
        words_length: usize) -> u32;
    /// syndromes: the same as bf_code_syndromes, of words that stand interleaved, whose values do too: those of all words at a root stand
    /// one after the other. BF_CODE if modulus is none of those above, data is 0 or not below symbols, symbols is above 255, or a power of
    /// g^root_step with an exponent from 1 to symbols - 1 is 1. BF_LENGTH unless words has a multiple of symbols, and syndromes symbols -
    /// data for each word.
    pub fn bf_code_syndromes_interleaved(modulus: u64, symbols: usize, data: usize, first_root: u64, root_step: u64, words: *const u8,
        words_length: usize, syndromes: *mut u8, syndromes_length: usize) -> u32;
    /// Corrects each word as bf_code_correct does, of words that stand interleaved, and writes to corrected 1 for a word that it could
    /// correct, or that had no error, and 0 for each other. Symbol i of every word is erased where byte i of erasures is not 0. To
    /// syndromes it writes the values of the received words, as bf_code_syndromes_interleaved does. BF_CODE if modulus is none of those
    /// above, data is 0 or not below symbols, symbols is above 255, or a power of g^root_step with an exponent from 1 to symbols - 1 is 1.
    /// BF_LENGTH unless words has a multiple of symbols, erasures one byte for each symbol of a word or none, syndromes symbols - data for
    /// each word, and corrected one for each.
    pub fn bf_code_correct_interleaved(modulus: u64, symbols: usize, data: usize, first_root: u64, root_step: u64, words: *mut u8,
        words_length: usize, erasures: *const u8, erasures_length: usize, syndromes: *mut u8, syndromes_length: usize, corrected: *mut u8,
        corrected_length: usize) -> u32;
    /// Writes the symbols behind the data of each word, so that it is a word of the code; what stood there is not read. BF_REDUCIBLE unless
    /// field names a field, as what bf_field_init made does. BF_CODE if the field has more than 65536 elements, data is 0 or not below
    /// symbols, symbols is above 65535, root is 0 or no element, or a power of it with an exponent from 1 to symbols - 1 is 1. BF_LENGTH
    /// unless words has a multiple of symbols, and space symbols - data + 1. BF_NOT_AN_ELEMENT unless each symbol of data is an element.
    pub fn bf_field_code_encode(field: *const [u64; 5], symbols: usize, data: usize, first_root: u64, root: u64, words: *mut u16,
        words_length: usize, space: *mut u16, space_length: usize) -> u32;
    /// syndromes: the values of each word at the roots, that at the first root first; symbols - data of them a word. BF_REDUCIBLE unless
    /// field names a field, as what bf_field_init made does. BF_CODE if the field has more than 65536 elements, data is 0 or not below
    /// symbols, symbols is above 65535, root is 0 or no element, or a power of it with an exponent from 1 to symbols - 1 is 1. BF_LENGTH
    /// unless words has a multiple of symbols, and syndromes symbols - data for each word. BF_NOT_AN_ELEMENT unless each symbol is an
    /// element.
    pub fn bf_field_code_syndromes(field: *const [u64; 5], symbols: usize, data: usize, first_root: u64, root: u64, words: *const u16,
        words_length: usize, syndromes: *mut u16, syndromes_length: usize) -> u32;
    /// flags: 1 for each word that is one of the code, 0 for each other. BF_REDUCIBLE unless field names a field, as what bf_field_init
    /// made does. BF_CODE if the field has more than 65536 elements, data is 0 or not below symbols, symbols is above 65535, root is 0 or
    /// no element, or a power of it with an exponent from 1 to symbols - 1 is 1. BF_LENGTH unless words has a multiple of symbols, and
    /// flags one for each word. BF_NOT_AN_ELEMENT unless each symbol is an element.
    pub fn bf_field_code_are_words(field: *const [u64; 5], symbols: usize, data: usize, first_root: u64, root: u64, words: *const u16,
        words_length: usize, flags: *mut u8, flags_length: usize) -> u32;
    /// Corrects each word as bf_code_correct does, and writes how many of its symbols changed, or 65535 where it is near to no word of the
    /// code. A bool is the byte 0 or 1, before the call too. BF_REDUCIBLE unless field names a field, as what bf_field_init made does.
    /// BF_CODE if the field has more than 65536 elements, data is 0 or not below symbols, symbols is above 65535, root is 0 or no element,
    /// or a power of it with an exponent from 1 to symbols - 1 is 1. BF_LENGTH unless words has a multiple of symbols, erasures as many
    /// bytes or none, corrected one for each word, space 2 * symbols + 5 * (symbols - data) + 3, marks 2 * symbols, and places symbols.
    /// BF_NOT_AN_ELEMENT unless each symbol is an element.
    pub fn bf_field_code_correct(field: *const [u64; 5], symbols: usize, data: usize, first_root: u64, root: u64, words: *mut u16,
        words_length: usize, erasures: *const u8, erasures_length: usize, corrected: *mut u16, corrected_length: usize, space: *mut u16,
        space_length: usize, marks: *mut bool, marks_length: usize, places: *mut usize, places_length: usize) -> u32;
    /// data: how many bits of a word are data: all but one for each root and each square of a root, of a square and so on. BF_CODE if
    /// modulus is none of those above, errors is 0, 2 * errors is not below bits, bits is above 255, a power of g^root_step with an
    /// exponent from 1 to bits - 1 is 1, or no bits are left for data.
    pub fn bf_bch_data(modulus: u64, bits: usize, errors: usize, root_step: u64, data: *mut u64) -> u32;
    /// Writes the bits behind the data of each word, so that it is a word of the code; what stood there is not read. BF_CODE if modulus is
    /// none of those above, errors is 0, 2 * errors is not below bits, bits is above 255, a power of g^root_step with an exponent from 1 to
    /// bits - 1 is 1, or no bits are left for data. BF_LENGTH unless words has a multiple of bits. BF_NOT_AN_ELEMENT unless each byte of
    /// data is 0 or 1.
    pub fn bf_bch_encode(modulus: u64, bits: usize, errors: usize, root_step: u64, words: *mut u8, words_length: usize) -> u32;
    /// flags: 1 for each word that is one of the code, 0 for each other; a byte above 1 is in no word. BF_CODE if modulus is none of those
    /// above, errors is 0, 2 * errors is not below bits, bits is above 255, a power of g^root_step with an exponent from 1 to bits - 1 is
    /// 1, or no bits are left for data. BF_LENGTH unless words has a multiple of bits, and flags one for each word.
    pub fn bf_bch_are_words(modulus: u64, bits: usize, errors: usize, root_step: u64, words: *const u8, words_length: usize, flags: *mut u8,
        flags_length: usize) -> u32;
    /// corrected: corrects each word, and writes how many of its bits changed; a bit is erased where its byte of erasures is not 0. A word
    /// becomes the only word of the code from which it differs at t places beside e erased ones, with t + e / 2 at most errors. Where there
    /// is none it stays, and corrected is 65535. BF_CODE if modulus is none of those above, errors is 0, 2 * errors is not below bits, bits
    /// is above 255, a power of g^root_step with an exponent from 1 to bits - 1 is 1, or no bits are left for data. BF_LENGTH unless words
    /// has a multiple of bits, erasures as many or none, and corrected one for each word.
    pub fn bf_bch_correct(modulus: u64, bits: usize, errors: usize, root_step: u64, words: *mut u8, words_length: usize,
        erasures: *const u8, erasures_length: usize, corrected: *mut u16, corrected_length: usize) -> u32;
    /// length: how many words of space each call of the code takes: 40 times the least power of two that is at least data, counted up to a
    /// power of two, and parity together. BF_CODE if data and parity are not both at least 1, or data, counted up to a power of two, and
    /// parity are together more than 65536.
    pub fn bf_erasure_space(data: usize, parity: usize, length: *mut u64) -> u32;
    /// parity_shards: the shards of parity of these shards of data. BF_CODE if data and parity are not both at least 1, or data, counted up
    /// to a power of two, and parity are together more than 65536. BF_LENGTH unless shards has data, and parity_shards parity, times one
    /// number of words, which is not 0, and space at least what bf_erasure_space gives.
    pub fn bf_erasure_encode(data: usize, parity: usize, shards: *const u16, shards_length: usize, parity_shards: *mut u16,
        parity_shards_length: usize, space: *mut u16, space_length: usize) -> u32;
    /// whole: 1 where the shards of parity are those of the data, else 0. BF_CODE if data and parity are not both at least 1, or data,
    /// counted up to a power of two, and parity are together more than 65536. BF_LENGTH unless shards has data, and parity_shards parity,
    /// times one number of words, which is not 0, and space at least what bf_erasure_space gives.
    pub fn bf_erasure_verify(data: usize, parity: usize, shards: *const u16, shards_length: usize, parity_shards: *const u16,
        parity_shards_length: usize, space: *mut u16, space_length: usize, whole: *mut u8) -> u32;
    /// Writes the missing shards: shard i, of the data and then of the parity, is missing where present\[i\] is 0. BF_CODE if data and
    /// parity are not both at least 1, or data, counted up to a power of two, and parity are together more than 65536. BF_LENGTH unless
    /// shards has data, and parity_shards parity, times one number of words, which is not 0, and space at least what bf_erasure_space
    /// gives, and present has data + parity. BF_TOO_FEW_SHARDS unless at least as many entries of present as data are not 0. It takes 64
    /// KiB of the stack, for the flags of the shards.
    pub fn bf_erasure_reconstruct(data: usize, parity: usize, shards: *mut u16, shards_length: usize, parity_shards: *mut u16,
        parity_shards_length: usize, present: *const u8, present_length: usize, space: *mut u16, space_length: usize) -> u32;
    /// shares: writes count shares of a secret, any needed of which restore it, where fewer say nothing of it. Share i, counted from 0, has
    /// the index i + 1, is as long as the secret and stands behind those before it. modulus is 0x11b for the field of AES, or 0x11d for
    /// that of libgfshare. draws has needed - 1 times the length of secret bytes, which the caller draws for this secret alone from a
    /// source of cryptographic quality, each from all 256, 0 among them, and keeps from everybody. BF_CODE if modulus is another number, or
    /// not 2 <= needed <= count <= 255. BF_LENGTH unless secret has a byte or more, draws needed - 1 times as many, and shares count times
    /// as many.
    pub fn bf_secret_split(modulus: u64, needed: usize, count: usize, secret: *const u8, secret_length: usize, draws: *const u8,
        draws_length: usize, shares: *mut u8, shares_length: usize) -> u32;
    /// secret: writes the secret of shares with these indexes, of which needed are needed; they stand one after the other. Of more than
    /// needed all have to be those of one secret; whether bytes of needed shares are right cannot be told. BF_CODE if modulus is another
    /// number, or needed is below 2. BF_TOO_FEW_SHARDS unless there are at least needed indexes. BF_CODE if there are more than 255
    /// indexes, one is 0, or two are equal. BF_LENGTH unless secret has a byte or more, and shares as many for each of indexes.
    /// BF_UNSOLVABLE unless the shares lie, byte by byte, on polynomials of needed coefficients.
    pub fn bf_secret_combine(modulus: u64, needed: usize, indexes: *const u8, indexes_length: usize, shares: *const u8,
        shares_length: usize, secret: *mut u8, secret_length: usize) -> u32;
    /// Restores a secret as bf_secret_combine does, of shares some of which may be wrong, and writes to wrong for each share 1 where it is
    /// wrong, else 0. A share is wrong if any of its bytes is, and of n shares up to (n - needed) / 2 may be. BF_CODE if modulus is another
    /// number. BF_LENGTH unless wrong has a byte for each of indexes. BF_CODE if needed is below 2. BF_TOO_FEW_SHARDS unless there are at
    /// least needed indexes. BF_CODE if there are more than 255 indexes, one is 0, or two are equal. BF_LENGTH unless secret has a byte or
    /// more, and shares as many for each of indexes. BF_UNSOLVABLE unless so few shares are wrong.
    pub fn bf_secret_combine_correcting(modulus: u64, needed: usize, indexes: *const u8, indexes_length: usize, shares: *const u8,
        shares_length: usize, secret: *mut u8, secret_length: usize, wrong: *mut u8, wrong_length: usize) -> u32;
    /// Writes to the front of answer what the program binfield answers to the line, as 41 to t8 mul 10 10, without a line feed; written is
    /// how many bytes that is, at most 48, and the bytes of answer behind them stay. BF_LENGTH unless answer has at least as many bytes as
    /// are written, for which 48 are enough.
    pub fn bf_answer(line: *const u8, line_length: usize, answer: *mut u8, answer_length: usize, written: *mut u64) -> u32;
}
