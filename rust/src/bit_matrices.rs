//! Matrices over GF(2), whose rows are packed in words of 64 bits, row after row in a slice: a row of so many columns takes
//! `columns.div_ceil(64)` words, and column j of it is bit j % 64 of its word j / 64. The bits behind the columns are 0: words where they
//! are not are refused with `Error::NotAnElement`, and what is written has zeros there. A call fails with `Error::Length` where a slice has
//! another length than it says. On an error nothing is changed but the space that a call works in.

use crate::Error;
use crate::functions::*;

/// Writes the product of `left`, of `rows` rows of `inner` bits, and `right`, of `inner` rows of `columns` bits.
///
/// ```
/// use binary_field::{Error, bit_matrices};
///
/// // Two rows of two bits: the matrix (1 1; 0 1), whose square is 1.
/// let matrix = [0b11, 0b10];
/// let mut square = [0; 2];
/// bit_matrices::multiply(&matrix, &matrix, &mut square, 2, 2, 2)?;
/// assert_eq!(square, [0b01, 0b10]);
/// # Ok::<(), Error>(())
/// ```
pub fn multiply(
    left: &[u64],
    right: &[u64],
    product: &mut [u64],
    rows: usize,
    inner: usize,
    columns: usize,
) -> Result<(), Error> {
    Error::of(call!(bf_bit_matrix_multiply: [left], [right], [mut product], rows, inner, columns))
}

/// Writes the transpose of a matrix of `rows` rows of `columns` bits, which has `columns` rows of `rows` bits.
///
/// ```
/// let mut transposed = [0; 3];
/// binary_field::bit_matrices::transpose(&[0b101, 0b011], &mut transposed, 2, 3)?;
/// assert_eq!(transposed, [0b11, 0b10, 0b01]);
/// # Ok::<(), binary_field::Error>(())
/// ```
pub fn transpose(
    matrix: &[u64],
    transposed: &mut [u64],
    rows: usize,
    columns: usize,
) -> Result<(), Error> {
    Error::of(call!(bf_bit_matrix_transpose: [matrix], [mut transposed], rows, columns))
}

/// Brings a matrix of `rows` rows of `columns` bits to reduced row echelon form, and returns its rank. The first so many places of `pivots`,
/// which has one for each row, become the columns of the leading entries, and the others stay.
///
/// ```
/// let (mut matrix, mut pivots) = ([0b110, 0b011, 0b101], [0; 3]);
/// assert_eq!(binary_field::bit_matrices::row_reduce(&mut matrix, 3, 3, &mut pivots)?, 2);
/// assert_eq!((matrix, pivots), ([0b101, 0b110, 0], [0, 1, 0]));
/// # Ok::<(), binary_field::Error>(())
/// ```
pub fn row_reduce(
    matrix: &mut [u64],
    rows: usize,
    columns: usize,
    pivots: &mut [usize],
) -> Result<usize, Error> {
    let mut rank = 0;
    Error::of(
        call!(bf_bit_matrix_row_reduce: [mut matrix], rows, columns, [mut pivots], &raw mut rank),
    )?;
    Ok(rank)
}

/// The rank of a matrix of `rows` rows of `columns` bits. `space` is as long, and `places` has one for each row.
///
/// ```
/// let rank = binary_field::bit_matrices::rank(&[0b11, 0b11], 2, 2, &mut [0; 2], &mut [0; 2])?;
/// assert_eq!(rank, 1);
/// # Ok::<(), binary_field::Error>(())
/// ```
pub fn rank(
    matrix: &[u64],
    rows: usize,
    columns: usize,
    space: &mut [u64],
    places: &mut [usize],
) -> Result<usize, Error> {
    let mut rank = 0;
    Error::of(
        call!(bf_bit_matrix_rank: [matrix], rows, columns, [mut space], [mut places], &raw mut rank),
    )?;
    Ok(rank)
}
