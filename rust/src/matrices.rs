//! Matrices, whose elements stand row after row in a slice.

use crate::functions::*;
use crate::{
    BinaryField2, BinaryField4, BinaryField8, BinaryField16, BinaryField32, BinaryField64,
    BinaryField128, Error, Field, Gf2, Ghash128, Poly64, Poly192, Rijndael8b,
};

/// Matrices over a field. A call fails with `Error::Length` where a slice has another length than it says, and then changes nothing. What it
/// works in, `space` and `places`, may have anything before; behind the call nothing is said of it.
///
/// ```
/// use binary_field::{Error, Matrices, Poly64};
///
/// let matrix = [1, 2, 3, 4].map(Poly64::new);
/// let (mut inverse, mut product) = ([Poly64::new(0); 4], [Poly64::new(0); 4]);
/// Poly64::matrix_inverse(&matrix, 2, &mut inverse, &mut [Poly64::new(0); 8], &mut [0; 2])?;
/// Poly64::matrix_multiply(&matrix, &inverse, &mut product, 2, 2, 2)?;
/// assert_eq!(product, [1, 0, 0, 1].map(Poly64::new));
/// # Ok::<(), Error>(())
/// ```
pub trait Matrices: Field {
    /// Writes the product of `left`, of `rows` rows of `inner` elements, and `right`, of `inner` rows of `columns` elements.
    fn matrix_multiply(
        left: &[Self],
        right: &[Self],
        product: &mut [Self],
        rows: usize,
        inner: usize,
        columns: usize,
    ) -> Result<(), Error>;

    /// Brings a matrix of `rows` rows of `columns` elements to reduced row echelon form, and returns its rank. The first so many places of
    /// `pivots`, which has one for each row, become the columns of the leading entries, and the others stay.
    fn matrix_row_reduce(
        matrix: &mut [Self],
        rows: usize,
        columns: usize,
        pivots: &mut [usize],
    ) -> Result<usize, Error>;

    /// The rank of a matrix of `rows` rows of `columns` elements. `space` is as long, and `places` has one for each row.
    fn matrix_rank(
        matrix: &[Self],
        rows: usize,
        columns: usize,
        space: &mut [Self],
        places: &mut [usize],
    ) -> Result<usize, Error>;

    /// The determinant of a matrix of `size` rows of `size` elements, of no rows ONE. `space` is as long.
    fn matrix_determinant(matrix: &[Self], size: usize, space: &mut [Self]) -> Result<Self, Error>;

    /// Writes the inverse of a matrix of `size` rows of `size` elements, or fails with `Error::Unsolvable` where it has none. `space` is two
    /// times as long, and `places` has one for each row.
    fn matrix_inverse(
        matrix: &[Self],
        size: usize,
        inverse: &mut [Self],
        space: &mut [Self],
        places: &mut [usize],
    ) -> Result<(), Error>;

    /// Writes an x with `matrix` x = `right`, or fails with `Error::Unsolvable` where there is none: `rows` equations, each a row of `columns`
    /// coefficients. `space` has a row of one element more for each equation, and `places` one for each.
    fn matrix_solve(
        matrix: &[Self],
        rows: usize,
        columns: usize,
        right: &[Self],
        solution: &mut [Self],
        space: &mut [Self],
        places: &mut [usize],
    ) -> Result<(), Error>;
}

/// The calls of the library by which fields have matrices.
macro_rules! matrices {
    ($($field:ident: $library:ident),* $(,)?) => {$(
        impl Matrices for $field {
            fn matrix_multiply(
                left: &[$field], right: &[$field], product: &mut [$field], rows: usize, inner: usize, columns: usize,
            ) -> Result<(), Error> {
                Error::of(call!($library::matrix_multiply: [left], [right], [mut product], rows, inner, columns))
            }

            fn matrix_row_reduce(
                matrix: &mut [$field], rows: usize, columns: usize, pivots: &mut [usize],
            ) -> Result<usize, Error> {
                let mut rank = 0;
                Error::of(call!($library::matrix_row_reduce: [mut matrix], rows, columns, [mut pivots], &raw mut rank))?;
                Ok(rank)
            }

            fn matrix_rank(
                matrix: &[$field], rows: usize, columns: usize, space: &mut [$field], places: &mut [usize],
            ) -> Result<usize, Error> {
                let mut rank = 0;
                Error::of(call!($library::matrix_rank: [matrix], rows, columns, [mut space], [mut places], &raw mut rank))?;
                Ok(rank)
            }

            fn matrix_determinant(matrix: &[$field], size: usize, space: &mut [$field]) -> Result<$field, Error> {
                let mut determinant = <$field as crate::PrimeCharacteristicRing>::ZERO;
                Error::of(call!($library::matrix_determinant: [matrix], size, [mut space], (&raw mut determinant).cast()))?;
                Ok(determinant)
            }

            fn matrix_inverse(
                matrix: &[$field], size: usize, inverse: &mut [$field], space: &mut [$field], places: &mut [usize],
            ) -> Result<(), Error> {
                Error::of(call!($library::matrix_inverse: [matrix], size, [mut inverse], [mut space], [mut places]))
            }

            fn matrix_solve(
                matrix: &[$field], rows: usize, columns: usize, right: &[$field], solution: &mut [$field], space: &mut [$field],
                places: &mut [usize],
            ) -> Result<(), Error> {
                Error::of(call!($library::matrix_solve: [matrix], rows, columns, [right], [mut solution], [mut space], [mut places]))
            }
        }
    )*};
}

matrices! {
    Gf2: gf2, BinaryField2: t2, BinaryField4: t4, BinaryField8: t8, BinaryField16: t16, BinaryField32: t32,
    BinaryField64: t64, BinaryField128: t128, Rijndael8b: r8, Poly64: p64, Ghash128: g128, Poly192: p192,
}
