//! Fields of 2^m elements, m from 1 to 128, modulo any irreducible polynomial that the program chooses. An element is a number below 2^m,
//! whose bit i is the coefficient of x^i, and a sum is the exclusive or. A call fails with `Error::Length` where slices have unlike lengths,
//! and with `Error::NotAnElement` where a word has a bit at m or above it. On an error nothing is changed.

use crate::Error;
use crate::functions::*;
use alloc::vec;
use alloc::vec::Vec;

// The words that the library takes, the low half of an element first.
fn words_of(numbers: &[u128]) -> Vec<[u64; 2]> {
    numbers.iter().map(|it| halves(*it)).collect()
}

fn halves(number: u128) -> [u64; 2] {
    [number as u64, (number >> 64) as u64]
}

fn whole(words: [u64; 2]) -> u128 {
    u128::from(words[1]) << 64 | u128::from(words[0])
}

// A place for each row of a matrix, once it has this shape.
fn places_for(matrix: &[[u64; 2]], rows: usize, columns: usize) -> Result<Vec<usize>, Error> {
    if rows.checked_mul(columns) != Some(matrix.len()) {
        return Err(Error::Length);
    }
    Ok(vec![0; rows])
}

/// A field modulo an irreducible polynomial. A call first tests anew that the modulus is irreducible, which takes as many squarings as its
/// degree, so that many elements in one call cost less an element.
#[derive(Clone, Copy, Debug, PartialEq, Eq, Hash)]
pub struct ChosenField {
    pub(crate) words: [u64; 5],
}

impl ChosenField {
    /// The field modulo x^degree and the terms of `tail`: `Error::Reducible` exactly where that is no irreducible polynomial of degree 1 to
    /// 128, or the tail has a term at the degree or above it.
    ///
    /// ```
    /// use binary_field::{Error, chosen::ChosenField};
    ///
    /// let field = ChosenField::new(8, 0x1d)?;
    /// let mut products = [0; 2];
    /// field.multiply(&[2, 0x80], &[2, 2], &mut products)?;
    /// assert_eq!(products, [4, 0x1d]);
    /// assert_eq!(ChosenField::new(4, 0b101), Err(Error::Reducible));
    /// # Ok::<(), Error>(())
    /// ```
    pub fn new(degree: usize, tail: u128) -> Result<ChosenField, Error> {
        let (mut words, tail) = ([0; 5], halves(tail));
        Error::of(call!(bf_field_init: &raw mut words, degree, &raw const tail))?;
        Ok(ChosenField { words })
    }

    /// The least tail from `tail` on, as a number, with which x^degree and its terms are irreducible, as `new` takes them; from `tail + 1` on
    /// it is the next after one. `Error::Unsolvable` exactly where there is none, of a degree from 1 to 128.
    ///
    /// ```
    /// use binary_field::chosen::ChosenField;
    ///
    /// assert_eq!(ChosenField::next_irreducible(8, 0), Ok(0x1b));
    /// assert_eq!(ChosenField::next_irreducible(8, 0x1c), Ok(0x1d));
    /// # Ok::<(), binary_field::Error>(())
    /// ```
    pub fn next_irreducible(degree: usize, tail: u128) -> Result<u128, Error> {
        let (tail, mut next) = (halves(tail), [0; 2]);
        Error::of(call!(bf_field_next_irreducible: degree, &raw const tail, &raw mut next))?;
        Ok(whole(next))
    }

    /// The least tail from `tail` on, as a number, with which x^degree and its terms are primitive: irreducible, and x has the order
    /// 2^degree - 1 modulo them. `Error::Unsolvable` exactly where there is none, of a degree from 1 to 128.
    ///
    /// ```
    /// use binary_field::chosen::ChosenField;
    ///
    /// assert_eq!(ChosenField::next_primitive(8, 0), Ok(0x1d));
    /// # Ok::<(), binary_field::Error>(())
    /// ```
    pub fn next_primitive(degree: usize, tail: u128) -> Result<u128, Error> {
        let (tail, mut next) = (halves(tail), [0; 2]);
        Error::of(call!(bf_field_next_primitive: degree, &raw const tail, &raw mut next))?;
        Ok(whole(next))
    }

    /// The degree of the modulus.
    pub fn degree(&self) -> usize {
        self.words[0] as usize
    }

    /// The modulus, but for its highest term.
    pub fn tail(&self) -> u128 {
        whole([self.words[1], self.words[2]])
    }

    // What a call over words of the library leaves, as numbers.
    fn written(
        &self,
        results: &mut [u128],
        call: impl FnOnce(&mut [[u64; 2]]) -> u32,
    ) -> Result<(), Error> {
        let mut made = vec![[0; 2]; results.len()];
        Error::of(call(&mut made))?;
        for (result, it) in results.iter_mut().zip(made) {
            *result = whole(it);
        }
        Ok(())
    }

    /// Writes the sum of the elements at each place.
    pub fn add(&self, left: &[u128], right: &[u128], sums: &mut [u128]) -> Result<(), Error> {
        let (left, right) = (words_of(left), words_of(right));
        self.written(
            sums,
            |made| call!(bf_field_add: &raw const self.words, [left], [right], [mut made]),
        )
    }

    /// Writes the product of the elements at each place.
    pub fn multiply(
        &self,
        left: &[u128],
        right: &[u128],
        products: &mut [u128],
    ) -> Result<(), Error> {
        let (left, right) = (words_of(left), words_of(right));
        self.written(
            products,
            |made| call!(bf_field_multiply: &raw const self.words, [left], [right], [mut made]),
        )
    }

    /// Writes the product of each element and the scalar.
    pub fn multiply_by(
        &self,
        values: &[u128],
        scalar: u128,
        products: &mut [u128],
    ) -> Result<(), Error> {
        let (values, scalar) = (words_of(values), halves(scalar));
        self.written(
            products,
            |made| call!(bf_field_multiply_by: &raw const self.words, [values], &raw const scalar, [mut made]),
        )
    }

    /// Writes the square of each element.
    pub fn square(&self, values: &[u128], squares: &mut [u128]) -> Result<(), Error> {
        let values = words_of(values);
        self.written(
            squares,
            |made| call!(bf_field_square: &raw const self.words, [values], [mut made]),
        )
    }

    /// Writes the inverse of each element, and 0 for 0.
    ///
    /// ```
    /// use binary_field::chosen::ChosenField;
    ///
    /// let mut inverses = [0; 3];
    /// ChosenField::new(3, 3)?.inverse(&[0, 1, 2], &mut inverses)?;
    /// assert_eq!(inverses, [0, 1, 5]);
    /// # Ok::<(), binary_field::Error>(())
    /// ```
    pub fn inverse(&self, values: &[u128], inverses: &mut [u128]) -> Result<(), Error> {
        let values = words_of(values);
        self.written(
            inverses,
            |made| call!(bf_field_inverse: &raw const self.words, [values], [mut made]),
        )
    }

    /// Writes the square root of each element.
    pub fn square_root(&self, values: &[u128], roots: &mut [u128]) -> Result<(), Error> {
        let values = words_of(values);
        self.written(
            roots,
            |made| call!(bf_field_square_root: &raw const self.words, [values], [mut made]),
        )
    }

    /// Writes each element to the power of the exponent; to the power of 0 it is 1.
    pub fn power(&self, values: &[u128], exponent: u64, powers: &mut [u128]) -> Result<(), Error> {
        let values = words_of(values);
        self.written(
            powers,
            |made| call!(bf_field_power: &raw const self.words, [values], exponent, [mut made]),
        )
    }

    /// Writes the trace of each element over GF(2), which is 0 or 1.
    pub fn trace(&self, values: &[u128], traces: &mut [u128]) -> Result<(), Error> {
        let values = words_of(values);
        self.written(
            traces,
            |made| call!(bf_field_trace: &raw const self.words, [values], [mut made]),
        )
    }

    /// Writes the quotient of the elements at each place, and 0 where that of `right` is 0.
    pub fn divide(
        &self,
        left: &[u128],
        right: &[u128],
        quotients: &mut [u128],
    ) -> Result<(), Error> {
        let (left, right) = (words_of(left), words_of(right));
        self.written(
            quotients,
            |made| call!(bf_field_divide: &raw const self.words, [left], [right], [mut made]),
        )
    }

    /// The sum of the products of the elements at each place, which is 0 of none.
    pub fn dot_product(&self, left: &[u128], right: &[u128]) -> Result<u128, Error> {
        let (left, right, mut sum) = (words_of(left), words_of(right), [0; 2]);
        Error::of(
            call!(bf_field_dot_product: &raw const self.words, [left], [right], &raw mut sum),
        )?;
        Ok(whole(sum))
    }

    /// Writes the value at each point of the polynomial with these coefficients, the constant one first; of none it is 0.
    ///
    /// ```
    /// use binary_field::chosen::ChosenField;
    ///
    /// let mut values = [0; 2];
    /// ChosenField::new(8, 0x1d)?.evaluate(&[5, 1], &[0, 2], &mut values)?;
    /// assert_eq!(values, [5, 7]);
    /// # Ok::<(), binary_field::Error>(())
    /// ```
    pub fn evaluate(
        &self,
        coefficients: &[u128],
        points: &[u128],
        values: &mut [u128],
    ) -> Result<(), Error> {
        let (coefficients, points) = (words_of(coefficients), words_of(points));
        self.written(
            values,
            |made| call!(bf_field_evaluate: &raw const self.words, [coefficients], [points], [mut made]),
        )
    }

    /// The least primitive element, whose powers are all elements but 0: `Error::Unsolvable` where none is below 65,536, as in no field that
    /// has been looked at.
    ///
    /// ```
    /// use binary_field::chosen::ChosenField;
    ///
    /// assert_eq!(ChosenField::new(8, 0x1b)?.primitive_element(), Ok(3));
    /// # Ok::<(), binary_field::Error>(())
    /// ```
    pub fn primitive_element(&self) -> Result<u128, Error> {
        let mut element = [0; 2];
        Error::of(call!(bf_field_primitive_element: &raw const self.words, &raw mut element))?;
        Ok(whole(element))
    }

    /// Writes the logarithm of each element to the base, the least exponent to which the power of the base is the element:
    /// `Error::Unsolvable` exactly where one of them is no power of the base. It takes as many steps as the greatest prime factor of the
    /// order of the base is.
    ///
    /// ```
    /// use binary_field::chosen::ChosenField;
    ///
    /// let mut logarithms = [0; 3];
    /// ChosenField::new(8, 0x1b)?.logarithm(&[1, 2, 3], 3, &mut logarithms)?;
    /// assert_eq!(logarithms, [0, 25, 1]);
    /// # Ok::<(), binary_field::Error>(())
    /// ```
    pub fn logarithm(
        &self,
        values: &[u128],
        base: u128,
        logarithms: &mut [u128],
    ) -> Result<(), Error> {
        let (values, base) = (words_of(values), halves(base));
        self.written(
            logarithms,
            |made| call!(bf_field_logarithm: &raw const self.words, [values], &raw const base, [mut made]),
        )
    }

    /// Writes the order of each element, the least exponent above 0 to which its power is 1, and 0 for 0, which has none.
    ///
    /// ```
    /// use binary_field::chosen::ChosenField;
    ///
    /// let mut orders = [0; 4];
    /// ChosenField::new(8, 0x1b)?.order(&[0, 1, 2, 3], &mut orders)?;
    /// assert_eq!(orders, [0, 1, 51, 255]);
    /// # Ok::<(), binary_field::Error>(())
    /// ```
    pub fn order(&self, values: &[u128], orders: &mut [u128]) -> Result<(), Error> {
        let values = words_of(values);
        self.written(
            orders,
            |made| call!(bf_field_order: &raw const self.words, [values], [mut made]),
        )
    }

    /// Writes the trace of each element over the subfield of 2^degree elements, the sum of its conjugates, an element of the subfield as it
    /// lies in this field: `Error::Unsolvable` exactly where `degree` does not divide that of this field.
    ///
    /// ```
    /// use binary_field::{Error, chosen::ChosenField};
    ///
    /// let field = ChosenField::new(8, 0x1b)?;
    /// let (mut traces, mut powers) = ([0; 1], [0; 1]);
    /// field.trace_to(&[0x53], 4, &mut traces)?;
    /// field.power(&traces, 16, &mut powers)?;
    /// assert_eq!(powers, traces);
    /// assert_eq!(field.trace_to(&[0x53], 3, &mut traces), Err(Error::Unsolvable));
    /// # Ok::<(), Error>(())
    /// ```
    pub fn trace_to(
        &self,
        values: &[u128],
        degree: usize,
        traces: &mut [u128],
    ) -> Result<(), Error> {
        let values = words_of(values);
        self.written(
            traces,
            |made| call!(bf_field_trace_to: &raw const self.words, [values], degree, [mut made]),
        )
    }

    /// Writes the norm of each element over the subfield of 2^degree elements, the product of its conjugates, an element of the subfield as
    /// it lies in this field: `Error::Unsolvable` exactly where `degree` does not divide that of this field.
    ///
    /// ```
    /// use binary_field::chosen::ChosenField;
    ///
    /// let field = ChosenField::new(8, 0x1b)?;
    /// let (mut norms, mut powers) = ([0; 1], [0; 1]);
    /// field.norm_to(&[0x53], 4, &mut norms)?;
    /// field.power(&[0x53], 17, &mut powers)?;
    /// assert_eq!(norms, powers);
    /// # Ok::<(), binary_field::Error>(())
    /// ```
    pub fn norm_to(&self, values: &[u128], degree: usize, norms: &mut [u128]) -> Result<(), Error> {
        let values = words_of(values);
        self.written(
            norms,
            |made| call!(bf_field_norm_to: &raw const self.words, [values], degree, [mut made]),
        )
    }

    /// The minimal polynomial of an element over GF(2), as its degree and its other terms: the irreducible polynomial of which the element is
    /// a root, as `new` takes it.
    ///
    /// ```
    /// use binary_field::chosen::ChosenField;
    ///
    /// let field = ChosenField::new(8, 0x1b)?;
    /// assert_eq!(field.minimal_polynomial(2), Ok((8, 0x1b)));
    /// assert_eq!(field.minimal_polynomial(1), Ok((1, 1)));
    /// # Ok::<(), binary_field::Error>(())
    /// ```
    pub fn minimal_polynomial(&self, element: u128) -> Result<(usize, u128), Error> {
        let (element, mut degree, mut tail) = (halves(element), 0, [0; 2]);
        Error::of(call!(
            bf_field_minimal_polynomial: &raw const self.words, &raw const element, &raw mut degree, &raw mut tail
        ))?;
        Ok((degree, whole(tail)))
    }

    /// An element of `target` that is a root of the modulus of this field, by which `embed` takes elements there: `Error::Unsolvable` exactly
    /// where the degree of this field does not divide that of the target. The fields of `new(8, 0x1b)`, `new(64, 0x1b)` and `new(128, 0x87)` are
    /// `Rijndael8b`, `Poly64` and `Ghash128` as they stand.
    pub fn embedding(&self, target: &ChosenField) -> Result<u128, Error> {
        let mut root = [0; 2];
        Error::of(
            call!(bf_field_embedding: &raw const self.words, &raw const target.words, &raw mut root),
        )?;
        Ok(whole(root))
    }

    /// Writes the image in `target` of each element of this field, its value at the root as a polynomial: `Error::Unsolvable` exactly where
    /// that is no root of the modulus of this field.
    ///
    /// ```
    /// use binary_field::chosen::ChosenField;
    ///
    /// let (small, large) = (ChosenField::new(2, 3)?, ChosenField::new(8, 0x1d)?);
    /// let (mut images, mut squares) = ([0; 1], [0; 1]);
    /// small.embed(&large, small.embedding(&large)?, &[2], &mut images)?;
    /// large.square(&images, &mut squares)?;
    /// assert_eq!(squares[0], images[0] ^ 1);
    /// # Ok::<(), binary_field::Error>(())
    /// ```
    pub fn embed(
        &self,
        target: &ChosenField,
        root: u128,
        values: &[u128],
        images: &mut [u128],
    ) -> Result<(), Error> {
        let (values, root) = (words_of(values), halves(root));
        self.written(
            images,
            |made| call!(bf_field_embed: &raw const self.words, &raw const target.words, &raw const root, [values], [mut made]),
        )
    }
}

/// Matrices, whose elements stand row after row in a slice. A call fails with `Error::Length` where a slice has another length than it says.
/// It takes the memory that it works in.
impl ChosenField {
    /// Writes the product of `left`, of `rows` rows of `inner` elements, and `right`, of `inner` rows of `columns` elements.
    ///
    /// ```
    /// use binary_field::chosen::ChosenField;
    ///
    /// let (field, matrix) = (ChosenField::new(8, 0x1d)?, [1, 2, 3, 4]);
    /// let (mut inverse, mut product) = ([0; 4], [0; 4]);
    /// field.matrix_inverse(&matrix, 2, &mut inverse)?;
    /// field.matrix_multiply(&matrix, &inverse, &mut product, 2, 2, 2)?;
    /// assert_eq!(product, [1, 0, 0, 1]);
    /// # Ok::<(), binary_field::Error>(())
    /// ```
    pub fn matrix_multiply(
        &self,
        left: &[u128],
        right: &[u128],
        product: &mut [u128],
        rows: usize,
        inner: usize,
        columns: usize,
    ) -> Result<(), Error> {
        let (left, right) = (words_of(left), words_of(right));
        self.written(
            product,
            |made| call!(bf_field_matrix_multiply: &raw const self.words, [left], [right], [mut made], rows, inner, columns),
        )
    }

    /// Brings a matrix of `rows` rows of `columns` elements to reduced row echelon form, and returns its rank. The first so many places of
    /// `pivots`, which has one for each row, become the columns of the leading entries, and the others stay.
    ///
    /// ```
    /// use binary_field::chosen::ChosenField;
    ///
    /// let (mut matrix, mut pivots) = ([0, 2, 4, 0, 1, 2], [9; 2]);
    /// assert_eq!(ChosenField::new(8, 0x1d)?.matrix_row_reduce(&mut matrix, 2, 3, &mut pivots)?, 1);
    /// assert_eq!((matrix, pivots), ([0, 1, 2, 0, 0, 0], [1, 9]));
    /// # Ok::<(), binary_field::Error>(())
    /// ```
    pub fn matrix_row_reduce(
        &self,
        matrix: &mut [u128],
        rows: usize,
        columns: usize,
        pivots: &mut [usize],
    ) -> Result<usize, Error> {
        let (mut words, mut rank) = (words_of(matrix), 0);
        Error::of(
            call!(bf_field_matrix_row_reduce: &raw const self.words, [mut words], rows, columns, [mut pivots], &raw mut rank),
        )?;
        for (element, it) in matrix.iter_mut().zip(words) {
            *element = whole(it);
        }
        Ok(rank)
    }

    /// The rank of a matrix of `rows` rows of `columns` elements.
    pub fn matrix_rank(
        &self,
        matrix: &[u128],
        rows: usize,
        columns: usize,
    ) -> Result<usize, Error> {
        let (matrix, mut rank) = (words_of(matrix), 0);
        let (mut space, mut places) = (matrix.clone(), places_for(&matrix, rows, columns)?);
        Error::of(
            call!(bf_field_matrix_rank: &raw const self.words, [matrix], rows, columns, [mut space], [mut places], &raw mut rank),
        )?;
        Ok(rank)
    }

    /// The determinant of a matrix of `size` rows of `size` elements, of no rows 1.
    pub fn matrix_determinant(&self, matrix: &[u128], size: usize) -> Result<u128, Error> {
        let (matrix, mut determinant) = (words_of(matrix), [0; 2]);
        let mut space = matrix.clone();
        Error::of(
            call!(bf_field_matrix_determinant: &raw const self.words, [matrix], size, [mut space], &raw mut determinant),
        )?;
        Ok(whole(determinant))
    }

    /// Writes the inverse of a matrix of `size` rows of `size` elements, or fails with `Error::Unsolvable` where it has none.
    pub fn matrix_inverse(
        &self,
        matrix: &[u128],
        size: usize,
        inverse: &mut [u128],
    ) -> Result<(), Error> {
        let matrix = words_of(matrix);
        let (mut space, mut places) = (
            vec![[0u64; 2]; 2 * matrix.len()],
            places_for(&matrix, size, size)?,
        );
        self.written(
            inverse,
            |made| call!(bf_field_matrix_inverse: &raw const self.words, [matrix], size, [mut made], [mut space], [mut places]),
        )
    }

    /// Writes an x with `matrix` x = `right`, or fails with `Error::Unsolvable` where there is none: `rows` equations, each a row of `columns`
    /// coefficients.
    pub fn matrix_solve(
        &self,
        matrix: &[u128],
        rows: usize,
        columns: usize,
        right: &[u128],
        solution: &mut [u128],
    ) -> Result<(), Error> {
        let (matrix, right) = (words_of(matrix), words_of(right));
        let (mut space, mut places) = (
            vec![[0u64; 2]; matrix.len() + right.len()],
            vec![0usize; right.len()],
        );
        self.written(
            solution,
            |made| call!(bf_field_matrix_solve: &raw const self.words, [matrix], rows, columns, [right], [mut made], [mut space], [mut places]),
        )
    }
}
