//! What every field has.

use crate::{Algebra, Error, Order, Packable, PackedField, RawDataSerializable};
use core::fmt::{Display, LowerHex};
use core::hash::Hash;
use core::ops::{Div, DivAssign};
use core::str::FromStr;

/// A field of characteristic two. The functions over slices take slices of one length, and return `Error::Length` otherwise.
///
/// ```
/// use binary_field::{BinaryField32, Error, Field};
///
/// /// The sum of the quotients at each place.
/// fn sum_of_quotients<F: Field>(left: &[F], right: &[F]) -> Result<F, Error> {
///     let mut inverses = right.to_vec();
///     F::invert_assign_slice(&mut inverses);
///     F::dot_product_of_slices(left, &inverses)
/// }
/// let (x, y) = ([7, 9].map(BinaryField32::new), [2, 3].map(BinaryField32::new));
/// assert_eq!(sum_of_quotients(&x, &y)?, x[0] / y[0] + x[1] / y[1]);
/// assert_eq!(sum_of_quotients(&x, &y[..1]), Err(Error::Length));
/// # Ok::<(), Error>(())
/// ```
pub trait Field:
    Algebra<Self>
    + RawDataSerializable
    + Packable
    + Display
    + LowerHex
    + FromStr
    + Ord
    + Hash
    + Div<Output = Self>
    + DivAssign
{
    /// Several elements as one value, in generic code: [`Packed`](crate::Packed) of sixteen. A product of them is one
    /// call of the library.
    type Packing: PackedField<Scalar = Self>;

    /// How many bits a representation has: the field has 2^DEGREE elements.
    const DEGREE: u32;

    /// The generator of the multiplicative group that the library names.
    const GENERATOR: Self;

    /// Whether it is ZERO.
    fn is_zero(&self) -> bool {
        *self == Self::ZERO
    }

    /// Whether it is ONE.
    fn is_one(&self) -> bool {
        *self == Self::ONE
    }

    /// The inverse, and None of ZERO.
    fn try_inverse(&self) -> Option<Self>;

    /// The inverse of an element other than ZERO.
    ///
    /// # Panics
    ///
    /// Where the element is ZERO.
    fn inverse(&self) -> Self {
        self.try_inverse().expect("ZERO has no inverse")
    }

    /// The inverse, and ZERO of ZERO.
    fn invert_or_zero(self) -> Self {
        self.try_inverse().unwrap_or(Self::ZERO)
    }

    /// The one element whose square this is: every element has one.
    fn try_sqrt(&self) -> Option<Self>;

    /// How many bits a representation has.
    fn bits() -> usize {
        Self::DEGREE as usize
    }

    /// How many elements the field has.
    fn order() -> Order {
        Order::power_of_two(Self::DEGREE)
    }

    /// The element whose representation is the number `index`.
    ///
    /// # Panics
    ///
    /// Where the field has no such element.
    fn interpolation_node(index: usize) -> Self;

    /// Writes the sums.
    fn add_slices(left: &[Self], right: &[Self], sums: &mut [Self]) -> Result<(), Error>;

    /// Writes the products.
    fn multiply_slices(left: &[Self], right: &[Self], products: &mut [Self]) -> Result<(), Error>;

    /// Writes the products of the values and the scalar.
    fn multiply_slice_by(values: &[Self], scalar: Self, products: &mut [Self])
    -> Result<(), Error>;

    /// Adds to each element of `sums` the scalar times the value at its place.
    fn add_scaled_slice(sums: &mut [Self], scalar: Self, values: &[Self]) -> Result<(), Error>;

    /// Adds to each element of `sums` the value at its place.
    fn add_assign_slice(sums: &mut [Self], values: &[Self]) -> Result<(), Error>;

    /// Multiplies each element of `products` by the value at its place.
    fn multiply_assign_slice(products: &mut [Self], values: &[Self]) -> Result<(), Error>;

    /// Multiplies each element by the scalar.
    fn scale_slice(values: &mut [Self], scalar: Self);

    /// Squares each element.
    fn square_assign_slice(values: &mut [Self]);

    /// Leaves the inverse of each element, and 0 of 0.
    fn invert_assign_slice(values: &mut [Self]);

    /// Leaves the square root of each element.
    fn square_root_assign_slice(values: &mut [Self]);

    /// Raises each element to the power of the exponent.
    fn power_assign_slice(values: &mut [Self], exponent: u64);

    /// Writes the squares.
    fn square_slice(values: &[Self], squares: &mut [Self]) -> Result<(), Error>;

    /// Writes the square roots.
    fn square_root_slice(values: &[Self], roots: &mut [Self]) -> Result<(), Error>;

    /// Writes the inverses, and 0 for 0.
    fn inverse_slice(values: &[Self], inverses: &mut [Self]) -> Result<(), Error>;

    /// The same by one inverse and three products an element.
    fn batch_inverse_slice(values: &[Self], inverses: &mut [Self]) -> Result<(), Error>;

    /// Writes each element to the power of the exponent.
    fn power_slice(values: &[Self], exponent: u64, powers: &mut [Self]) -> Result<(), Error>;

    /// The product of all elements, 1 of none.
    fn product_of_slice(values: &[Self]) -> Self;

    /// The sum of the products, 0 of none.
    fn dot_product_of_slices(left: &[Self], right: &[Self]) -> Result<Self, Error>;

    /// Writes the value at each point of the polynomial with these coefficients, the constant one first. There may be any number of
    /// coefficients.
    fn evaluate(coefficients: &[Self], points: &[Self], values: &mut [Self]) -> Result<(), Error>;
}
