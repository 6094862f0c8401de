//! Linear maps, and the additive transform over `Ghash128` and over the levels of the tower of 16 to 128 bits.

use crate::error::succeed;
use crate::functions::*;
use crate::words::Word;
use crate::{
    BinaryField16, BinaryField32, BinaryField64, BinaryField128, Error, Field, Ghash128, Poly64,
    PrimeCharacteristicRing, TowerLevel,
};
use alloc::vec::Vec;
use core::mem::ManuallyDrop;

/// Writes for each value the sum of the images at its set bits, of 128 images.
///
/// ```
/// use binary_field::{Field, Ghash128, PrimeCharacteristicRing, linear_map};
///
/// // Squaring is linear.
/// let images: Vec<Ghash128> = (0..128).map(|bit| Ghash128::new(1 << bit).square()).collect();
/// let mut squares = [Ghash128::ZERO];
/// linear_map(&[Ghash128::GENERATOR], &images, &mut squares)?;
/// assert_eq!(squares, [Ghash128::GENERATOR.square()]);
/// # Ok::<(), binary_field::Error>(())
/// ```
pub fn linear_map(
    values: &[Ghash128],
    images: &[Ghash128],
    mapped: &mut [Ghash128],
) -> Result<(), Error> {
    Error::of(call!(bf_g128_linear_map: [values], [images], [mut mapped]))
}

/// Writes for each byte the sum of the images at its set bits, of eight images.
///
/// ```
/// let mut reversed = [0; 2];
/// binary_field::linear_map_of_bytes(&[0x01, 0xa0], &[128, 64, 32, 16, 8, 4, 2, 1], &mut reversed)?;
/// assert_eq!(reversed, [0x80, 0x05]);
/// # Ok::<(), binary_field::Error>(())
/// ```
pub fn linear_map_of_bytes(values: &[u8], images: &[u8], mapped: &mut [u8]) -> Result<(), Error> {
    Error::of(call!(bf_r8_linear_map: [values], [images], [mut mapped]))
}

impl Ghash128 {
    /// Writes for each element of the tower the sum of the images at the set bits of its representation. It is always
    /// done.
    ///
    /// # Panics
    ///
    /// Where the slices have other lengths.
    pub fn try_apply_linear_map_into(
        images: &[Ghash128; 128],
        input: &[BinaryField128],
        output: &mut [Ghash128],
    ) -> bool {
        assert!(input.len() == output.len(), "two slices of one length");
        succeed(call!(bf_g128_linear_map: [input], [images], [mut output]));
        true
    }

    /// The sum of the products of value i and x^i, of any number of values.
    pub fn dot_powers_of_x(values: &[Ghash128]) -> Ghash128 {
        let mut sum = [Ghash128::ZERO];
        Ghash128::evaluate(values, &[Ghash128::new(2)], &mut sum)
            .expect("as many values as points");
        sum[0]
    }
}

// How many elements are changed in place at once.
const BLOCK: usize = 64;

macro_rules! from_tower {
    ($($field:ident $tower:ident),*) => {$(
        impl $field {
            /// The images of elements of the tower, where these stood.
            pub fn from_tower_vec(values: Vec<$tower>) -> Vec<$field> {
                let mut values = ManuallyDrop::new(values);
                let (first, length, capacity) = (values.as_mut_ptr(), values.len(), values.capacity());
                let mut copied = [$tower::ZERO; BLOCK];
                for block in values.chunks_mut(BLOCK) {
                    let copied = &mut copied[..block.len()];
                    copied.copy_from_slice(block);
                    // SAFETY: both fields are transparent over one word, of which each is an element. So it is below.
                    let images = unsafe { &mut *(core::ptr::from_mut(block) as *mut [$field]) };
                    $field::from_slice(copied, images).expect("two slices of one length");
                }
                // SAFETY: as above; the vector's memory is handed on.
                unsafe { Vec::from_raw_parts(first.cast(), length, capacity) }
            }
        }
    )*};
}

from_tower!(Ghash128 BinaryField128, Poly64 BinaryField64);

macro_rules! butterflies {
    ($($(#[$about:meta])* $name:ident = $function:ident;)*) => {$(
        $(#[$about])*
        pub fn $name(low: &mut [Ghash128], high: &mut [Ghash128], scalar: Ghash128) -> Result<(), Error> {
            Error::of(call!($function: [mut low], [mut high], (&raw const scalar).cast()))
        }
    )*};
}

butterflies! {
    /// low += scalar * high, and then high += low, at each place.
    ///
    /// ```
    /// use binary_field::{Ghash128, butterfly_forward, butterfly_inverse};
    ///
    /// let (mut low, mut high) = ([Ghash128::new(5)], [Ghash128::new(3)]);
    /// butterfly_forward(&mut low, &mut high, Ghash128::new(2))?;
    /// assert_eq!((low, high), ([Ghash128::new(3)], [Ghash128::new(0)]));
    /// butterfly_inverse(&mut low, &mut high, Ghash128::new(2))?;
    /// assert_eq!((low, high), ([Ghash128::new(5)], [Ghash128::new(3)]));
    /// # Ok::<(), binary_field::Error>(())
    /// ```
    butterfly_forward = bf_g128_butterfly_forward;
    /// high += low, and then low += scalar * high, at each place: it inverts `butterfly_forward`.
    ///
    /// ```
    /// use binary_field::{Ghash128, butterfly_forward, butterfly_inverse};
    ///
    /// let (mut low, mut high) = ([Ghash128::new(5)], [Ghash128::new(3)]);
    /// butterfly_forward(&mut low, &mut high, Ghash128::new(2))?;
    /// assert_eq!((low, high), ([Ghash128::new(3)], [Ghash128::new(0)]));
    /// butterfly_inverse(&mut low, &mut high, Ghash128::new(2))?;
    /// assert_eq!((low, high), ([Ghash128::new(5)], [Ghash128::new(3)]));
    /// # Ok::<(), binary_field::Error>(())
    /// ```
    butterfly_inverse = bf_g128_butterfly_inverse;
}

/// Runs the four lowest stages over runs of sixteen values, the first of which is run `first_run`. The factor of stage j at place p
/// is `shifts[j]`, and `basis[t]` for each set bit t of p >> (j + 1).
///
/// ```
/// use binary_field::{Ghash128, low_stages, transform};
/// use binary_field::{PrimeCharacteristicRing, TowerLevel};
///
/// // A transform of sixteen values is its low stages: the factors are sums of Cantor vectors.
/// let mut values: Vec<Ghash128> = (0..16).map(Ghash128::new).collect();
/// let mut transformed = values.clone();
/// let basis: Vec<Ghash128> = (1..4).map(Ghash128::cantor_basis).collect();
/// low_stages(&mut values, &[Ghash128::ZERO; 4], &basis, 0)?;
/// transform(&mut transformed, Ghash128::ZERO)?;
/// assert_eq!(values, transformed);
/// # Ok::<(), binary_field::Error>(())
/// ```
pub fn low_stages(
    values: &mut [Ghash128],
    shifts: &[Ghash128],
    basis: &[Ghash128],
    first_run: usize,
) -> Result<(), Error> {
    Error::of(call!(bf_g128_low_stages: [mut values], [shifts], [basis], first_run))
}

/// A field over which there is the additive transform: `Ghash128`, and the levels of the tower of 16 to 128 bits.
///
/// ```
/// use binary_field::{BinaryField16, Error, Transformed, transform};
///
/// fn doubled_in_length<F: Transformed>(coefficients: &[F]) -> Result<Vec<F>, Error> {
///     let mut values = coefficients.to_vec();
///     values.resize(2 * coefficients.len(), F::ZERO);
///     transform(&mut values, F::ZERO)?;
///     Ok(values)
/// }
/// assert_eq!(doubled_in_length(&[BinaryField16::new(9)])?, [9, 9].map(BinaryField16::new));
/// # Ok::<(), Error>(())
/// ```
pub trait Transformed: TowerLevel {
    #[doc(hidden)]
    fn forward(values: &mut [Self], shift: Self) -> Result<(), Error>;

    #[doc(hidden)]
    fn inverse_of(values: &mut [Self], shift: Self) -> Result<(), Error>;
}

macro_rules! transforms {
    ($($field:ident: $forward:ident, $inverse:ident;)*) => {$(
        impl Transformed for $field {
            fn forward(values: &mut [Self], shift: Self) -> Result<(), Error> {
                Error::of(call!($forward: [mut values], shift.to_repr().scalar()))
            }

            fn inverse_of(values: &mut [Self], shift: Self) -> Result<(), Error> {
                Error::of(call!($inverse: [mut values], shift.to_repr().scalar()))
            }
        }
    )*};
}

transforms! {
    Ghash128: bf_g128_transform, bf_g128_inverse_transform;
    BinaryField16: bf_t16_transform, bf_t16_inverse_transform;
    BinaryField32: bf_t32_transform, bf_t32_inverse_transform;
    BinaryField64: bf_t64_transform, bf_t64_inverse_transform;
    BinaryField128: bf_t128_transform, bf_t128_inverse_transform;
}

/// Leaves the value at each of 2^m points of the polynomial with these coefficients, for an m from 0 to 40 that is at most the bits of
/// the field: coefficient k is that of the product of the s_j over the set bits j of k, where s_0(x) = x and
/// s_(j + 1)(x) = s_j(x)^2 + s_j(x). Point p is the shift, and Cantor vector b for each set bit b of p.
///
/// ```
/// use binary_field::{BinaryField32, transform};
///
/// // The coefficients of 1, x, x^2 + x and of the product of the last two, at the points 0, 1, v and v + 1 with v^2 + v = 1.
/// let mut values = [7, 1, 0, 0].map(BinaryField32::new);
/// transform(&mut values, BinaryField32::new(0))?;
/// assert_eq!(values, [7, 6, 5, 4].map(BinaryField32::new));
/// # Ok::<(), binary_field::Error>(())
/// ```
pub fn transform<F: Transformed>(values: &mut [F], shift: F) -> Result<(), Error> {
    F::forward(values, shift)
}

/// Leaves the coefficients that `transform` takes to the values.
///
/// ```
/// use binary_field::{BinaryField32, inverse_transform};
///
/// let mut values = [7, 6, 5, 4].map(BinaryField32::new);
/// inverse_transform(&mut values, BinaryField32::new(0))?;
/// assert_eq!(values, [7, 1, 0, 0].map(BinaryField32::new));
/// # Ok::<(), binary_field::Error>(())
/// ```
pub fn inverse_transform<F: Transformed>(values: &mut [F], shift: F) -> Result<(), Error> {
    F::inverse_of(values, shift)
}
