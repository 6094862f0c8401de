//! What elements and packings share: rings of characteristic two.

use crate::{Field, PrimeField};
use alloc::vec::Vec;
use core::fmt::Debug;
use core::iter::{Product, Sum};
use core::ops::{Add, AddAssign, Mul, MulAssign, Neg, Sub, SubAssign};

macro_rules! integers {
    ($($name:ident($integer:ty);)*) => {$(
        /// The image of an integer: ONE of an odd one, ZERO of an even one.
        fn $name(number: $integer) -> Self {
            Self::from_bool(number & 1 == 1)
        }
    )*};
}

/// A ring in which x + x = 0, so that a difference is a sum. The integers are those modulo two: n is ONE where n is odd, else ZERO.
///
/// ```
/// use binary_field::{Ghash128, Packed, PrimeCharacteristicRing};
///
/// fn polynomial<R: PrimeCharacteristicRing>(x: R) -> R {
///     x.cube() + x.double() + R::from_u8(7)
/// }
/// assert_eq!(polynomial(Ghash128::new(2)), Ghash128::new(9));
/// assert_eq!(polynomial(Packed([Ghash128::new(2); 4])).0, [Ghash128::new(9); 4]);
/// ```
pub trait PrimeCharacteristicRing:
    Copy
    + Debug
    + Default
    + PartialEq
    + 'static
    + Add<Output = Self>
    + AddAssign
    + Sub<Output = Self>
    + SubAssign
    + Mul<Output = Self>
    + MulAssign
    + Neg<Output = Self>
    + Sum
    + Product
{
    /// The integers modulo two.
    type PrimeSubfield: PrimeField;

    /// The sum of none.
    const ZERO: Self;

    /// The product of none.
    const ONE: Self;

    /// ONE + ONE, which is ZERO.
    const TWO: Self = Self::ZERO;

    /// ZERO - ONE, which is ONE.
    const NEG_ONE: Self = Self::ONE;

    /// The image of a bit.
    fn from_prime_subfield(bit: Self::PrimeSubfield) -> Self {
        Self::from_bool(bit.is_one())
    }

    /// ONE of true, ZERO of false.
    fn from_bool(bit: bool) -> Self {
        if bit { Self::ONE } else { Self::ZERO }
    }

    integers! {
        from_u8(u8);
        from_u16(u16);
        from_u32(u32);
        from_u64(u64);
        from_u128(u128);
        from_usize(usize);
        from_i8(i8);
        from_i16(i16);
        from_i32(i32);
        from_i64(i64);
        from_i128(i128);
        from_isize(isize);
    }

    /// x + x, which is ZERO.
    fn double(&self) -> Self {
        Self::ZERO
    }

    /// The y with y + y = x, of which there is none, or every y where x is ZERO.
    ///
    /// # Panics
    ///
    /// Always.
    #[track_caller]
    fn halve(&self) -> Self {
        panic!("in characteristic two nothing is halved")
    }

    /// 2^`exponent` · x: x itself to the exponent 0, and else ZERO.
    fn mul_2exp_u64(&self, exponent: u64) -> Self {
        if exponent == 0 { *self } else { Self::ZERO }
    }

    /// x divided by 2^`exponent`.
    ///
    /// # Panics
    ///
    /// Always, also for the exponent 0.
    #[track_caller]
    fn div_2exp_u64(&self, exponent: u64) -> Self {
        panic!("in characteristic two nothing is divided by 2^{exponent}")
    }

    /// x · x.
    fn square(&self) -> Self {
        *self * *self
    }

    /// x · x · x.
    fn cube(&self) -> Self {
        self.square() * *self
    }

    /// x + y - 2xy, which is x + y: of bits the exclusive or.
    fn xor(&self, other: &Self) -> Self {
        *self + *other
    }

    /// (1 - x) · y: of bits y and not x.
    fn andn(&self, other: &Self) -> Self {
        (Self::ONE - *self) * *other
    }

    /// x · (x - 1), which is ZERO of bits.
    fn bool_check(&self) -> Self {
        *self * (*self - Self::ONE)
    }

    /// x to the power of the exponent; to the power 0 it is ONE.
    fn exp_u64(&self, exponent: u64) -> Self {
        let (mut base, mut rest, mut power) = (*self, exponent, Self::ONE);
        while rest != 0 {
            if rest & 1 == 1 {
                power *= base;
            }
            base = base.square();
            rest >>= 1;
        }
        power
    }

    /// x to the power 2^`log`: so many squarings, which in a field depend on `log` modulo its bits alone.
    fn exp_power_of_2(&self, log: usize) -> Self {
        (0..log).fold(*self, |power, _| power.square())
    }

    /// ONE, x, x^2, x^3 and so on, without an end.
    fn powers(&self) -> Powers<Self> {
        self.shifted_powers(Self::ONE)
    }

    /// `start`, start · x, start · x^2 and so on, without an end.
    fn shifted_powers(&self, start: Self) -> Powers<Self> {
        Powers {
            base: *self,
            current: start,
        }
    }

    /// The sum of the products at each place.
    fn dot_product<const N: usize>(left: &[Self; N], right: &[Self; N]) -> Self {
        left.iter().zip(right).map(|(&x, &y)| x * y).sum()
    }

    /// ZERO so many times.
    fn zero_vec(length: usize) -> Vec<Self> {
        alloc::vec![Self::ZERO; length]
    }
}

/// The powers of an element, from a first value on.
///
/// ```
/// use binary_field::{Poly64, PrimeCharacteristicRing};
///
/// let powers: Vec<u64> = Poly64::new(2).powers().take(4).map(Poly64::to_bits).collect();
/// assert_eq!(powers, [1, 2, 4, 8]);
/// ```
#[derive(Clone, Copy, Debug)]
pub struct Powers<R> {
    /// The factor from each value to the next.
    pub base: R,
    /// The value that comes next.
    pub current: R,
}

impl<R: PrimeCharacteristicRing> Iterator for Powers<R> {
    type Item = R;

    fn next(&mut self) -> Option<R> {
        let value = self.current;
        self.current *= self.base;
        Some(value)
    }

    fn size_hint(&self) -> (usize, Option<usize>) {
        (usize::MAX, None)
    }
}
