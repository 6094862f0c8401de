//! GF(2) as a prime field, and how many elements a field has.

use crate::{Field, Gf2, PrimeCharacteristicRing};
use core::fmt;

/// A type that integers are mapped to, modulo its characteristic.
///
/// ```
/// use binary_field::{Gf2, PrimeCharacteristicRing, QuotientMap};
///
/// assert_eq!(Gf2::from_int(-3_i64), Gf2::ONE);
/// assert_eq!((Gf2::from_canonical_checked(1_u8), Gf2::from_canonical_checked(2_u8)), (Some(Gf2::ONE), None));
/// ```
pub trait QuotientMap<Int>: Sized {
    /// The image of the integer.
    fn from_int(int: Int) -> Self;

    /// The image of an integer that represents it: of 0 and 1, and None of others.
    fn from_canonical_checked(int: Int) -> Option<Self>;

    /// The image of 0 and 1.
    ///
    /// # Safety
    ///
    /// The integer is 0 or 1. Here others have the image of their lowest bit, and nothing worse happens.
    unsafe fn from_canonical_unchecked(int: Int) -> Self;
}

macro_rules! quotient_maps {
    ($($integer:ty)*) => {$(
        impl QuotientMap<$integer> for Gf2 {
            #[inline]
            fn from_int(int: $integer) -> Gf2 {
                Gf2::from_bool(int & 1 == 1)
            }

            #[inline]
            fn from_canonical_checked(int: $integer) -> Option<Gf2> {
                (int == 0 || int == 1).then(|| Self::from_int(int))
            }

            #[inline]
            unsafe fn from_canonical_unchecked(int: $integer) -> Gf2 {
                Self::from_int(int)
            }
        }
    )*};
}

quotient_maps!(u8 u16 u32 u64 u128 usize i8 i16 i32 i64 i128 isize);

/// A field without smaller ones, whose elements are the integers modulo its order.
///
/// ```
/// use binary_field::{Gf2, PrimeField, PrimeField64, QuotientMap};
///
/// fn sum_of_numbers<F: PrimeField64>(numbers: &[u64]) -> u64 {
///     numbers.iter().map(|&it| F::from_int(it)).sum::<F>().as_canonical_u64()
/// }
/// assert_eq!(sum_of_numbers::<Gf2>(&[3, 4, 6]), 1);
/// ```
pub trait PrimeField:
    Field
    + QuotientMap<u8>
    + QuotientMap<u16>
    + QuotientMap<u32>
    + QuotientMap<u64>
    + QuotientMap<u128>
    + QuotientMap<usize>
    + QuotientMap<i8>
    + QuotientMap<i16>
    + QuotientMap<i32>
    + QuotientMap<i64>
    + QuotientMap<i128>
    + QuotientMap<isize>
{
}

/// A prime field whose order is below 2^64.
///
/// ```
/// use binary_field::{Gf2, PrimeCharacteristicRing, PrimeField64};
///
/// assert_eq!((Gf2::ORDER_U64, Gf2::ONE.as_canonical_u64()), (2, 1));
/// ```
pub trait PrimeField64: PrimeField {
    /// How many elements it has.
    const ORDER_U64: u64;

    /// The least integer that the element is the image of.
    fn as_canonical_u64(&self) -> u64;

    /// The same.
    fn to_unique_u64(&self) -> u64 {
        self.as_canonical_u64()
    }
}

/// A prime field whose order is below 2^32.
///
/// ```
/// use binary_field::{Gf2, PrimeCharacteristicRing, PrimeField32};
///
/// assert_eq!((Gf2::ORDER_U32, Gf2::ONE.as_canonical_u32()), (2, 1));
/// ```
pub trait PrimeField32: PrimeField64 {
    /// How many elements it has.
    const ORDER_U32: u32;

    /// The least integer that the element is the image of.
    fn as_canonical_u32(&self) -> u32;

    /// The same.
    fn to_unique_u32(&self) -> u32 {
        self.as_canonical_u32()
    }
}

impl PrimeField for Gf2 {}

impl PrimeField64 for Gf2 {
    const ORDER_U64: u64 = 2;

    #[inline]
    fn as_canonical_u64(&self) -> u64 {
        u64::from(self.to_bits())
    }
}

impl PrimeField32 for Gf2 {
    const ORDER_U32: u32 = 2;

    #[inline]
    fn as_canonical_u32(&self) -> u32 {
        u32::from(self.to_bits())
    }
}

// Decimal digits enough for 2^`LARGEST`.
const DIGITS: usize = 78;

// The largest exponent of an order that is printed.
const LARGEST: u32 = 256;

/// How many elements a field has, which is a power of two. It prints the number in decimal, and compares with a
/// `u128`.
///
/// ```
/// use binary_field::{BinaryField64, Field, Ghash128};
///
/// assert_eq!(BinaryField64::order(), 1 << 64);
/// assert_eq!(Ghash128::order().to_string(), "340282366920938463463374607431768211456");
/// ```
#[derive(Clone, Copy, Debug, PartialEq, Eq, PartialOrd, Ord, Hash)]
pub struct Order(u32);

impl Order {
    /// 2^`exponent`, for an exponent up to 256.
    ///
    /// # Panics
    ///
    /// Where the exponent is larger.
    pub const fn power_of_two(exponent: u32) -> Order {
        assert!(exponent <= LARGEST, "an order is at most 2^256");
        Order(exponent)
    }

    /// The m of which it is 2^m.
    pub const fn log2(self) -> u32 {
        self.0
    }

    /// The number, where it is below 2^128.
    pub const fn to_u128(self) -> Option<u128> {
        1_u128.checked_shl(self.0)
    }
}

impl PartialEq<u128> for Order {
    fn eq(&self, other: &u128) -> bool {
        self.to_u128() == Some(*other)
    }
}

impl fmt::Display for Order {
    fn fmt(&self, formatter: &mut fmt::Formatter<'_>) -> fmt::Result {
        // Digits of 1, the lowest last, doubled so many times.
        let (mut digits, mut first) = ([b'0'; DIGITS], DIGITS - 1);
        digits[first] = b'1';
        for _ in 0..self.0 {
            let mut carried = 0;
            for digit in digits[first.saturating_sub(1)..].iter_mut().rev() {
                let doubled = 2 * (*digit - b'0') + carried;
                (*digit, carried) = (b'0' + doubled % 10, doubled / 10);
            }
            first -= usize::from(digits[first.saturating_sub(1)] != b'0' && first > 0);
        }
        let digits = core::str::from_utf8(&digits[first..]).expect("digits are ASCII");
        formatter.pad_integral(true, "", digits)
    }
}
