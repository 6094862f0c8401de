//! Elements of GF(2) as the bits of a block.

use super::{Divisible, M128, M256, M512, Underlier, Word};
use crate::{Algebra, Field, Gf2, PrimeCharacteristicRing};
use core::fmt;
use core::iter::{Product, Sum};
use core::ops::{Add, AddAssign, Div, DivAssign, Mul, MulAssign, Neg, Sub, SubAssign};
use core::{ptr, slice};

/// Elements of GF(2), each a bit of a block: that at place i is bit i mod w of word i div w, of words of w bits. A
/// sum is the exclusive or, and a product the and.
///
/// ```
/// use binary_field::{Gf2, PackedGf2, PrimeCharacteristicRing};
///
/// let (x, y) = (PackedGf2::new(0b1100_u8), PackedGf2::new(0b1010_u8));
/// assert_eq!(((x + y).to_bits(), (x * y).to_bits()), (0b0110, 0b1000));
/// assert_eq!((x.get(2), x.count_ones()), (Gf2::ONE, 2));
/// ```
#[repr(transparent)]
#[derive(Clone, Copy, Default, PartialEq, Eq, Hash)]
pub struct PackedGf2<U>(U);

macro_rules! names {
    ($($name:ident $block:ident $width:literal;)*) => {$(
        #[doc = concat!("A row of ", $width, " bits.\n\n```")]
        #[doc = concat!("use binary_field::{", stringify!($name), " as Row, PrimeCharacteristicRing};\n\n")]
        #[doc = concat!("assert_eq!(Row::ONE.count_ones(), ", $width, ");\n```")]
        pub type $name = PackedGf2<$block>;
    )*};
}

names! {
    PackedGf2x8 u8 8;
    PackedGf2x16 u16 16;
    PackedGf2x32 u32 32;
    PackedGf2x64 u64 64;
    PackedGf2x128 M128 128;
    PackedGf2x256 M256 256;
    PackedGf2x512 M512 512;
}

impl<U: Underlier> PackedGf2<U> {
    /// How many elements it has.
    pub const WIDTH: usize = U::BITS;

    // How many bits a word has.
    const WORD: usize = <U::Word as Word>::BITS;

    /// The row of these bits.
    #[inline]
    pub const fn new(bits: U) -> Self {
        PackedGf2(bits)
    }

    /// The bits.
    #[inline]
    pub const fn to_bits(self) -> U {
        self.0
    }

    /// The words of the bits, the lowest first.
    #[inline]
    pub fn words(&self) -> &[U::Word] {
        self.0.words()
    }

    /// The words of the bits, which may be written.
    #[inline]
    pub fn words_mut(&mut self) -> &mut [U::Word] {
        self.0.words_mut()
    }

    /// The element at a place.
    ///
    /// # Panics
    ///
    /// Where there is no such place.
    #[inline]
    pub fn get(&self, lane: usize) -> Gf2 {
        assert!(
            lane < Self::WIDTH,
            "place {lane} of a row of {}",
            Self::WIDTH
        );
        let word = self.words()[lane / Self::WORD] >> (lane % Self::WORD);
        Gf2::from_u64(word.to_u64())
    }

    /// Writes the element at a place.
    ///
    /// # Panics
    ///
    /// Where there is no such place.
    #[inline]
    pub fn set(&mut self, lane: usize, value: Gf2) {
        assert!(
            lane < Self::WIDTH,
            "place {lane} of a row of {}",
            Self::WIDTH
        );
        let place = lane % Self::WORD;
        let bit = U::Word::from_u64(u64::from(value.to_bits())) << place;
        let word = &mut self.words_mut()[lane / Self::WORD];
        *word = *word & !(U::Word::from_u64(1) << place) | bit;
    }

    /// The row of the elements that the function has, called for each place in order.
    pub fn from_fn(mut element: impl FnMut(usize) -> Gf2) -> Self {
        let mut row = PackedGf2(U::ZERO);
        for lane in 0..Self::WIDTH {
            row.set(lane, element(lane));
        }
        row
    }

    /// The element at each place.
    #[inline]
    pub fn broadcast(value: Gf2) -> Self {
        let word = U::Word::from_u64(u64::from(value.to_bits()).wrapping_neg());
        PackedGf2(U::from_words_fn(|_| word))
    }

    /// The elements in order.
    pub fn lanes(self) -> impl Iterator<Item = Gf2> {
        (0..Self::WIDTH).map(move |lane| self.get(lane))
    }

    /// How many elements are ONE.
    #[inline]
    pub fn count_ones(&self) -> u32 {
        self.words().iter().map(|it| it.count_ones()).sum()
    }

    /// The inverse at each place, and ZERO of ZERO: the row itself.
    #[inline]
    pub const fn invert_or_zero(self) -> Self {
        self
    }

    /// The row as narrower ones, the lowest places first.
    pub fn narrow<V: Underlier>(&self) -> &[PackedGf2<V>]
    where
        U: Divisible<V>,
    {
        Self::narrow_slice(slice::from_ref(self))
    }

    /// The row as narrower ones, which may be written.
    pub fn narrow_mut<V: Underlier>(&mut self) -> &mut [PackedGf2<V>]
    where
        U: Divisible<V>,
    {
        Self::narrow_slice_mut(slice::from_mut(self))
    }

    /// Rows as narrower ones, those of one row behind those of another.
    pub fn narrow_slice<V: Underlier>(rows: &[Self]) -> &[PackedGf2<V>]
    where
        U: Divisible<V>,
    {
        rows_of(U::split_slice(blocks_of(rows)))
    }

    /// Rows as narrower ones, which may be written.
    pub fn narrow_slice_mut<V: Underlier>(rows: &mut [Self]) -> &mut [PackedGf2<V>]
    where
        U: Divisible<V>,
    {
        // SAFETY: a row is transparent over its block.
        unsafe {
            let blocks = &mut *(ptr::from_mut(rows) as *mut [U]);
            &mut *(ptr::from_mut(U::split_slice_mut(blocks)) as *mut [PackedGf2<V>])
        }
    }

    /// The bytes of rows, of which bit i is the element at place i.
    pub const fn as_bytes(rows: &[Self]) -> &[u8] {
        const { assert!(cfg!(target_endian = "little") && size_of::<Self>() * 8 == U::BITS) };
        // SAFETY: a row is words without more, and the lowest byte of a word is stored first.
        unsafe { slice::from_raw_parts(rows.as_ptr().cast(), size_of_val(rows)) }
    }

    /// The even blocks of so many places of both, those of `self` first in each pair, and the odd ones. Where a row
    /// is one block, both as they are.
    ///
    /// # Panics
    ///
    /// Where the length of a block is no power of two, or above the width.
    pub fn interleave(&self, other: Self, block_length: usize) -> (Self, Self) {
        assert!(
            block_length.is_power_of_two() && block_length <= Self::WIDTH,
            "a block is a part of a row"
        );
        if block_length == Self::WIDTH {
            (*self, other)
        } else if block_length < Self::WORD {
            self.within_words(other, block_length)
        } else {
            self.of_whole_words(other, block_length / Self::WORD)
        }
    }

    // Where a word has several blocks, each word gives up its odd ones for the even ones of the other.
    fn within_words(&self, other: Self, block_length: usize) -> (Self, Self) {
        let even = even_blocks::<U::Word>(block_length);
        let first = self
            .0
            .zip(other.0, |x, y| x & even | (y & even) << block_length);
        let second = self
            .0
            .zip(other.0, |x, y| x >> block_length & even | y & !even);
        (PackedGf2(first), PackedGf2(second))
    }

    // Where a block has several words.
    fn of_whole_words(&self, other: Self, words: usize) -> (Self, Self) {
        let taken = |odd: usize| {
            PackedGf2(U::from_words_fn(|place| match place / words % 2 {
                0 => self.words()[place + odd * words],
                _ => other.words()[place + odd * words - words],
            }))
        };
        (taken(0), taken(1))
    }

    /// The matrix of bits mirrored in its diagonal: the element at place j of row i goes to place i of row j.
    ///
    /// # Panics
    ///
    /// Where there are not as many rows as places in one.
    pub fn transpose(rows: &mut [Self]) {
        assert!(rows.len() == Self::WIDTH, "a square matrix of bits");
        let mut length = Self::WIDTH / 2;
        // Blocks of `length` rows and places: of each two by two of them those off the diagonal are exchanged.
        while length > 0 {
            for pair in rows.chunks_exact_mut(2 * length) {
                let (upper, lower) = pair.split_at_mut(length);
                for (above, below) in upper.iter_mut().zip(lower) {
                    (*above, *below) = above.interleave(*below, length);
                }
            }
            length /= 2;
        }
    }
}

// The word whose bits are set in each even block of so many.
fn even_blocks<W: Word>(block_length: usize) -> W {
    let ones = (1 << block_length) - 1;
    let mut word: u64 = ones;
    let mut filled = 2 * block_length;
    while filled < W::BITS {
        word |= word << filled;
        filled *= 2;
    }
    W::from_u64(word)
}

// Blocks as rows.
fn rows_of<U: Underlier>(blocks: &[U]) -> &[PackedGf2<U>] {
    // SAFETY: a row is transparent over its block. So it is below.
    unsafe { &*(ptr::from_ref(blocks) as *const [PackedGf2<U>]) }
}

// Rows as blocks.
fn blocks_of<U: Underlier>(rows: &[PackedGf2<U>]) -> &[U] {
    // SAFETY: as above.
    unsafe { &*(ptr::from_ref(rows) as *const [U]) }
}

impl<U: Underlier> PrimeCharacteristicRing for PackedGf2<U> {
    type PrimeSubfield = Gf2;

    const ZERO: Self = PackedGf2(U::ZERO);

    const ONE: Self = PackedGf2(U::ONES);

    #[inline]
    fn square(&self) -> Self {
        *self
    }

    #[inline]
    fn bool_check(&self) -> Self {
        Self::ZERO
    }

    #[inline]
    fn exp_u64(&self, exponent: u64) -> Self {
        if exponent == 0 { Self::ONE } else { *self }
    }

    #[inline]
    fn exp_power_of_2(&self, _log: usize) -> Self {
        *self
    }
}

/// `PackedGf2x8(0x1f)`: the words in hexadecimal, the lowest first.
impl<U: Underlier> fmt::Debug for PackedGf2<U> {
    fn fmt(&self, formatter: &mut fmt::Formatter<'_>) -> fmt::Result {
        write!(formatter, "PackedGf2x{}(", U::BITS)?;
        for (place, word) in self.words().iter().enumerate() {
            let comma = if place == 0 { "" } else { ", " };
            write!(
                formatter,
                "{comma}{:#0width$x}",
                word.to_u64(),
                width = 2 + Self::WORD / 4
            )?;
        }
        formatter.write_str(")")
    }
}

impl<U: Underlier> From<Gf2> for PackedGf2<U> {
    #[inline]
    fn from(value: Gf2) -> Self {
        Self::broadcast(value)
    }
}

impl<U: Underlier> Algebra<Gf2> for PackedGf2<U> {}

impl<U: Underlier> Add for PackedGf2<U> {
    type Output = Self;

    #[inline]
    #[allow(clippy::suspicious_arithmetic_impl)]
    fn add(self, other: Self) -> Self {
        PackedGf2(self.0.zip(other.0, |x, y| x ^ y))
    }
}

// In characteristic two a difference is a sum.
impl<U: Underlier> Sub for PackedGf2<U> {
    type Output = Self;

    #[inline]
    #[allow(clippy::suspicious_arithmetic_impl)]
    fn sub(self, other: Self) -> Self {
        self + other
    }
}

impl<U: Underlier> Neg for PackedGf2<U> {
    type Output = Self;

    #[inline]
    fn neg(self) -> Self {
        self
    }
}

impl<U: Underlier> Mul for PackedGf2<U> {
    type Output = Self;

    #[inline]
    #[allow(clippy::suspicious_arithmetic_impl)]
    fn mul(self, other: Self) -> Self {
        PackedGf2(self.0.zip(other.0, |x, y| x & y))
    }
}

/// It panics where the divisor is ZERO.
impl<U: Underlier> Div<Gf2> for PackedGf2<U> {
    type Output = Self;

    #[inline]
    fn div(self, divisor: Gf2) -> Self {
        assert!(divisor.is_one(), "a division by 0");
        self
    }
}

impl<U: Underlier> DivAssign<Gf2> for PackedGf2<U> {
    #[inline]
    fn div_assign(&mut self, divisor: Gf2) {
        *self = *self / divisor;
    }
}

macro_rules! with_elements {
    ($($name:ident $method:ident $assigning:ident $assign:ident),*) => {$(
        impl<U: Underlier> $name<Gf2> for PackedGf2<U> {
            type Output = Self;

            #[inline]
            fn $method(self, element: Gf2) -> Self {
                $name::$method(self, Self::broadcast(element))
            }
        }

        impl<U: Underlier, T: Into<Self>> $assigning<T> for PackedGf2<U> {
            #[inline]
            fn $assign(&mut self, other: T) {
                *self = $name::$method(*self, other.into());
            }
        }
    )*};
}

with_elements!(Add add AddAssign add_assign, Sub sub SubAssign sub_assign, Mul mul MulAssign mul_assign);

impl<U: Underlier> Sum for PackedGf2<U> {
    fn sum<I: Iterator<Item = Self>>(rows: I) -> Self {
        rows.fold(Self::ZERO, |sum, it| sum + it)
    }
}

impl<U: Underlier> Product for PackedGf2<U> {
    fn product<I: Iterator<Item = Self>>(rows: I) -> Self {
        rows.fold(Self::ONE, |product, it| product * it)
    }
}

/// Every row is as likely as every other.
#[cfg(feature = "rand")]
impl<U: Underlier> rand::distributions::Distribution<PackedGf2<U>>
    for rand::distributions::Standard
{
    fn sample<R: rand::Rng + ?Sized>(&self, source: &mut R) -> PackedGf2<U> {
        PackedGf2(U::random(source))
    }
}
