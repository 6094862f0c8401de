//! Words, blocks of words, and blocks as arrays of narrower ones.

use core::fmt::Debug;
use core::hash::Hash;
use core::ops::{BitAnd, BitOr, BitXor, Not, Shl, Shr};
use core::{array, slice};

mod sealed {
    /// It keeps other types from being words or blocks.
    pub trait Sealed {}
}

use sealed::Sealed;

/// A word of bits: `u8`, `u16`, `u32` or `u64`.
///
/// ```
/// use binary_field::Word;
///
/// fn parity<W: Word>(word: W) -> u32 {
///     word.count_ones() % 2
/// }
/// assert_eq!((parity(0b0111_u8), <u16 as Word>::BITS, <u8 as Word>::from_u64(0x1234)), (1, 16, 0x34));
/// ```
pub trait Word:
    Sealed
    + Copy
    + Default
    + Ord
    + Hash
    + Debug
    + Send
    + Sync
    + 'static
    + BitAnd<Output = Self>
    + BitOr<Output = Self>
    + BitXor<Output = Self>
    + Not<Output = Self>
    + Shl<usize, Output = Self>
    + Shr<usize, Output = Self>
{
    /// How many bits it has.
    const BITS: usize;

    /// No bit is set.
    const ZERO: Self;

    /// Each bit is set.
    const ONES: Self;

    /// How many bits are set.
    fn count_ones(self) -> u32;

    /// The number.
    fn to_u64(self) -> u64;

    /// The lowest bits of the number.
    fn from_u64(number: u64) -> Self;
}

/// A block of bits of a fixed width, as an array of words, the lowest first: a word itself, [`M128`], [`M256`] or
/// [`M512`].
///
/// ```
/// use binary_field::{M128, Underlier};
///
/// let (x, y) = (M128::from_words([12, 10]), M128::from_words([10, 6]));
/// assert_eq!(x.zip(y, |a, b| a ^ b).words(), [6, 12]);
/// assert_eq!((M128::WORDS, M128::BITS, M128::ZERO.words()), (2, 128, &[0, 0][..]));
/// ```
pub trait Underlier: Sealed + Copy + Default + Eq + Hash + Debug + Send + Sync + 'static {
    /// The type of the words.
    type Word: Word;

    /// How many words it has.
    const WORDS: usize;

    /// How many bits it has.
    const BITS: usize = Self::WORDS * <Self::Word as Word>::BITS;

    /// No bit is set.
    const ZERO: Self;

    /// Each bit is set.
    const ONES: Self;

    /// The words.
    fn words(&self) -> &[Self::Word];

    /// The words, which may be written.
    fn words_mut(&mut self) -> &mut [Self::Word];

    /// The block whose words the function has, called for each place in order.
    fn from_words_fn(word: impl FnMut(usize) -> Self::Word) -> Self;

    /// A block of which each pattern is as likely as every other.
    #[cfg(feature = "rand")]
    fn random<R: rand::Rng + ?Sized>(source: &mut R) -> Self {
        Self::from_words_fn(|_| Self::Word::from_u64(source.next_u64()))
    }

    /// The function of the words of both at each place.
    #[inline]
    fn zip(self, other: Self, word: impl Fn(Self::Word, Self::Word) -> Self::Word) -> Self {
        Self::from_words_fn(|place| word(self.words()[place], other.words()[place]))
    }
}

macro_rules! words {
    ($($word:ty)*) => {$(
        impl Sealed for $word {}

        impl Word for $word {
            const BITS: usize = <$word>::BITS as usize;
            const ZERO: $word = 0;
            const ONES: $word = <$word>::MAX;

            #[inline]
            fn count_ones(self) -> u32 {
                <$word>::count_ones(self)
            }

            #[inline]
            fn to_u64(self) -> u64 {
                u64::from(self)
            }

            #[inline]
            fn from_u64(number: u64) -> $word {
                number as $word
            }
        }

        impl Underlier for $word {
            type Word = $word;

            const WORDS: usize = 1;
            const ZERO: $word = 0;
            const ONES: $word = <$word>::MAX;

            #[inline]
            fn words(&self) -> &[$word] {
                slice::from_ref(self)
            }

            #[inline]
            fn words_mut(&mut self) -> &mut [$word] {
                slice::from_mut(self)
            }

            #[inline]
            fn from_words_fn(mut word: impl FnMut(usize) -> $word) -> $word {
                word(0)
            }
        }
    )*};
}

words!(u8 u16 u32 u64);

macro_rules! blocks {
    ($($(#[$about:meta])* $name:ident $words:literal $alignment:literal;)*) => {$(
        $(#[$about])*
        #[repr(C, align($alignment))]
        #[derive(Clone, Copy, Debug, Default, PartialEq, Eq, Hash)]
        pub struct $name([u64; $words]);

        impl $name {
            /// The block of these words, the lowest first.
            #[inline]
            pub const fn from_words(words: [u64; $words]) -> $name {
                $name(words)
            }

            /// The words, the lowest first.
            #[inline]
            pub const fn to_words(self) -> [u64; $words] {
                self.0
            }
        }

        impl Sealed for $name {}

        impl Underlier for $name {
            type Word = u64;

            const WORDS: usize = $words;
            const ZERO: $name = $name([0; $words]);
            const ONES: $name = $name([u64::MAX; $words]);

            #[inline]
            fn words(&self) -> &[u64] {
                &self.0
            }

            #[inline]
            fn words_mut(&mut self) -> &mut [u64] {
                &mut self.0
            }

            #[inline]
            fn from_words_fn(word: impl FnMut(usize) -> u64) -> $name {
                $name(array::from_fn(word))
            }
        }
    )*};
}

blocks! {
    /// A block of 128 bits.
    ///
    /// ```
    /// use binary_field::M128;
    ///
    /// assert_eq!(M128::from_words([1, 2]).to_words(), [1, 2]);
    /// ```
    M128 2 16;
    /// A block of 256 bits.
    ///
    /// ```
    /// use binary_field::{M128, M256, Divisible};
    ///
    /// let block = M256::from_words([1, 2, 3, 4]);
    /// let halves: &[M128] = block.parts();
    /// assert_eq!(halves[1].to_words(), [3, 4]);
    /// ```
    M256 4 32;
    /// A block of 512 bits.
    ///
    /// ```
    /// use binary_field::{M512, Underlier};
    ///
    /// assert_eq!(M512::from_words_fn(|place| place as u64).to_words(), [0, 1, 2, 3, 4, 5, 6, 7]);
    /// ```
    M512 8 64;
}

/// A block that is an array of narrower ones, the lowest bits first.
///
/// ```
/// use binary_field::{Divisible, M128};
///
/// let mut block = M128::from_words([0x0201, 0]);
/// let bytes: &mut [u8] = block.parts_mut();
/// assert_eq!(bytes[..2], [1, 2]);
/// bytes[15] = 1;
/// assert_eq!(block.to_words(), [0x0201, 1 << 56]);
/// ```
pub trait Divisible<Narrow: Underlier>: Underlier {
    /// How many narrower ones there are.
    const RATIO: usize = Self::BITS / Narrow::BITS;

    /// The narrower blocks.
    fn parts(&self) -> &[Narrow] {
        Self::split_slice(slice::from_ref(self))
    }

    /// The narrower blocks, which may be written.
    fn parts_mut(&mut self) -> &mut [Narrow] {
        Self::split_slice_mut(slice::from_mut(self))
    }

    /// The narrower blocks of a slice, one behind the other.
    fn split_slice(blocks: &[Self]) -> &[Narrow];

    /// The narrower blocks of a slice, which may be written.
    fn split_slice_mut(blocks: &mut [Self]) -> &mut [Narrow];
}

macro_rules! divisible {
    ($($wide:ty: $($narrow:ty)*;)*) => {$($(
        impl Divisible<$narrow> for $wide {
            fn split_slice(blocks: &[$wide]) -> &[$narrow] {
                let count = blocks.len() * ratio::<$wide, $narrow>();
                // SAFETY: a block is an array of words without more, of which each pattern of bits is one, on
                // processors that store the lowest byte first.
                unsafe { slice::from_raw_parts(blocks.as_ptr().cast(), count) }
            }

            fn split_slice_mut(blocks: &mut [$wide]) -> &mut [$narrow] {
                let count = blocks.len() * ratio::<$wide, $narrow>();
                // SAFETY: as above.
                unsafe { slice::from_raw_parts_mut(blocks.as_mut_ptr().cast(), count) }
            }
        }
    )*)*};
}

divisible! {
    M512: M256 M128 u64 u32 u16 u8;
    M256: M128 u64 u32 u16 u8;
    M128: u64 u32 u16 u8;
    u64: u32 u16 u8;
    u32: u16 u8;
    u16: u8;
}

// How many narrow blocks are stored where a wide one is.
const fn ratio<Wide: Underlier, Narrow: Underlier>() -> usize {
    const {
        assert!(cfg!(target_endian = "little"));
        assert!(size_of::<Wide>() * 8 == Wide::BITS && size_of::<Narrow>() * 8 == Narrow::BITS);
        assert!(align_of::<Wide>() >= align_of::<Narrow>() && Wide::BITS % Narrow::BITS == 0);
        Wide::BITS / Narrow::BITS
    }
}
