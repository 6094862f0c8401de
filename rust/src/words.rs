//! Representations of elements: how the library takes one, and how it is written and read.

use core::fmt;

/// A representation.
pub trait Word: Copy + Eq {
    type Scalar;

    /// The word without the bits above the lowest `degree`, of which a word of coefficients has none.
    fn truncated(self, degree: u32) -> Self;

    fn scalar(&self) -> Self::Scalar;

    /// The exclusive or.
    fn plus(self, other: Self) -> Self;

    /// The word whose lowest bits are the number.
    fn of_number(number: usize) -> Self;

    fn show(&self, formatter: &mut fmt::Formatter<'_>) -> fmt::Result;

    fn debug(&self, formatter: &mut fmt::Formatter<'_>) -> fmt::Result;

    fn hexadecimal(&self, formatter: &mut fmt::Formatter<'_>) -> fmt::Result;

    /// The word that `show` writes so, or `{:#x}`.
    fn read(text: &str) -> Option<Self>;
}

macro_rules! integer {
    ($word:ty, $scalar:ty, |$it:ident| $passed:expr) => {
        impl Word for $word {
            type Scalar = $scalar;

            #[inline]
            fn truncated(self, degree: u32) -> $word {
                self & <$word>::MAX >> (<$word>::BITS - degree)
            }

            #[inline]
            fn scalar(&self) -> $scalar {
                let $it = self;
                $passed
            }

            #[inline]
            fn plus(self, other: $word) -> $word {
                self ^ other
            }

            fn of_number(number: usize) -> $word {
                number as $word
            }

            fn show(&self, formatter: &mut fmt::Formatter<'_>) -> fmt::Result {
                fmt::Display::fmt(self, formatter)
            }

            fn debug(&self, formatter: &mut fmt::Formatter<'_>) -> fmt::Result {
                fmt::Debug::fmt(self, formatter)
            }

            fn hexadecimal(&self, formatter: &mut fmt::Formatter<'_>) -> fmt::Result {
                fmt::LowerHex::fmt(self, formatter)
            }

            fn read(text: &str) -> Option<$word> {
                let (digits, radix) = match text.strip_prefix("0x") {
                    Some(digits) => (digits, 16),
                    None => (text, 10),
                };
                // A sign is no digit.
                let first = digits.bytes().next()?;
                first
                    .is_ascii_alphanumeric()
                    .then(|| <$word>::from_str_radix(digits, radix).ok())
                    .flatten()
            }
        }
    };
}

integer!(u8, u8, |it| *it);
integer!(u16, u16, |it| *it);
integer!(u32, u32, |it| *it);
integer!(u64, u64, |it| *it);
integer!(u128, *const [u64; 2], |it| core::ptr::from_ref(it).cast());

impl Word for [u64; 3] {
    type Scalar = *const [u64; 3];

    fn truncated(self, _degree: u32) -> [u64; 3] {
        self
    }

    #[inline]
    fn scalar(&self) -> *const [u64; 3] {
        self
    }

    #[inline]
    fn plus(self, other: [u64; 3]) -> [u64; 3] {
        [self[0] ^ other[0], self[1] ^ other[1], self[2] ^ other[2]]
    }

    fn of_number(number: usize) -> [u64; 3] {
        [number as u64, 0, 0]
    }

    fn show(&self, formatter: &mut fmt::Formatter<'_>) -> fmt::Result {
        write!(formatter, "{} + {}*y + {}*y^2", self[0], self[1], self[2])
    }

    fn debug(&self, formatter: &mut fmt::Formatter<'_>) -> fmt::Result {
        fmt::Debug::fmt(self, formatter)
    }

    fn hexadecimal(&self, formatter: &mut fmt::Formatter<'_>) -> fmt::Result {
        for (coefficient, end) in self.iter().zip([" + ", "*y + ", "*y^2"]) {
            fmt::LowerHex::fmt(coefficient, formatter)?;
            formatter.write_str(end)?;
        }
        Ok(())
    }

    fn read(text: &str) -> Option<[u64; 3]> {
        let mut parts = text.split(" + ");
        let mut next = |end| u64::read(parts.next()?.strip_suffix(end)?);
        let word = [next("")?, next("*y")?, next("*y^2")?];
        parts.next().is_none().then_some(word)
    }
}
