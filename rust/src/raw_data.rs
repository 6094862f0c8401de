//! Elements as streams of bytes and of words.

use core::{array, iter};

/// Elements as bytes, the lowest first; of `Poly192` those of each coefficient, that of 1 first.
///
/// ```
/// use binary_field::{BinaryField16, RawDataSerializable};
///
/// let elements = [0x0102, 0x0304, 0x0506].map(BinaryField16::new);
/// let bytes: Vec<u8> = BinaryField16::into_byte_stream(elements).into_iter().collect();
/// assert_eq!(bytes, [2, 1, 4, 3, 6, 5]);
/// // The last word has zeros above the bytes that are left.
/// let words: Vec<u32> = BinaryField16::into_u32_stream(elements).into_iter().collect();
/// assert_eq!(words, [0x0304_0102, 0x0506]);
/// ```
pub trait RawDataSerializable: Sized {
    /// How many bytes an element has.
    const NUM_BYTES: usize;

    /// Its bytes.
    fn into_bytes(self) -> impl IntoIterator<Item = u8>;

    /// The bytes of elements, one element behind the other.
    fn into_byte_stream(elements: impl IntoIterator<Item = Self>) -> impl IntoIterator<Item = u8> {
        elements.into_iter().flat_map(Self::into_bytes)
    }

    /// Those bytes in words of four, the lowest first, the last word with zeros above.
    fn into_u32_stream(elements: impl IntoIterator<Item = Self>) -> impl IntoIterator<Item = u32> {
        Self::into_parallel_u32_streams(alone(elements))
            .into_iter()
            .map(|[word]| word)
    }

    /// Those bytes in words of eight, the lowest first, the last word with zeros above.
    fn into_u64_stream(elements: impl IntoIterator<Item = Self>) -> impl IntoIterator<Item = u64> {
        Self::into_parallel_u64_streams(alone(elements))
            .into_iter()
            .map(|[word]| word)
    }

    /// For N streams of elements, which come as arrays, their bytes as arrays: byte by byte one of each stream.
    fn into_parallel_byte_streams<const N: usize>(
        elements: impl IntoIterator<Item = [Self; N]>,
    ) -> impl IntoIterator<Item = [u8; N]> {
        elements.into_iter().flat_map(|it| {
            let mut bytes = it.map(|element| element.into_bytes().into_iter());
            (0..Self::NUM_BYTES).map(move |_| {
                array::from_fn(|stream| {
                    bytes[stream]
                        .next()
                        .expect("an element has NUM_BYTES bytes")
                })
            })
        })
    }

    /// For N streams their words of four bytes as arrays.
    fn into_parallel_u32_streams<const N: usize>(
        elements: impl IntoIterator<Item = [Self; N]>,
    ) -> impl IntoIterator<Item = [u32; N]> {
        let bytes = Self::into_parallel_byte_streams(elements);
        words(bytes.into_iter()).map(|it| it.map(u32::from_le_bytes))
    }

    /// For N streams their words of eight bytes as arrays.
    fn into_parallel_u64_streams<const N: usize>(
        elements: impl IntoIterator<Item = [Self; N]>,
    ) -> impl IntoIterator<Item = [u64; N]> {
        let bytes = Self::into_parallel_byte_streams(elements);
        words(bytes.into_iter()).map(|it| it.map(u64::from_le_bytes))
    }
}

// A stream as one of N.
fn alone<T>(elements: impl IntoIterator<Item = T>) -> impl Iterator<Item = [T; 1]> {
    elements.into_iter().map(|it| [it])
}

// The next W bytes of each of N streams, again and again, the last ones with zeros behind.
fn words<const N: usize, const W: usize>(
    mut bytes: impl Iterator<Item = [u8; N]>,
) -> impl Iterator<Item = [[u8; W]; N]> {
    iter::from_fn(move || {
        let mut found = [[0; W]; N];
        let mut next = bytes.next()?;
        for place in 0..W {
            for (word, byte) in found.iter_mut().zip(next) {
                word[place] = byte;
            }
            if place + 1 < W {
                match bytes.next() {
                    Some(bytes) => next = bytes,
                    None => break,
                }
            }
        }
        Some(found)
    })
}
