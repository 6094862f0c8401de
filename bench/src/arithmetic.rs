//! What is timed: the functions of one side over slices of words.

/// Reads words and writes words.
pub type Unary<W> = fn(&[W], &mut [W]);

/// The functions of one side for the field whose elements are words `W`.
pub struct Arithmetic<W> {
    /// Writes the product of the words at each index.
    pub multiply: fn(&[W], &[W], &mut [W]),
    /// Writes the product of all words, by one after the other.
    pub product: fn(&[W], &mut W),
    pub square: Unary<W>,
    pub inverse: Unary<W>,
    /// The inverses by one inverse and three products an element. Not every side has them.
    pub batch_inverse: Option<Unary<W>>,
    pub square_root: Unary<W>,
}

/// The functions of one side over bytes.
pub struct ByteMaps {
    /// Writes what a matrix of eight images makes of bytes.
    pub matrix: fn(&[u8], &[u8], &mut [u8]),
    /// Writes the products of an element of the byte field of AES and bytes.
    pub scale: fn(u8, &[u8], &mut [u8]),
    /// Writes the shards of parity of so many shards of data, and of parity. Not every side has codes, or tags.
    pub encode: Option<fn(usize, usize, &mut [u8])>,
    /// Writes GHASH of a message under a key over the first 16 bytes.
    pub ghash: Option<fn(&[u8], &[u8], &mut [u8])>,
}

/// The functions of one side over slices of words of the field of GHASH, with one scalar, and stages of additive transforms.
pub struct Stages {
    /// Writes the products of the scalar and words.
    pub multiply_by: fn(u128, &[u128], &mut [u128]),
    pub butterfly_forward: fn(&mut [u128], &mut [u128], u128),
    pub butterfly_inverse: fn(&mut [u128], &mut [u128], u128),
    /// Runs the four lowest stages, with shifts and a basis, from run 0 on.
    pub low_stages: fn(&mut [u128], [u128; 4], [u128; 13]),
    /// Replaces coefficients by values. Not every side has the whole transform.
    pub transform: Option<fn(&mut [u128])>,
}

/// The functions of one side for a field of polynomials whose elements are words `W`, besides those of `Arithmetic`.
pub struct Polynomials<W> {
    /// Writes the dot product of two slices.
    pub dot_product: fn(&[W], &[W], &mut W),
    /// Writes the polynomials that are the images of elements of the tower.
    pub from_tower: Unary<W>,
    /// Writes the elements of the tower that have these images.
    pub to_tower: Unary<W>,
    /// Replaces elements of the tower by their images.
    pub from_tower_slice: Option<fn(&mut [W])>,
    /// Replaces images by elements of the tower. Not every side changes bases in place.
    pub to_tower_slice: Option<fn(&mut [W])>,
    /// Writes the values at words of the linear map that takes bit i to entry i of the first slice. Not every side has one.
    pub linear_map: Option<fn(&[W], &[W], &mut [W])>,
}

/// An unsigned number that holds an element of the field of as many bits.
pub trait Word: Copy + Default + PartialEq + 'static {
    const BITS: u32;

    /// The low bits of a number.
    fn of(bits: u128) -> Self;

    fn bits(self) -> u128;
}

macro_rules! word {
    ($($word:ty),*) => {$(
        impl Word for $word {
            const BITS: u32 = <$word>::BITS;

            fn of(bits: u128) -> Self {
                bits as $word
            }

            fn bits(self) -> u128 {
                self.into()
            }
        }
    )*};
}

word!(u8, u16, u32, u64, u128);

/// An element of the cubic extension as its three coefficients, that of 1 first, as the static library takes it.
#[repr(C)]
#[derive(Clone, Copy, Default, PartialEq)]
pub struct Cubic(pub [u64; 3]);

impl Word for Cubic {
    const BITS: u32 = 192;

    // The third coefficient is a mix of the bits of the first two.
    fn of(bits: u128) -> Self {
        let (low, high) = (bits as u64, (bits >> 64) as u64);
        Cubic([low, high, (low ^ high).wrapping_mul(0x9e37_79b9_7f4a_7c15)])
    }

    fn bits(self) -> u128 {
        let [c0, c1, c2] = self.0;
        u128::from(c1) << 64 | u128::from(c0 ^ c2.rotate_left(32))
    }
}
