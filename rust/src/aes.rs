//! Linear maps of bytes over GF(2), as matrices and as linearized polynomials over the field of AES.
//!
//! A map is computed byte by byte by tables of this crate, and over slices and packings by the library.

use crate::{Packed, Rijndael8b, linear_map_of_bytes};

/// How many bytes are mapped in place at once.
const BLOCK: usize = 256;

/// How many different powers of squaring there are.
const ORBIT: usize = 8;

/// A linear map of bytes over GF(2), as a matrix of bits.
///
/// It is stored as the matrix operand of the processor's instructions for affine maps of bytes: the row of the
/// image's bit i stands in byte 7 - i of the quadword, and its bit b says whether bit b counts (Intel's manual of
/// instructions, GF2P8AFFINEQB).
///
/// ```
/// use binary_field::ByteMatrix;
///
/// // The linear part of the S-box (FIPS 197, section 5.1.1), by the images of the eight bits.
/// let map = ByteMatrix::from_images([0x1f, 0x3e, 0x7c, 0xf8, 0xf1, 0xe3, 0xc7, 0x8f]);
/// assert_eq!(map.apply(0xca) ^ 0x63, 0xed);
/// assert_eq!(map.to_quadword(), 0xf1e3_c78f_1f3e_7cf8);
/// assert_eq!(map.compose(ByteMatrix::IDENTITY), map);
/// ```
#[repr(transparent)]
#[derive(Clone, Copy, Debug, Default, PartialEq, Eq, Hash)]
pub struct ByteMatrix(u64);

impl ByteMatrix {
    /// The map to 0.
    pub const ZERO: ByteMatrix = ByteMatrix(0);

    /// The map that leaves every byte.
    pub const IDENTITY: ByteMatrix = ByteMatrix::from_images([1, 2, 4, 8, 16, 32, 64, 128]);

    /// The map by the images of bit 0 to bit 7.
    pub const fn from_images(images: [u8; 8]) -> ByteMatrix {
        let (mut rows, mut place) = (0, 0);
        while place < 64 {
            let (row, column) = (7 - place / 8, place % 8);
            rows |= (images[column] as u64 >> row & 1) << place;
            place += 1;
        }
        ByteMatrix(rows)
    }

    /// The images of bit 0 to bit 7.
    pub const fn images(self) -> [u8; 8] {
        let (mut images, mut place) = ([0; 8], 0);
        while place < 64 {
            let (row, column) = (7 - place / 8, place % 8);
            images[column] |= ((self.0 >> place & 1) as u8) << row;
            place += 1;
        }
        images
    }

    /// The image of a byte: the sum of the images of its bits.
    pub const fn apply(self, byte: u8) -> u8 {
        let rows = self.0.to_be_bytes();
        let (mut image, mut row) = (0, 0);
        while row < 8 {
            image |= ((rows[row] & byte).count_ones() as u8 & 1) << row;
            row += 1;
        }
        image
    }

    /// The map that does `first`, and then this one.
    pub const fn compose(self, first: ByteMatrix) -> ByteMatrix {
        let (mut images, mut bit) = (first.images(), 0);
        while bit < 8 {
            images[bit] = self.apply(images[bit]);
            bit += 1;
        }
        ByteMatrix::from_images(images)
    }

    /// The matrix as it is stored.
    pub const fn to_quadword(self) -> u64 {
        self.0
    }

    /// The matrix that is stored so.
    pub const fn from_quadword(rows: u64) -> ByteMatrix {
        ByteMatrix(rows)
    }

    /// Leaves the image of each byte, by the library.
    pub fn apply_slice(self, bytes: &mut [u8]) {
        let images = self.images();
        let mut copied = [0; BLOCK];
        for block in bytes.chunks_mut(BLOCK) {
            let copied = &mut copied[..block.len()];
            copied.copy_from_slice(block);
            linear_map_of_bytes(copied, &images, block).expect("two slices of one length");
        }
    }
}

// The maps of so many squarings.
const SQUARINGS: [ByteMatrix; ORBIT] = {
    let (mut maps, mut count) = ([ByteMatrix::IDENTITY; ORBIT], 1);
    while count < ORBIT {
        let (mut images, mut bit) = (maps[count - 1].images(), 0);
        while bit < 8 {
            images[bit] = Rijndael8b::TABLES.square(images[bit]);
            bit += 1;
        }
        maps[count] = ByteMatrix::from_images(images);
        count += 1;
    }
    maps
};

impl Rijndael8b {
    /// The element whose representation is the byte.
    #[inline]
    pub const fn from_byte(byte: u8) -> Rijndael8b {
        Rijndael8b::new(byte)
    }

    /// The byte of the representation.
    #[inline]
    pub const fn to_byte(self) -> u8 {
        self.to_bits()
    }

    /// The inverse, and ZERO of ZERO.
    #[inline]
    pub const fn invert_or_zero(self) -> Rijndael8b {
        Rijndael8b::new(Self::TABLES.inverse(self.to_byte()))
    }

    /// The map that multiplies by the element.
    pub const fn scaling_matrix(self) -> ByteMatrix {
        let (mut images, mut bit) = ([0; 8], 0);
        while bit < 8 {
            images[bit] = Self::TABLES.multiply(self.to_byte(), 1 << bit);
            bit += 1;
        }
        ByteMatrix::from_images(images)
    }

    /// The map of `log` squarings.
    pub const fn frobenius_map(log: usize) -> ByteMatrix {
        SQUARINGS[log % ORBIT]
    }

    /// The element squared no time, once, .. seven times.
    pub fn frobenius_orbit(self) -> [Rijndael8b; ORBIT] {
        SQUARINGS.map(|it| Rijndael8b::new(it.apply(self.to_byte())))
    }
}

/// A linear map of bytes over GF(2), as the polynomial c0 x + c1 x^2 + c2 x^4 + .. + c7 x^128 over the field of
/// AES. Each linear map is one.
///
/// ```
/// use binary_field::{LinearizedPoly8b, Rijndael8b};
///
/// // The trace, which is the sum of all squarings.
/// let trace = LinearizedPoly8b::new([Rijndael8b::new(1); 8]);
/// assert_eq!(trace.eval(Rijndael8b::new(0x20)), Rijndael8b::new(1));
/// assert_eq!(trace.to_matrix().apply(0x20), 1);
/// ```
#[repr(transparent)]
#[derive(Clone, Copy, Debug, Default, PartialEq, Eq, Hash)]
pub struct LinearizedPoly8b([Rijndael8b; ORBIT]);

impl LinearizedPoly8b {
    /// The map with these coefficients, that of x first.
    pub const fn new(coefficients: [Rijndael8b; ORBIT]) -> LinearizedPoly8b {
        LinearizedPoly8b(coefficients)
    }

    /// The coefficients, that of x first.
    pub const fn coefficients(&self) -> [Rijndael8b; ORBIT] {
        self.0
    }

    /// The image of an element.
    pub fn eval(&self, x: Rijndael8b) -> Rijndael8b {
        let powers = x.frobenius_orbit();
        self.0.iter().zip(powers).map(|(&c, power)| c * power).sum()
    }

    /// The map as a matrix.
    pub const fn to_matrix(&self) -> ByteMatrix {
        let (mut images, mut bit) = ([0; 8], 0);
        while bit < 8 {
            let mut term = 0;
            while term < ORBIT {
                let power = SQUARINGS[term].apply(1 << bit);
                images[bit] ^= Rijndael8b::TABLES.multiply(self.0[term].to_byte(), power);
                term += 1;
            }
            bit += 1;
        }
        ByteMatrix::from_images(images)
    }
}

/// The number form is the array of the coefficients.
#[cfg(feature = "serde")]
impl serde::Serialize for LinearizedPoly8b {
    fn serialize<S: serde::Serializer>(&self, serializer: S) -> Result<S::Ok, S::Error> {
        self.0.serialize(serializer)
    }
}

#[cfg(feature = "serde")]
impl<'de> serde::Deserialize<'de> for LinearizedPoly8b {
    fn deserialize<D: serde::Deserializer<'de>>(deserializer: D) -> Result<Self, D::Error> {
        <[Rijndael8b; ORBIT]>::deserialize(deserializer).map(LinearizedPoly8b)
    }
}

impl<const N: usize> Packed<Rijndael8b, N> {
    /// The image of each byte, by the library.
    pub fn apply(self, map: ByteMatrix) -> Self {
        let bytes = self.0.map(Rijndael8b::to_byte);
        let mut images = [0; N];
        linear_map_of_bytes(&bytes, &map.images(), &mut images).expect("two slices of one length");
        Packed(images.map(Rijndael8b::new))
    }

    /// Each element squared `log` times.
    pub fn frobenius(self, log: usize) -> Self {
        self.apply(Rijndael8b::frobenius_map(log))
    }
}
