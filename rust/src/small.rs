//! Operators of the fields of at most a byte, by tables that rustc makes from the definition of a product. No
//! function of the library is called, so that nothing here is proved: tests/small_fields.rs compares every operator
//! with the library at every operand.

use crate::{
    BinaryField2, BinaryField4, BinaryField8, BinaryField16, BinaryField32, BinaryField64,
    BinaryField128, Gf2, TowerLevel,
};

/// The product in GF(2^`bits`), a level of the tower: with the halves a + bX and c + dX of the operands, where X^2
/// = XY + 1 over the root Y of the level below, which is 1 below GF(2^2).
const fn of_tower(left: u128, right: u128, bits: u32) -> u128 {
    if bits == 1 {
        return left & right;
    }
    let half = bits / 2;
    let ((a, b), (c, d)) = (halves(left, half), halves(right, half));
    let (low, high) = (of_tower(a, c, half), of_tower(b, d, half));
    let mixed = of_tower(a ^ b, c ^ d, half) ^ low ^ high;
    low ^ high | (mixed ^ by_root(high, half)) << half
}

/// The product in GF(2^`bits`) with the root that it adjoins: (a + bX)X = b + (a + bY)X.
const fn by_root(value: u128, bits: u32) -> u128 {
    if bits == 1 {
        return value;
    }
    let half = bits / 2;
    let (a, b) = halves(value, half);
    b | (a ^ by_root(b, half)) << half
}

/// The lowest bits, and those above.
const fn halves(value: u128, half: u32) -> (u128, u128) {
    (value & ((1 << half) - 1), value >> half)
}

macro_rules! by_definition {
    ($($field:ident $word:ty),*) => {$(
        impl $field {
            /// The product, by the definition of the tower, bit by bit and without the library: to compare with.
            pub fn reference_mul(self, other: $field) -> $field {
                let (left, right) = (u128::from(self.to_repr()), u128::from(other.to_repr()));
                $field::from_repr(of_tower(left, right, Self::TOWER_BITS) as $word)
            }

            const TOWER_BITS: u32 = 1 << Self::LOG_BITS;
        }
    )*};
}

by_definition!(
    Gf2 u8, BinaryField2 u8, BinaryField4 u8, BinaryField8 u8, BinaryField16 u16, BinaryField32 u32, BinaryField64 u64,
    BinaryField128 u128
);

/// The product modulo x^8 + x^4 + x^3 + x + 1 (FIPS 197, section 4.2), bit i for x^i.
const fn of_aes(left: u8, right: u8) -> u8 {
    let (mut shifted, mut product, mut place) = (left, 0, 0);
    while place < 8 {
        if right >> place & 1 == 1 {
            product ^= shifted;
        }
        shifted = shifted << 1 ^ if shifted >> 7 == 1 { 0x1b } else { 0 };
        place += 1;
    }
    product
}

// The logarithm of 0. Sums with it are places of `powers` that hold 0.
const NO_LOGARITHM: u16 = 510;

/// Which product a field of at most a byte has.
pub(crate) enum Product {
    /// That of a level of the tower.
    Tower,
    /// That modulo x^8 + x^4 + x^3 + x + 1.
    Aes,
}

/// The functions of one field, at each operand.
pub(crate) struct Tables {
    // To a generator, of each element.
    logarithms: [u16; 256],
    // Of the generator, by the sum of two logarithms.
    powers: [u8; 1024],
    squares: [u8; 256],
    inverses: [u8; 256],
    roots: [u8; 256],
}

impl Tables {
    /// The tables of the field of `bits` bits with this generator.
    pub(crate) const fn new(product: Product, bits: u32, generator: u8) -> Tables {
        let mut tables = Tables {
            logarithms: [NO_LOGARITHM; 256],
            powers: [0; 1024],
            squares: [0; 256],
            inverses: [0; 256],
            roots: [0; 256],
        };
        let order = (1 << bits) - 1;
        let (mut exponent, mut power) = (0, 1);
        while exponent < order {
            tables.logarithms[power as usize] = exponent as u16;
            tables.powers[exponent] = power;
            tables.powers[exponent + order] = power;
            power = match product {
                Product::Tower => of_tower(power as u128, generator as u128, bits) as u8,
                Product::Aes => of_aes(power, generator),
            };
            exponent += 1;
        }
        assert!(
            power == 1,
            "the powers of a generator come back to 1 behind the last element"
        );
        let mut element = 1;
        while element <= order {
            let logarithm = tables.logarithms[element] as usize;
            let square = tables.powers[2 * logarithm];
            tables.squares[element] = square;
            tables.roots[square as usize] = element as u8;
            tables.inverses[element] = tables.powers[order - logarithm];
            element += 1;
        }
        tables
    }

    #[inline]
    pub(crate) const fn multiply(&self, left: u8, right: u8) -> u8 {
        let sum = self.logarithms[left as usize] + self.logarithms[right as usize];
        self.powers[sum as usize]
    }

    #[inline]
    pub(crate) const fn square(&self, value: u8) -> u8 {
        self.squares[value as usize]
    }

    /// The inverse, and 0 of 0.
    #[inline]
    pub(crate) const fn inverse(&self, value: u8) -> u8 {
        self.inverses[value as usize]
    }

    #[inline]
    pub(crate) const fn square_root(&self, value: u8) -> u8 {
        self.roots[value as usize]
    }
}
