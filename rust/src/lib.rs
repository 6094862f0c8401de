//! Binary fields, computed by a library whose functions are proved. Trusted and not proved are this crate, rustc and the linker. What the
//! crate computes without the library is tested: operators of single elements of at most a byte, which look up tables, sums, rows of bits,
//! challengers and transcripts.
//!
//! An element is an unsigned number, its representation, and a sum is the exclusive or. In the tower the low half of the bits is
//! the part without the root; in a polynomial basis bit i is the coefficient of x^i. Nothing is claimed on timing. The names are those
//! of p3-binary-field and of the traits of p3-field, which are traits of this crate and not those; SWAP.md says what a program over those
//! changes.
//!
//! `scripts/build-library FOLDER` makes the library, and cargo finds it by `BINARY_FIELD_LIBRARY=FOLDER/lib`. A sum is computed in
//! place; every other operator of a field above a byte is a call of the library over slices of one element, and the functions over slices
//! cost less an element.
//!
//! Three features are off by default, and stand in the manifest `features/Cargo.toml`. With `serde` an element is the number of its
//! representation (`Poly192` the array of its coefficients), and a number above the field is refused. With `rand` the distribution
//! `Standard` draws every element with the same likelihood. With `num-traits` elements have `Zero`, `One`, `Inv` and `Pow`. Both manifests
//! have the feature `hardware`: functions by the carryless multiply instruction, which are not proved, over a library that has them.
//!
//! ```
//! use binary_field::{BinaryField128, Field, Ghash128, PrimeCharacteristicRing};
//!
//! let (a, b) = (Ghash128::new(1 << 127), Ghash128::new(2));
//! assert_eq!(a * b, Ghash128::new(0x87));
//! assert_eq!(BinaryField128::from(a * b), BinaryField128::from(a) * BinaryField128::from(b));
//! assert_eq!(a.inverse() * a, Ghash128::ONE);
//!
//! let mut products = [Ghash128::ZERO; 2];
//! Ghash128::multiply_slices(&[a, b], &[b, b], &mut products)?;
//! assert_eq!(products, [a * b, b.square()]);
//! # Ok::<(), binary_field::Error>(())
//! ```
#![no_std]
#![warn(missing_docs)]

extern crate alloc;

#[macro_use]
mod field_macros;

mod aes;
mod binary_codes;
pub mod bit_matrices;
mod bits;
mod bytes;
pub mod challenger;
pub mod chosen;
mod codes;
mod erasure;
#[rustfmt::skip]
mod error;
mod field;
mod field_codes;
#[rustfmt::skip]
mod fields;
#[rustfmt::skip]
mod functions;
#[cfg(feature = "hardware")]
mod hardware;
#[cfg(feature = "hardware")]
#[allow(dead_code)]
#[rustfmt::skip]
mod hardware_functions;
mod maps;
mod matrices;
mod packed;
pub mod poly_basis;
mod prime;
mod processor;
mod raw_data;
mod ring;
mod secrets;
mod small;
mod space;
mod text;
mod words;

pub use aes::{ByteMatrix, LinearizedPoly8b};
pub use binary_codes::BinaryBch;
pub use bits::{
    Divisible, M128, M256, M512, PackedGf2, PackedGf2x8, PackedGf2x16, PackedGf2x32, PackedGf2x64,
    PackedGf2x128, PackedGf2x256, PackedGf2x512, Underlier, Word,
};
pub use bytes::{
    Ghash, Polyval, Prepared, PreparedReconstruct, ReedSolomon, gcm_ghash, ghash, polyval,
    tags_are_equal,
};
pub use challenger::BinaryChallenger;
pub use codes::{CorrectingCode, NOT_CORRECTED};
pub use erasure::TransformCode;
pub use error::Error;
pub use field::Field;
pub use field_codes::FieldCode;
pub use fields::{
    BinaryField2, BinaryField4, BinaryField8, BinaryField16, BinaryField32, BinaryField64,
    BinaryField128, Gf2, Ghash128, Poly64, Poly192, Rijndael8b,
};
#[cfg(feature = "hardware")]
pub use hardware::{Carryless, Hardware, HashInPieces};
pub use maps::{
    Transformed, butterfly_forward, butterfly_inverse, inverse_transform, linear_map,
    linear_map_of_bytes, low_stages, transform,
};
pub use matrices::Matrices;
use packed::PACKING;
pub use packed::{
    Packable, Packed, PackedField, PackedFieldExtension, PackedFieldPow2, PackedGhash128,
    PackedRijndael8b, PackedValue,
};
pub use prime::{Order, PrimeField, PrimeField32, PrimeField64, QuotientMap};
pub use processor::processor;
pub use raw_data::RawDataSerializable;
pub use ring::{Powers, PrimeCharacteristicRing};
pub use secrets::{ShareField, combine_secret, correct_secret, split_secret};
pub use space::{
    Algebra, AlgebraIdentity, BasedVectorSpace, ExtensionField, HasFrobenius, HasSubfield,
    TowerLevel,
};
pub use text::{Answer, ParseError, answer};
