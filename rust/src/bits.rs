//! Rows of bits: elements of GF(2) as the bits of words and of blocks of words, with operators on all of them at
//! once.
//!
//! Sums, products and exchanges of bits are the processor's own instructions on words, and no function of the
//! library is called.

mod blocks;
mod rows;

pub use blocks::{Divisible, M128, M256, M512, Underlier, Word};
pub use rows::{
    PackedGf2, PackedGf2x8, PackedGf2x16, PackedGf2x32, PackedGf2x64, PackedGf2x128, PackedGf2x256,
    PackedGf2x512,
};
