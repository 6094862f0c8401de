//! Elements in transcripts: how bytes are observed as elements, how elements are written, and what a field is called.

use super::CanObserve;
use crate::{
    BinaryField8, BinaryField16, BinaryField32, BinaryField64, BinaryField128, Field, Poly64,
    RawDataSerializable, TowerLevel,
};
use alloc::vec::Vec;
use core::fmt;

/// What tells algebras apart in a transcript: the field with its degree and basis over it.
///
/// ```
/// use binary_field::Poly64;
/// use binary_field::challenger::{TranscriptField, TypeTag};
///
/// let tag = Poly64::algebra_tag(3, [0; 32]);
/// assert!(matches!(tag, TypeTag::BinaryPolynomial { bits: 64, modulus: 0x1b, degree: 3, .. }));
/// ```
#[derive(Clone, Debug, PartialEq, Eq)]
pub enum TypeTag {
    /// Over a level of the tower.
    BinaryTower {
        /// How many bits an element of the level has.
        bits: usize,
        /// How many coefficients an element of the algebra has.
        degree: usize,
        /// A name of the basis.
        basis: [u8; 32],
    },
    /// Over a field in a polynomial basis.
    BinaryPolynomial {
        /// How many bits an element of the field has.
        bits: usize,
        /// The modulus without its leading term, bit i for x^i.
        modulus: u64,
        /// How many coefficients an element of the algebra has.
        degree: usize,
        /// A name of the basis.
        basis: [u8; 32],
    },
}

/// Why bytes are no element.
///
/// ```
/// use binary_field::BinaryField64;
/// use binary_field::challenger::TranscriptField;
///
/// let error = BinaryField64::decode(&[0; 7]).unwrap_err();
/// assert_eq!(error.to_string(), "fewer bytes than an element has");
/// ```
#[derive(Clone, Debug, PartialEq, Eq)]
pub enum TranscriptError {
    /// The proof has another form.
    BadProofShape {
        /// What is other.
        reason: &'static str,
    },
}

impl fmt::Display for TranscriptError {
    fn fmt(&self, formatter: &mut fmt::Formatter<'_>) -> fmt::Result {
        let TranscriptError::BadProofShape { reason } = self;
        formatter.write_str(reason)
    }
}

impl core::error::Error for TranscriptError {}

/// A field whose elements stand in transcripts.
///
/// ```
/// use binary_field::BinaryField16;
/// use binary_field::challenger::{Recorder, TranscriptField};
///
/// let mut recorder = Recorder::default();
/// BinaryField16::observe_seed(&mut recorder, b"abc");
/// assert_eq!(recorder.into_absorbed(), [3, 0, 0, 0, 0x6261, 0x63].map(BinaryField16::new));
///
/// let mut written = Vec::new();
/// BinaryField16::encode(&BinaryField16::new(0x0102), &mut written);
/// assert_eq!((written, BinaryField16::decode(&[1, 2, 3])), (vec![1, 2], Ok(BinaryField16::new(0x0102))));
/// ```
pub trait TranscriptField: Field {
    /// What tells the algebra of this degree and basis over the field apart.
    fn algebra_tag(degree: usize, basis: [u8; 32]) -> TypeTag;

    /// Hands on bytes as elements: their number as eight bytes, the lowest first, cut into elements, and then the
    /// bytes, cut into elements. Each piece has zeros above where it is shorter than an element.
    fn observe_seed<C: CanObserve<Self>>(challenger: &mut C, bytes: &[u8]);

    /// How many bytes `encode` appends.
    fn wire_len() -> usize {
        Self::NUM_BYTES
    }

    /// Appends the bytes of an element, the highest first.
    fn encode(value: &Self, out: &mut Vec<u8>);

    /// The element whose bytes come first, the highest first.
    fn decode(bytes: &[u8]) -> Result<Self, TranscriptError>;
}

macro_rules! transcript_fields {
    ($($field:ident $word:ty, |$degree:ident, $basis:ident| $tag:expr;)*) => {$(
        impl TranscriptField for $field {
            fn algebra_tag($degree: usize, $basis: [u8; 32]) -> TypeTag {
                $tag
            }

            fn observe_seed<C: CanObserve<Self>>(challenger: &mut C, bytes: &[u8]) {
                let length = (bytes.len() as u64).to_le_bytes();
                for piece in length.chunks(Self::NUM_BYTES).chain(bytes.chunks(Self::NUM_BYTES)) {
                    let mut element = [0; size_of::<$word>()];
                    element[..piece.len()].copy_from_slice(piece);
                    challenger.observe($field::from_le_bytes(element));
                }
            }

            fn encode(value: &Self, out: &mut Vec<u8>) {
                out.extend_from_slice(&value.to_repr().to_be_bytes());
            }

            fn decode(bytes: &[u8]) -> Result<Self, TranscriptError> {
                let first = bytes.first_chunk();
                first.map(|it| $field::new(<$word>::from_be_bytes(*it))).ok_or(TranscriptError::BadProofShape {
                    reason: "fewer bytes than an element has",
                })
            }
        }
    )*};
}

transcript_fields! {
    BinaryField8 u8, |degree, basis| TypeTag::BinaryTower { bits: 8, degree, basis };
    BinaryField16 u16, |degree, basis| TypeTag::BinaryTower { bits: 16, degree, basis };
    BinaryField32 u32, |degree, basis| TypeTag::BinaryTower { bits: 32, degree, basis };
    BinaryField64 u64, |degree, basis| TypeTag::BinaryTower { bits: 64, degree, basis };
    BinaryField128 u128, |degree, basis| TypeTag::BinaryTower { bits: 128, degree, basis };
    Poly64 u64, |degree, basis| TypeTag::BinaryPolynomial { bits: 64, modulus: 0x1b, degree, basis };
}

/// It keeps what it observes, for tests.
///
/// ```
/// use binary_field::challenger::{CanObserve, Recorder};
///
/// let mut recorder = Recorder::default();
/// recorder.observe('a');
/// assert_eq!(recorder.into_absorbed(), ['a']);
/// ```
#[derive(Clone, Debug)]
pub struct Recorder<T>(Vec<T>);

impl<T> Default for Recorder<T> {
    fn default() -> Self {
        Recorder(Vec::new())
    }
}

impl<T> Recorder<T> {
    /// What it observed, in order.
    pub fn into_absorbed(self) -> Vec<T> {
        self.0
    }
}

impl<T> CanObserve<T> for Recorder<T> {
    fn observe(&mut self, value: T) {
        self.0.push(value);
    }
}
