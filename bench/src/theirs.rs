//! The same functions over the fields of the Rust crate.

use crate::LENGTH;
use crate::arithmetic::{Arithmetic, ByteMaps, Cubic, Polynomials, Stages, Word};
use p3_binary_field::{
    BinaryField64, BinaryField128, ByteMatrix, Ghash128, Poly64, Poly192, Rijndael8b, TowerLevel,
    poly_basis,
};
use p3_field::{Field, PrimeCharacteristicRing};
use std::marker::PhantomData;

/// A field and the words in which its elements cross.
pub trait Side {
    type Element: Field;

    type Word: Word;

    fn element(word: Self::Word) -> Self::Element;

    fn word(element: Self::Element) -> Self::Word;
}

/// The side of a field that is a level of a tower.
pub struct Level<F>(PhantomData<F>);

impl<F: TowerLevel> Side for Level<F>
where
    F::Repr: Word,
{
    type Element = F;

    type Word = F::Repr;

    fn element(word: F::Repr) -> F {
        F::from_repr(word)
    }

    fn word(element: F) -> F::Repr {
        element.to_repr()
    }
}

/// The side of the cubic extension.
pub struct Extension;

impl Side for Extension {
    type Element = Poly192;

    type Word = Cubic;

    fn element(word: Cubic) -> Poly192 {
        Poly192::new(word.0.map(Poly64::new))
    }

    fn word(element: Poly192) -> Cubic {
        Cubic(element.coefficients().map(Poly64::to_bits))
    }
}

/// The functions of the field of `S`.
pub fn field<S: Side>() -> Arithmetic<S::Word> {
    Arithmetic {
        multiply: |x, y, out| {
            for ((x, y), out) in x.iter().zip(y).zip(out) {
                *out = S::word(S::element(*x) * S::element(*y));
            }
        },
        product: |factors, product| {
            let mut value = S::Element::ONE;
            for factor in factors {
                value *= S::element(*factor);
            }
            *product = S::word(value);
        },
        square: |x, out| each::<S>(x, out, |x| x.square()),
        inverse: |x, out| each::<S>(x, out, |x| x.inverse()),
        batch_inverse: None,
        square_root: |x, out| {
            each::<S>(x, out, |x| {
                x.try_sqrt().expect("each element has a square root")
            })
        },
    }
}

fn each<S: Side>(
    words: &[S::Word],
    out: &mut [S::Word],
    operation: impl Fn(S::Element) -> S::Element,
) {
    for (word, out) in words.iter().zip(out) {
        *out = S::word(operation(S::element(*word)));
    }
}

/// Maps of bytes: the crate applies a matrix in place, so that the bytes are copied first.
pub fn byte_maps() -> ByteMaps {
    ByteMaps {
        matrix: |images, bytes, out| {
            let images: [u8; 8] = images.try_into().expect("eight images");
            out.copy_from_slice(bytes);
            ByteMatrix::from_images(images).apply_slice(out);
        },
        scale: |scalar, bytes, out| {
            out.copy_from_slice(bytes);
            Rijndael8b::from_repr(scalar)
                .scaling_matrix()
                .apply_slice(out);
        },
        encode: None,
        ghash: None,
    }
}

/// Slices by one scalar, and stages of transforms. The crate multiplies in place, so that the words are copied first.
pub fn stages() -> Stages {
    Stages {
        multiply_by: |scalar, values, out| {
            out.copy_from_slice(values);
            poly_basis::mul_slice(out, scalar);
        },
        butterfly_forward: poly_basis::butterfly_forward,
        butterfly_inverse: poly_basis::butterfly_inverse,
        low_stages: |values, shifts, basis| {
            poly_basis::LowStageTwiddles::new(&shifts, &basis).forward(values, 0);
        },
        transform: Some(transform),
    }
}

// The whole transform with the shift 0: the crate has its butterflies and its low stages, and leaves the loop to its user.
fn transform(values: &mut [u128]) {
    let stages = values.len().ilog2() as usize;
    let basis: Vec<u128> = (1..stages)
        .map(|i| Ghash128::cantor_basis(i).to_repr())
        .collect();
    for stage in (poly_basis::LOW_STAGES..stages).rev() {
        for (block, halves) in values.chunks_exact_mut(2 << stage).enumerate() {
            let (low, high) = halves.split_at_mut(1 << stage);
            let twiddle = (0..stages)
                .filter(|bit| block >> bit & 1 == 1)
                .fold(0, |sum, bit| sum ^ basis[bit]);
            poly_basis::butterfly_forward(low, high, twiddle);
        }
    }
    poly_basis::LowStageTwiddles::new(&[0; poly_basis::LOW_STAGES], &basis).forward(values, 0);
}

/// The functions of the change of basis at 64 bits. The crate has no slice form there that takes a slice, so a loop stands
/// for it, and it has no linear map at 64 bits.
pub fn basis64() -> Polynomials<u64> {
    fn from_tower(word: u64) -> u64 {
        Poly64::from(BinaryField64::from_repr(word)).to_bits()
    }

    fn to_tower(word: u64) -> u64 {
        BinaryField64::from(Poly64::new(word)).to_repr()
    }

    Polynomials {
        dot_product: dot_product::<Poly64>,
        from_tower: |words, out| each_word(words, out, from_tower),
        to_tower: |words, out| each_word(words, out, to_tower),
        from_tower_slice: Some(|words| words.iter_mut().for_each(|it| *it = from_tower(*it))),
        to_tower_slice: Some(|words| words.iter_mut().for_each(|it| *it = to_tower(*it))),
        linear_map: None,
    }
}

/// The functions of the change of basis at 128 bits. The crate's linear map answers false without the vector instructions,
/// so a sum of 128 masked columns stands for it.
pub fn basis128() -> Polynomials<u128> {
    Polynomials {
        dot_product: dot_product::<Ghash128>,
        from_tower: |words, out| {
            each_word(words, out, |word| {
                Ghash128::from(BinaryField128::from_repr(word)).to_repr()
            })
        },
        to_tower: |words, out| {
            each_word(words, out, |word| {
                BinaryField128::from(Ghash128::from_repr(word)).to_repr()
            })
        },
        from_tower_slice: Some(poly_basis::from_tower_slice),
        to_tower_slice: Some(poly_basis::to_tower_slice),
        linear_map: Some(|columns, words, out| {
            each_word(words, out, |word| {
                let mut rest = word;
                columns.iter().fold(0, |sum, column| {
                    let masked = column & (rest & 1).wrapping_neg();
                    rest >>= 1;
                    sum ^ masked
                })
            })
        }),
    }
}

fn each_word<W: Word>(words: &[W], out: &mut [W], operation: impl Fn(W) -> W) {
    for (word, out) in words.iter().zip(out) {
        *out = operation(*word);
    }
}

fn dot_product<F: TowerLevel>(left: &[F::Repr], right: &[F::Repr], product: &mut F::Repr)
where
    F::Repr: Word,
{
    *product = F::dot_product(elements::<F>(left), elements::<F>(right)).to_repr();
}

// The elements that words hold, where they lie: it is called at `Poly64` and `Ghash128` alone.
fn elements<F: TowerLevel>(words: &[F::Repr]) -> &[F; LENGTH] {
    assert!(words.len() == LENGTH && size_of::<F>() == size_of::<F::Repr>());
    // SAFETY: both fields are transparent over their words, and every word is an element.
    unsafe { &*words.as_ptr().cast() }
}
