//! Levels of the tower, and fields as spaces and extensions of smaller ones.

use crate::{
    BinaryField2, BinaryField128, Field, PACKING, Packed, PackedFieldExtension,
    PrimeCharacteristicRing,
};
use alloc::vec::Vec;
use core::ops::{Add, AddAssign, Mul, MulAssign, Sub, SubAssign};

pub(crate) mod sealed {
    /// It keeps other types from being levels.
    pub trait Sealed {}
}

/// A level of the tower GF(2), GF(2^2), GF(2^4), .. GF(2^128), or a field in a polynomial basis that is isomorphic to one.
///
/// ```
/// use binary_field::{BinaryField16, TowerLevel};
///
/// let x = BinaryField16::from_repr(0x0100);
/// assert_eq!((BinaryField16::LOG_BITS, x.mul_alpha().to_repr()), (4, 0x1001));
/// assert_eq!(BinaryField16::cantor_basis(1), BinaryField16::from_repr(2));
/// ```
pub trait TowerLevel: Field + sealed::Sealed {
    /// The number that an element is stored as.
    type Repr: Copy;

    /// Which level it is: an element has 2^LOG_BITS bits.
    const LOG_BITS: usize;

    /// The element with this representation. Bits above the field are dropped.
    fn from_repr(bits: Self::Repr) -> Self;

    /// The representation.
    fn to_repr(self) -> Self::Repr;

    /// The product with the root that the level adjoins, of the lowest level with 1.
    fn mul_alpha(self) -> Self;

    /// The element whose representation has the next bytes, the lowest first.
    ///
    /// # Panics
    ///
    /// Where too few bytes come.
    fn from_le_byte_iter(bytes: impl Iterator<Item = u8>) -> Self;

    /// Cantor vector `index`: vector 0 is ONE, and v^2 + v of each other vector v is the one before.
    ///
    /// # Panics
    ///
    /// Where the index is not below the field's degree.
    fn cantor_basis(index: usize) -> Self;
}

/// A ring that has the elements of F, by `From`, which may stand on the right of its operators.
///
/// ```
/// use binary_field::{Algebra, BinaryField8, BinaryField128, Field, PrimeCharacteristicRing};
///
/// fn line<F: Field, A: Algebra<F>>(slope: F, first: F, x: A) -> A {
///     x * slope + first
/// }
/// let (slope, x) = (BinaryField8::new(3), BinaryField128::new(1 << 64));
/// assert_eq!(line(slope, BinaryField8::ONE, x), BinaryField128::new(3 << 64 | 1));
/// ```
pub trait Algebra<F>:
    PrimeCharacteristicRing
    + From<F>
    + Add<F, Output = Self>
    + AddAssign<F>
    + Sub<F, Output = Self>
    + SubAssign<F>
    + Mul<F, Output = Self>
    + MulAssign<F>
{
}

/// A name of the algebra, by which transcripts tell two of them apart.
///
/// ```
/// use binary_field::{AlgebraIdentity, BinaryField8, BinaryField128};
///
/// let name = <BinaryField128 as AlgebraIdentity<BinaryField8>>::algebra_id();
/// assert_eq!(name, b"p3-Wiedemann-tower-v1:chunk-basis:8:128");
/// ```
pub trait AlgebraIdentity<F>: Algebra<F> {
    /// The name, in ASCII.
    fn algebra_id() -> Vec<u8>;
}

impl<F: Field> Algebra<F> for F {}

/// A space over F whose elements are stored as their coefficients, one behind the other.
///
/// ```
/// use binary_field::{BasedVectorSpace, BinaryField32, BinaryField128};
///
/// let x = BinaryField128::from_basis_coefficients_fn(|place| BinaryField32::new(place as u32 + 1));
/// assert_eq!(x, BinaryField128::new(0x00000004_00000003_00000002_00000001));
/// let coefficients: &[BinaryField32] = x.as_basis_coefficients_slice();
/// assert_eq!(coefficients[3], BinaryField32::new(4));
/// ```
pub trait BasedVectorSpace<F: Field>: Sized {
    /// How many coefficients an element has.
    const DIMENSION: usize;

    /// The coefficients, that of 1 first.
    fn as_basis_coefficients_slice(&self) -> &[F];

    /// The element with the coefficients that the function has, called for each place in order.
    fn from_basis_coefficients_fn<C: FnMut(usize) -> F>(coefficient: C) -> Self;

    /// The element with these coefficients, where there are as many as it has.
    fn from_basis_coefficients_slice(coefficients: &[F]) -> Option<Self> {
        (coefficients.len() == Self::DIMENSION)
            .then(|| Self::from_basis_coefficients_fn(|place| coefficients[place]))
    }

    /// The same of an iterator.
    fn from_basis_coefficients_iter<I: ExactSizeIterator<Item = F>>(
        mut coefficients: I,
    ) -> Option<Self> {
        (coefficients.len() == Self::DIMENSION).then(|| {
            Self::from_basis_coefficients_fn(|_| {
                coefficients.next().expect("as many as its length")
            })
        })
    }

    /// The coefficients of elements, one element behind the other.
    fn flatten_to_base(elements: Vec<Self>) -> Vec<F> {
        let coefficients = |it: &Self| it.as_basis_coefficients_slice().to_vec();
        elements.iter().flat_map(coefficients).collect()
    }

    /// The elements that have these coefficients.
    ///
    /// # Panics
    ///
    /// Where they are no whole number of elements.
    fn reconstitute_from_base(coefficients: Vec<F>) -> Vec<Self> {
        let elements = coefficients.chunks_exact(Self::DIMENSION);
        assert!(
            elements.remainder().is_empty(),
            "coefficients of whole elements"
        );
        let element = |it: &[F]| Self::from_basis_coefficients_fn(|place| it[place]);
        elements.map(element).collect()
    }
}

impl<F: Field> BasedVectorSpace<F> for F {
    const DIMENSION: usize = 1;

    fn as_basis_coefficients_slice(&self) -> &[F] {
        core::slice::from_ref(self)
    }

    fn from_basis_coefficients_fn<C: FnMut(usize) -> F>(mut coefficient: C) -> F {
        coefficient(0)
    }
}

/// A field that has F as a subfield, whose elements are the coefficients of its own.
///
/// ```
/// use binary_field::{BinaryField8, BinaryField64, ExtensionField, Field};
///
/// fn scaled<F: Field, E: ExtensionField<F>>(x: E, y: F) -> E {
///     x * y
/// }
/// let x = scaled(BinaryField64::from(BinaryField8::new(7)), BinaryField8::new(2));
/// assert_eq!(x.as_base(), Some(BinaryField8::new(7) * BinaryField8::new(2)));
/// ```
pub trait ExtensionField<F: Field>: Field + Algebra<F> + BasedVectorSpace<F> {
    /// As many elements as a packing of F has.
    type ExtensionPacking: PackedFieldExtension<F, Self>;

    /// Whether it is an element of F.
    fn is_in_basefield(&self) -> bool {
        self.as_base().is_some()
    }

    /// The element of F that it is.
    fn as_base(&self) -> Option<F>;
}

impl<F: Field> ExtensionField<F> for F {
    type ExtensionPacking = Packed<F, PACKING>;

    fn as_base(&self) -> Option<F> {
        Some(*self)
    }
}

/// The automorphisms of an extension that leave F as it is.
///
/// ```
/// use binary_field::{HasFrobenius, Poly192};
///
/// let y = Poly192::from([0, 1, 0]);
/// assert_eq!(y.frobenius(), Poly192::from([0, 0, 1]));
/// assert_eq!(y.repeated_frobenius(3), y);
/// ```
pub trait HasFrobenius<F: Field>: ExtensionField<F> {
    /// The element to the power of as many as F has elements.
    fn frobenius(&self) -> Self {
        self.repeated_frobenius(1)
    }

    /// The same so many times.
    fn repeated_frobenius(&self, count: usize) -> Self {
        self.exp_power_of_2(F::bits() * (count % Self::DIMENSION))
    }

    /// The inverse, and ZERO of ZERO.
    fn pseudo_inv(&self) -> Self {
        self.invert_or_zero()
    }
}

/// A field that has F as a subfield, of which it is no space of stored coefficients.
///
/// ```
/// use binary_field::{BinaryField2, BinaryField128, HasSubfield};
///
/// assert_eq!(BinaryField128::new(3).as_subfield(), BinaryField2::new(3));
/// assert_eq!(BinaryField128::new(4).as_subfield(), None);
/// ```
pub trait HasSubfield<F>: Algebra<F> {
    /// The element of F that it is.
    fn as_subfield(&self) -> Option<F>;

    /// Whether all are elements of F.
    fn all_in_subfield(values: &[Self]) -> bool {
        values.iter().all(|it| it.as_subfield().is_some())
    }
}

impl HasSubfield<BinaryField2> for BinaryField128 {
    fn as_subfield(&self) -> Option<BinaryField2> {
        (self.to_bits() >> 2 == 0).then(|| BinaryField2::from_repr(self.to_bits() as u8))
    }
}
