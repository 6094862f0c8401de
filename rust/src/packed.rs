//! Packings: several elements as one value, by operators at each place.

use crate::{
    Algebra, BinaryField128, Error, ExtensionField, Field, Gf2, Ghash128, Powers,
    PrimeCharacteristicRing, Rijndael8b,
};
use core::array;
use core::iter::{Product, Sum};
use core::ops::{Add, AddAssign, Div, DivAssign, Mul, MulAssign, Neg, Sub, SubAssign};

/// How many elements [`Field::Packing`] has.
pub(crate) const PACKING: usize = 16;

/// N elements, with operators at each place. A product is one call of the library for all of them.
///
/// ```
/// use binary_field::{Ghash128, Packed, PrimeCharacteristicRing};
///
/// let x = Packed([1, 2, 3, 4].map(Ghash128::new));
/// assert_eq!((x * x).0, x.0.map(|it| it.square()));
/// assert_eq!((x + Ghash128::ONE).0, [0, 3, 2, 5].map(Ghash128::new));
/// ```
#[repr(transparent)]
#[derive(Clone, Copy, Debug, PartialEq, Eq, Hash)]
pub struct Packed<F, const N: usize>(pub [F; N]);

/// Bytes of AES as one value.
///
/// ```
/// use binary_field::{ByteMatrix, PackedRijndael8b, PackedValue, Rijndael8b};
///
/// let x = PackedRijndael8b::<16>::from_fn(|place| Rijndael8b::new(place as u8));
/// assert_eq!(x.apply(ByteMatrix::IDENTITY), x);
/// assert_eq!(x.frobenius(1), x * x);
/// ```
pub type PackedRijndael8b<const N: usize> = Packed<Rijndael8b, N>;

/// Elements of the field of GHASH as one value.
///
/// ```
/// use binary_field::{Ghash128, PackedFieldPow2, PackedGhash128};
///
/// let (x, y) = (PackedGhash128::from(Ghash128::new(2)), PackedGhash128::from(Ghash128::new(3)));
/// assert_eq!(x.interleave(y, 1).0, PackedGhash128::<4>::from_elements([2, 3, 2, 3].map(Ghash128::new)));
/// ```
pub type PackedGhash128<const N: usize = 4> = Packed<Ghash128, N>;

/// What may be held by a packing: the elements of the fields.
///
/// ```
/// fn is_packable<T: binary_field::Packable>() {}
/// is_packable::<binary_field::Ghash128>();
/// ```
pub trait Packable: 'static + Default + Copy + Send + Sync + PartialEq + Eq {}

/// What holds several values of one type, as an array of them does. A value itself holds one.
///
/// ```
/// use binary_field::{Packed, PackedValue, Poly64};
///
/// let values: Vec<Poly64> = (0..10).map(Poly64::new).collect();
/// let (packings, rest) = Packed::<Poly64, 4>::pack_slice_with_suffix(&values);
/// assert_eq!((packings.len(), rest), (2, &values[8..]));
/// assert_eq!(Packed::unpack_slice(packings), &values[..8]);
/// ```
pub trait PackedValue: 'static + Copy + Send + Sync {
    /// The type of each.
    type Value: Packable;

    /// How many there are.
    const WIDTH: usize;

    /// A slice of WIDTH values, as one.
    ///
    /// # Panics
    ///
    /// Where the slice has another length.
    fn from_slice(values: &[Self::Value]) -> &Self;

    /// A slice of WIDTH values, as one that may be written.
    ///
    /// # Panics
    ///
    /// Where the slice has another length.
    fn from_slice_mut(values: &mut [Self::Value]) -> &mut Self;

    /// The value that the function has for each place, called in order.
    fn from_fn<C: FnMut(usize) -> Self::Value>(value: C) -> Self;

    /// The values.
    fn as_slice(&self) -> &[Self::Value];

    /// The values, which may be written.
    fn as_slice_mut(&mut self) -> &mut [Self::Value];

    /// A slice of values as packings.
    ///
    /// # Panics
    ///
    /// Where values are left.
    fn pack_slice(values: &[Self::Value]) -> &[Self] {
        let (packings, rest) = Self::pack_slice_with_suffix(values);
        assert!(rest.is_empty(), "a slice of whole packings");
        packings
    }

    /// A slice of values as packings, and the values that are left.
    fn pack_slice_with_suffix(values: &[Self::Value]) -> (&[Self], &[Self::Value]) {
        let (packed, rest) = values.split_at(values.len() / Self::WIDTH * Self::WIDTH);
        (Self::of_whole(packed), rest)
    }

    /// The values of packings, one behind the other.
    fn unpack_slice(packings: &[Self]) -> &[Self::Value];

    #[doc(hidden)]
    fn of_whole(values: &[Self::Value]) -> &[Self];
}

impl<T: Packable> PackedValue for T {
    type Value = T;

    const WIDTH: usize = 1;

    fn from_slice(values: &[T]) -> &T {
        let [value] = values else {
            panic!("a slice of one value")
        };
        value
    }

    fn from_slice_mut(values: &mut [T]) -> &mut T {
        let [value] = values else {
            panic!("a slice of one value")
        };
        value
    }

    fn from_fn<C: FnMut(usize) -> T>(mut value: C) -> T {
        value(0)
    }

    fn as_slice(&self) -> &[T] {
        core::slice::from_ref(self)
    }

    fn as_slice_mut(&mut self) -> &mut [T] {
        core::slice::from_mut(self)
    }

    fn unpack_slice(packings: &[T]) -> &[T] {
        packings
    }

    fn of_whole(values: &[T]) -> &[T] {
        values
    }
}

/// Elements of one field as one value, with the operators of the field at each place.
///
/// ```
/// use binary_field::{Field, Ghash128, PackedField, PackedValue, PrimeCharacteristicRing};
///
/// /// x * x + c at each place.
/// fn step<P: PackedField>(x: P, c: P::Scalar) -> P {
///     x.square() + c
/// }
/// type P = <Ghash128 as Field>::Packing;
/// let x = P::from_fn(|place| Ghash128::new(place as u128));
/// assert_eq!(step(x, Ghash128::ONE).as_slice()[3], Ghash128::new(4));
/// ```
pub trait PackedField: Algebra<Self::Scalar> + PackedValue<Value = Self::Scalar> {
    /// The field.
    type Scalar: Field;
}

impl<F: Field> PackedField for F {
    type Scalar = F;
}

impl<F: Field, const N: usize> PackedField for Packed<F, N> {
    type Scalar = F;
}

/// Packings of as many elements as a power of two, which exchange blocks of them.
///
/// ```
/// use binary_field::{Packed, PackedFieldPow2, Poly64};
///
/// let (x, y) = (Packed([0, 1, 2, 3].map(Poly64::new)), Packed([4, 5, 6, 7].map(Poly64::new)));
/// let (even, odd) = x.interleave(y, 1);
/// assert_eq!(even.0, [0, 4, 2, 6].map(Poly64::new));
/// assert_eq!(odd.0, [1, 5, 3, 7].map(Poly64::new));
/// ```
pub trait PackedFieldPow2: PackedField {
    /// The even blocks of so many elements of both, those of `self` first in each pair, and the odd ones. Where a
    /// packing is one block, both as they are.
    ///
    /// # Panics
    ///
    /// Where the width, or the length of a block, is no power of two, or the block longer than a packing.
    fn interleave(&self, other: Self, block_length: usize) -> (Self, Self);
}

impl<F: Field> PackedFieldPow2 for F {
    fn interleave(&self, other: F, block_length: usize) -> (F, F) {
        assert!(block_length == 1, "a block is a part of a packing");
        (*self, other)
    }
}

impl<F: Field, const N: usize> PackedFieldPow2 for Packed<F, N> {
    fn interleave(&self, other: Self, block_length: usize) -> (Self, Self) {
        const {
            assert!(
                N.is_power_of_two(),
                "a packing of as many elements as a power of two"
            )
        };
        let length = block_length;
        assert!(
            length.is_power_of_two() && length <= N,
            "a block is a part of a packing"
        );
        if length == N {
            return (*self, other);
        }
        let taken = |odd: usize| {
            Packed(array::from_fn(|place| match place / length % 2 {
                0 => self.0[place + odd * length],
                _ => other.0[place + odd * length - length],
            }))
        };
        (taken(0), taken(1))
    }
}

/// Elements of an extension E of F as one value, as many as a packing of F has.
///
/// ```
/// use binary_field::{BinaryField8, BinaryField128, ExtensionField, Field, PackedFieldExtension};
///
/// /// The sum of x and x + y, by a packing.
/// fn sum<F: Field, E: ExtensionField<F>>(x: E, y: E) -> E {
///     let mut packing = E::ExtensionPacking::from_ext_fn(|_| x);
///     packing.add_assign_lane(0, y);
///     packing.extract(0) + x
/// }
/// let y = BinaryField128::new(7);
/// assert_eq!(sum::<BinaryField8, _>(BinaryField128::new(1 << 90), y), y);
/// ```
pub trait PackedFieldExtension<F: Field, E: ExtensionField<F, ExtensionPacking = Self>>:
    Algebra<E>
{
    /// The element that the function has for each place.
    fn from_ext_fn(element: impl Fn(usize) -> E) -> Self;

    /// The elements of a slice.
    ///
    /// # Panics
    ///
    /// Where there are not as many as places.
    fn from_ext_slice(elements: &[E]) -> Self;

    /// The element at a place.
    ///
    /// # Panics
    ///
    /// Where there is no such place.
    fn extract(&self, lane: usize) -> E;

    /// Adds to the element at a place.
    ///
    /// # Panics
    ///
    /// Where there is no such place.
    fn add_assign_lane(&mut self, lane: usize, value: E);

    /// The powers of an element from ONE on, as many in each value as it has places.
    fn packed_ext_powers(base: E) -> Powers<Self>;
}

impl<F: Field, E: ExtensionField<F, ExtensionPacking = Self>> PackedFieldExtension<F, E>
    for Packed<E, PACKING>
{
    fn from_ext_fn(element: impl Fn(usize) -> E) -> Self {
        Packed(array::from_fn(element))
    }

    fn from_ext_slice(elements: &[E]) -> Self {
        *Self::from_slice(elements)
    }

    fn extract(&self, lane: usize) -> E {
        self.0[lane]
    }

    fn add_assign_lane(&mut self, lane: usize, value: E) {
        self.0[lane] += value;
    }

    fn packed_ext_powers(base: E) -> Powers<Self> {
        let mut powers = base.powers();
        Powers {
            current: Packed(array::from_fn(|_| {
                powers.next().expect("powers without an end")
            })),
            base: Self::from(powers.current),
        }
    }
}

impl<F: Field, const N: usize> PackedValue for Packed<F, N> {
    type Value = F;

    const WIDTH: usize = N;

    fn from_slice(values: &[F]) -> &Self {
        let values: &[F; N] = values.try_into().expect("a slice of the packing's width");
        // SAFETY: a packing is transparent over its array. So it is below.
        unsafe { &*core::ptr::from_ref(values).cast() }
    }

    fn from_slice_mut(values: &mut [F]) -> &mut Self {
        let values: &mut [F; N] = values.try_into().expect("a slice of the packing's width");
        // SAFETY: as above.
        unsafe { &mut *core::ptr::from_mut(values).cast() }
    }

    fn from_fn<C: FnMut(usize) -> F>(value: C) -> Self {
        Packed(array::from_fn(value))
    }

    fn as_slice(&self) -> &[F] {
        &self.0
    }

    fn as_slice_mut(&mut self) -> &mut [F] {
        &mut self.0
    }

    fn of_whole(values: &[F]) -> &[Self] {
        // SAFETY: as above; the slice has so many arrays of N elements.
        unsafe { core::slice::from_raw_parts(values.as_ptr().cast(), values.len() / N) }
    }

    fn unpack_slice(packings: &[Self]) -> &[F] {
        // SAFETY: as above.
        let arrays = unsafe { &*(core::ptr::from_ref(packings) as *const [[F; N]]) };
        arrays.as_flattened()
    }
}

impl<F: Field, const N: usize> Packed<F, N> {
    // What a call over slices writes, which all have N elements.
    fn written(call: impl FnOnce(&mut [F]) -> Result<(), Error>) -> Self {
        let mut values = [F::ZERO; N];
        call(&mut values).expect("slices of one length");
        Packed(values)
    }

    /// The packing with these elements.
    pub const fn from_elements(elements: [F; N]) -> Self {
        Packed(elements)
    }

    /// The inverse at each place, and ZERO of ZERO.
    pub fn invert_or_zero(self) -> Self {
        Self::written(|values| F::batch_inverse_slice(&self.0, values))
    }
}

impl<F: Field, const N: usize> PrimeCharacteristicRing for Packed<F, N> {
    type PrimeSubfield = F::PrimeSubfield;

    const ZERO: Self = Packed([F::ZERO; N]);

    const ONE: Self = Packed([F::ONE; N]);

    fn square(&self) -> Self {
        Self::written(|values| F::square_slice(&self.0, values))
    }

    fn exp_u64(&self, exponent: u64) -> Self {
        Self::written(|values| F::power_slice(&self.0, exponent, values))
    }

    fn exp_power_of_2(&self, log: usize) -> Self {
        (0..log % F::bits()).fold(*self, |power, _| power.square())
    }
}

impl<F: Field, const N: usize> Algebra<F> for Packed<F, N> {}

impl<F: Field, const N: usize> Default for Packed<F, N> {
    fn default() -> Self {
        Self::ZERO
    }
}

/// The element at each place.
impl<F: Field, const N: usize> From<F> for Packed<F, N> {
    fn from(element: F) -> Self {
        Packed([element; N])
    }
}

impl<F: Field, const N: usize> Add for Packed<F, N> {
    type Output = Self;

    fn add(self, other: Self) -> Self {
        Packed(array::from_fn(|place| self.0[place] + other.0[place]))
    }
}

// In characteristic two a difference is a sum.
impl<F: Field, const N: usize> Sub for Packed<F, N> {
    type Output = Self;

    #[allow(clippy::suspicious_arithmetic_impl)]
    fn sub(self, other: Self) -> Self {
        self + other
    }
}

impl<F: Field, const N: usize> Neg for Packed<F, N> {
    type Output = Self;

    fn neg(self) -> Self {
        self
    }
}

impl<F: Field, const N: usize> Mul for Packed<F, N> {
    type Output = Self;

    fn mul(self, other: Self) -> Self {
        Self::written(|values| F::multiply_slices(&self.0, &other.0, values))
    }
}

/// It panics where a divisor is ZERO.
impl<F: Field, const N: usize> Div for Packed<F, N> {
    type Output = Self;

    #[allow(clippy::suspicious_arithmetic_impl)]
    fn div(self, other: Self) -> Self {
        assert!(!other.0.iter().any(Field::is_zero), "a division by 0");
        self * other.invert_or_zero()
    }
}

macro_rules! with_elements {
    ($($name:ident $method:ident $assigning:ident $assign:ident),*) => {$(
        impl<F: Field, const N: usize> $name<F> for Packed<F, N> {
            type Output = Self;

            fn $method(self, element: F) -> Self {
                $name::$method(self, Self::from(element))
            }
        }

        impl<F: Field, const N: usize> $assigning for Packed<F, N> {
            fn $assign(&mut self, other: Self) {
                *self = $name::$method(*self, other);
            }
        }

        impl<F: Field, const N: usize> $assigning<F> for Packed<F, N> {
            fn $assign(&mut self, element: F) {
                *self = $name::$method(*self, element);
            }
        }
    )*};
}

with_elements!(Add add AddAssign add_assign, Sub sub SubAssign sub_assign, Mul mul MulAssign mul_assign, Div div DivAssign div_assign);

impl<F: Field, const N: usize> Sum for Packed<F, N> {
    fn sum<I: Iterator<Item = Self>>(values: I) -> Self {
        values.fold(Self::ZERO, |sum, it| sum + it)
    }
}

impl<F: Field, const N: usize> Product for Packed<F, N> {
    fn product<I: Iterator<Item = Self>>(values: I) -> Self {
        values.fold(Self::ONE, |product, it| product * it)
    }
}

impl<F: Field, const N: usize> Sum<F> for Packed<F, N> {
    fn sum<I: Iterator<Item = F>>(elements: I) -> Self {
        Self::from(elements.sum::<F>())
    }
}

impl<F: Field, const N: usize> Product<F> for Packed<F, N> {
    fn product<I: Iterator<Item = F>>(elements: I) -> Self {
        Self::from(elements.product::<F>())
    }
}

/// Every element is as likely as every other, at each place.
#[cfg(feature = "rand")]
impl<F: Field, const N: usize> rand::distributions::Distribution<Packed<F, N>>
    for rand::distributions::Standard
where
    rand::distributions::Standard: rand::distributions::Distribution<F>,
{
    fn sample<R: rand::Rng + ?Sized>(&self, source: &mut R) -> Packed<F, N> {
        Packed(array::from_fn(|_| self.sample(source)))
    }
}

/// Operators of a packing and an element of another field that becomes one of its own, at each place.
macro_rules! with_subfield {
    ($field:ident $from:ident: $($name:ident $method:ident $assigning:ident $assign:ident),*) => {
        impl<const N: usize> From<$from> for Packed<$field, N> {
            fn from(element: $from) -> Self {
                Self::from($field::from(element))
            }
        }

        impl<const N: usize> Algebra<$from> for Packed<$field, N> {}

        $(
            impl<const N: usize> $name<$from> for Packed<$field, N> {
                type Output = Self;

                fn $method(self, element: $from) -> Self {
                    $name::$method(self, $field::from(element))
                }
            }

            impl<const N: usize> $assigning<$from> for Packed<$field, N> {
                fn $assign(&mut self, element: $from) {
                    *self = $name::$method(*self, element);
                }
            }
        )*
    };
}

with_subfield!(Rijndael8b Gf2:
    Add add AddAssign add_assign, Sub sub SubAssign sub_assign, Mul mul MulAssign mul_assign);
with_subfield!(Ghash128 Gf2:
    Add add AddAssign add_assign, Sub sub SubAssign sub_assign, Mul mul MulAssign mul_assign);
with_subfield!(Ghash128 BinaryField128:
    Add add AddAssign add_assign, Sub sub SubAssign sub_assign, Mul mul MulAssign mul_assign);

/// Operators with an element on the left.
macro_rules! from_the_left {
    ($($field:ident),*: $($name:ident $method:ident)*) => { from_the_left!(@ [$($field),*] $($name $method)*); };
    (@ [$($field:ident),*] $name:ident $method:ident $($rest:tt)*) => {
        $(
            impl<const N: usize> $name<Packed<$field, N>> for $field {
                type Output = Packed<$field, N>;

                fn $method(self, packing: Packed<$field, N>) -> Packed<$field, N> {
                    $name::$method(Packed::from(self), packing)
                }
            }
        )*
        from_the_left!(@ [$($field),*] $($rest)*);
    };
    (@ [$($field:ident),*]) => {};
}

from_the_left!(Rijndael8b, Ghash128: Add add Sub sub Mul mul);
