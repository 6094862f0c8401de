//! Calls of the library, and what makes a field of its word and of its functions there. An element is stored as the word that the
//! library takes, so that a slice of elements is one of words.

/// A call of the library. `[x]` is a slice that is read and `[mut x]` one that is written: its pointer and its length. Everything else
/// goes as it is.
macro_rules! call {
    ($function:path: $($given:tt)*) => {
        call!(@ [$function] () $($given)*)
    };
    (@ $function:tt ($($made:expr,)*) [mut $slice:expr] $(, $($rest:tt)*)?) => {
        call!(@ $function ($($made,)* $slice.as_mut_ptr().cast(), $slice.len(),) $($($rest)*)?)
    };
    (@ $function:tt ($($made:expr,)*) [$slice:expr] $(, $($rest:tt)*)?) => {
        call!(@ $function ($($made,)* $slice.as_ptr().cast(), $slice.len(),) $($($rest)*)?)
    };
    (@ $function:tt ($($made:expr,)*) $other:expr $(, $($rest:tt)*)?) => {
        call!(@ $function ($($made,)* $other,) $($($rest)*)?)
    };
    (@ [$function:path] ($($made:expr,)*)) => {
        // SAFETY: the pointers and lengths are those of slices, which are never null, and other pointers those of values; a slice of
        // elements is one of the words that the library takes, and a bool the byte 0 or 1; what is written overlaps nothing else.
        unsafe { $function($($made),*) }
    };
}

/// An operator of two types that is the one of the first where the second becomes it by `From`; and its form that assigns.
macro_rules! mixed {
    ($to:ident $from:ident: $($name:ident $method:ident $assigning:ident $assign:ident),*) => {$(
        impl $name<$from> for $to {
            type Output = $to;

            #[inline]
            fn $method(self, other: $from) -> $to {
                $name::$method(self, $to::from(other))
            }
        }

        impl $name<$to> for $from {
            type Output = $to;

            #[inline]
            fn $method(self, other: $to) -> $to {
                $name::$method($to::from(self), other)
            }
        }

        impl $assigning<$from> for $to {
            #[inline]
            fn $assign(&mut self, other: $from) {
                *self = $name::$method(*self, other);
            }
        }
    )*};
}

/// The forms of an operator over references, and that which assigns.
macro_rules! by_reference {
    ($field:ident: $($name:ident $method:ident $assigning:ident $assign:ident),*) => {$(
        impl $name<&$field> for $field {
            type Output = $field;

            #[inline]
            fn $method(self, other: &$field) -> $field {
                $name::$method(self, *other)
            }
        }

        impl $name<$field> for &$field {
            type Output = $field;

            #[inline]
            fn $method(self, other: $field) -> $field {
                $name::$method(*self, other)
            }
        }

        impl $name<&$field> for &$field {
            type Output = $field;

            #[inline]
            fn $method(self, other: &$field) -> $field {
                $name::$method(*self, *other)
            }
        }

        impl $assigning for $field {
            #[inline]
            fn $assign(&mut self, other: $field) {
                *self = $name::$method(*self, other);
            }
        }

        impl $assigning<&$field> for $field {
            #[inline]
            fn $assign(&mut self, other: &$field) {
                *self = $name::$method(*self, *other);
            }
        }
    )*};
}

/// A call over slices of one element, whose result is one.
macro_rules! on_one {
    ($function:path: $($value:expr),* $(; $middle:expr)? => $field:ident) => {{
        let mut results = [$field::ZERO];
        // SAFETY: each pointer is that of one element, and what is written overlaps no other.
        succeed(unsafe { $function($((&raw const $value).cast(), 1,)* $($middle,)? results.as_mut_ptr().cast(), 1) });
        results[0]
    }};
}

/// What tables of the crate give where the field has them, and otherwise what a call of the library gives.
macro_rules! by_tables {
    ($field:ident $product:ident: $method:ident($($word:expr),*); $call:expr) => {
        $field($field::TABLES.$method($($word),*))
    };
    ($field:ident: $method:ident($($word:expr),*); $call:expr) => {
        $call
    };
}

/// A field, by its word, its degree, its zero, its one and its generator, and the module of its functions in the library.
macro_rules! field {
    (
        $(#[$about:meta])* $field:ident($word:ty), $degree:literal, $zero:expr, $one:expr, $generator:expr, $library:ident,
        $(one_inverse_in: $tower:ident,)?
        $(tables: $product_of:ident,)?
    ) => {
        $(#[$about])*
        #[repr(transparent)]
        #[derive(Clone, Copy, Default, PartialEq, Eq, PartialOrd, Ord, Hash)]
        pub struct $field($word);

        impl $field {
            $(
                pub(crate) const TABLES: &$crate::small::Tables =
                    &$crate::small::Tables::new($crate::small::Product::$product_of, $degree, $generator);
            )?

            /// The representation.
            #[inline]
            pub const fn to_bits(self) -> $word {
                self.0
            }
        }

        impl PrimeCharacteristicRing for $field {
            type PrimeSubfield = Gf2;

            const ZERO: $field = $field($zero);

            const ONE: $field = $field($one);

            #[inline]
            fn square(&self) -> $field {
                by_tables!($field $($product_of)?: square(self.0); on_one!($library::square: *self => $field))
            }

            #[inline]
            fn exp_u64(&self, exponent: u64) -> $field {
                on_one!($library::power: *self; exponent => $field)
            }

            // As many squarings as bits leave every element.
            #[inline]
            fn exp_power_of_2(&self, log: usize) -> $field {
                (0..log % Self::bits()).fold(*self, |power, _| power.square())
            }

            fn dot_product<const N: usize>(left: &[$field; N], right: &[$field; N]) -> $field {
                Self::dot_product_of_slices(left, right).expect("two arrays of one length")
            }
        }

        impl Packable for $field {}

        impl Field for $field {
            type Packing = Packed<$field, PACKING>;

            const DEGREE: u32 = $degree;

            const GENERATOR: $field = $field($generator);

            #[inline]
            fn try_inverse(&self) -> Option<$field> {
                if self.is_zero() {
                    return None;
                }
                // One inverse in the isomorphic field of the tower takes less than one here.
                $(return Some($field::from($tower::from(*self).inverse()));)?
                #[allow(unreachable_code)]
                Some(by_tables!($field $($product_of)?: inverse(self.0); on_one!($library::inverse: *self => $field)))
            }

            #[inline]
            fn try_sqrt(&self) -> Option<$field> {
                Some(by_tables!($field $($product_of)?: square_root(self.0); on_one!($library::square_root: *self => $field)))
            }

            fn interpolation_node(index: usize) -> $field {
                assert!(usize::BITS <= $degree || index >> ($degree % usize::BITS) == 0, "the field has no element {index}");
                $field(<$word>::of_number(index))
            }

            fn add_slices(left: &[$field], right: &[$field], sums: &mut [$field]) -> Result<(), Error> {
                Error::of(call!($library::add: [left], [right], [mut sums]))
            }

            fn multiply_slices(left: &[$field], right: &[$field], products: &mut [$field]) -> Result<(), Error> {
                Error::of(call!($library::multiply: [left], [right], [mut products]))
            }

            fn multiply_slice_by(values: &[$field], scalar: $field, products: &mut [$field]) -> Result<(), Error> {
                Error::of(call!($library::multiply_by: [values], scalar.0.scalar(), [mut products]))
            }

            fn add_scaled_slice(sums: &mut [$field], scalar: $field, values: &[$field]) -> Result<(), Error> {
                Error::of(call!($library::add_scaled: [mut sums], scalar.0.scalar(), [values]))
            }

            fn add_assign_slice(sums: &mut [$field], values: &[$field]) -> Result<(), Error> {
                Error::of(call!($library::add_in_place: [mut sums], [values]))
            }

            fn multiply_assign_slice(products: &mut [$field], values: &[$field]) -> Result<(), Error> {
                Error::of(call!($library::multiply_in_place: [mut products], [values]))
            }

            fn scale_slice(values: &mut [$field], scalar: $field) {
                succeed(call!($library::multiply_by_in_place: [mut values], scalar.0.scalar()));
            }

            fn square_assign_slice(values: &mut [$field]) {
                succeed(call!($library::square_in_place: [mut values]));
            }

            fn invert_assign_slice(values: &mut [$field]) {
                succeed(call!($library::inverse_in_place: [mut values]));
            }

            fn square_root_assign_slice(values: &mut [$field]) {
                succeed(call!($library::square_root_in_place: [mut values]));
            }

            fn power_assign_slice(values: &mut [$field], exponent: u64) {
                succeed(call!($library::power_in_place: [mut values], exponent));
            }

            fn square_slice(values: &[$field], squares: &mut [$field]) -> Result<(), Error> {
                Error::of(call!($library::square: [values], [mut squares]))
            }

            fn square_root_slice(values: &[$field], roots: &mut [$field]) -> Result<(), Error> {
                Error::of(call!($library::square_root: [values], [mut roots]))
            }

            fn inverse_slice(values: &[$field], inverses: &mut [$field]) -> Result<(), Error> {
                Error::of(call!($library::inverse: [values], [mut inverses]))
            }

            fn batch_inverse_slice(values: &[$field], inverses: &mut [$field]) -> Result<(), Error> {
                Error::of(call!($library::batch_inverse: [values], [mut inverses]))
            }

            fn power_slice(values: &[$field], exponent: u64, powers: &mut [$field]) -> Result<(), Error> {
                Error::of(call!($library::power: [values], exponent, [mut powers]))
            }

            fn product_of_slice(values: &[$field]) -> $field {
                let mut result = $field::ZERO;
                succeed(call!($library::product: [values], (&raw mut result).cast()));
                result
            }

            fn dot_product_of_slices(left: &[$field], right: &[$field]) -> Result<$field, Error> {
                let mut result = $field::ZERO;
                Error::of(call!($library::dot_product: [left], [right], (&raw mut result).cast()))?;
                Ok(result)
            }

            fn evaluate(coefficients: &[$field], points: &[$field], values: &mut [$field]) -> Result<(), Error> {
                Error::of(call!($library::evaluate: [coefficients], [points], [mut values]))
            }
        }

        impl Add for $field {
            type Output = $field;

            #[inline]
            fn add(self, other: $field) -> $field {
                $field(self.0.plus(other.0))
            }
        }

        // In characteristic two a difference is a sum.
        impl Sub for $field {
            type Output = $field;

            #[inline]
            #[allow(clippy::suspicious_arithmetic_impl)]
            fn sub(self, other: $field) -> $field {
                self + other
            }
        }

        impl Mul for $field {
            type Output = $field;

            #[inline]
            fn mul(self, other: $field) -> $field {
                by_tables!($field $($product_of)?: multiply(self.0, other.0); on_one!($library::multiply: self, other => $field))
            }
        }

        /// It panics where the divisor is 0, as integers do.
        impl Div for $field {
            type Output = $field;

            #[inline]
            #[allow(clippy::suspicious_arithmetic_impl)]
            fn div(self, other: $field) -> $field {
                self * other.try_inverse().expect("a division by 0")
            }
        }

        impl Neg for $field {
            type Output = $field;

            #[inline]
            fn neg(self) -> $field {
                self
            }
        }

        by_reference!($field: Add add AddAssign add_assign, Sub sub SubAssign sub_assign, Mul mul MulAssign mul_assign, Div div DivAssign div_assign);

        impl Sum for $field {
            fn sum<I: Iterator<Item = $field>>(values: I) -> $field {
                values.fold($field::ZERO, |sum, it| sum + it)
            }
        }

        impl<'a> Sum<&'a $field> for $field {
            fn sum<I: Iterator<Item = &'a $field>>(values: I) -> $field {
                values.copied().sum()
            }
        }

        impl Product for $field {
            fn product<I: Iterator<Item = $field>>(values: I) -> $field {
                values.fold($field::ONE, |product, it| product * it)
            }
        }

        impl<'a> Product<&'a $field> for $field {
            fn product<I: Iterator<Item = &'a $field>>(values: I) -> $field {
                values.copied().product()
            }
        }

        /// The number of the representation; of `Poly192` the array of its coefficients.
        #[cfg(feature = "serde")]
        impl serde::Serialize for $field {
            fn serialize<S: serde::Serializer>(&self, serializer: S) -> Result<S::Ok, S::Error> {
                self.0.serialize(serializer)
            }
        }

        /// It refuses a number above the field.
        #[cfg(feature = "serde")]
        impl<'de> serde::Deserialize<'de> for $field {
            fn deserialize<D: serde::Deserializer<'de>>(deserializer: D) -> Result<$field, D::Error> {
                let word = <$word>::deserialize(deserializer)?;
                if word.truncated($degree) != word {
                    return Err(serde::de::Error::custom("Value is out of range"));
                }
                Ok($field(word))
            }
        }

        /// Every element is as likely as every other.
        #[cfg(feature = "rand")]
        impl rand::distributions::Distribution<$field> for rand::distributions::Standard {
            fn sample<R: rand::Rng + ?Sized>(&self, source: &mut R) -> $field {
                $field(source.r#gen::<$word>().truncated($degree))
            }
        }

        #[cfg(feature = "num-traits")]
        impl num_traits::Zero for $field {
            fn zero() -> $field {
                $field::ZERO
            }

            fn is_zero(&self) -> bool {
                Field::is_zero(self)
            }
        }

        #[cfg(feature = "num-traits")]
        impl num_traits::One for $field {
            fn one() -> $field {
                $field::ONE
            }
        }

        /// It panics where the element is ZERO.
        #[cfg(feature = "num-traits")]
        impl num_traits::Inv for $field {
            type Output = $field;

            fn inv(self) -> $field {
                self.inverse()
            }
        }

        #[cfg(feature = "num-traits")]
        impl num_traits::Pow<u64> for $field {
            type Output = $field;

            fn pow(self, exponent: u64) -> $field {
                self.exp_u64(exponent)
            }
        }

        /// The number of the representation, as `Display` has it.
        impl fmt::Debug for $field {
            fn fmt(&self, formatter: &mut fmt::Formatter<'_>) -> fmt::Result {
                self.0.debug(formatter)
            }
        }

        /// The number of the representation; of `Poly192` the coefficients of 1, y and y^2.
        impl fmt::Display for $field {
            fn fmt(&self, formatter: &mut fmt::Formatter<'_>) -> fmt::Result {
                self.0.show(formatter)
            }
        }

        impl fmt::LowerHex for $field {
            fn fmt(&self, formatter: &mut fmt::Formatter<'_>) -> fmt::Result {
                self.0.hexadecimal(formatter)
            }
        }

        /// What `Display` writes, or hexadecimal digits behind `0x`.
        impl FromStr for $field {
            type Err = ParseError;

            fn from_str(text: &str) -> Result<$field, ParseError> {
                match <$word>::read(text) {
                    Some(word) if word.truncated($degree) == word => Ok($field(word)),
                    _ => Err(ParseError),
                }
            }
        }
    };
}

/// What fields of so many bytes of one word have: constructors, bytes, numbers.
macro_rules! whole_words {
    ($($field:ident($word:ty, $bytes:literal),)*) => {$(
        impl $field {
            /// The element with this representation.
            #[inline]
            pub const fn new(bits: $word) -> $field {
                $field(bits)
            }

            /// The element whose representation has these bytes, the lowest first.
            #[inline]
            pub const fn from_le_bytes(bytes: [u8; $bytes]) -> $field {
                $field(<$word>::from_le_bytes(bytes))
            }

            /// The bytes of the representation, the lowest first.
            #[inline]
            pub const fn into_bytes(self) -> [u8; $bytes] {
                self.0.to_le_bytes()
            }
        }

        impl From<$word> for $field {
            fn from(bits: $word) -> $field {
                $field(bits)
            }
        }

        impl From<$field> for $word {
            fn from(element: $field) -> $word {
                element.0
            }
        }
    )*};
}

/// What fields of less than a byte have: constructors, bytes, numbers.
macro_rules! parts_of_bytes {
    ($($field:ident),*) => {$(
        impl $field {
            /// The element with this representation, where it is one.
            pub const fn new(bits: u8) -> Option<$field> {
                if bits >> $field::DEGREE == 0 { Some($field(bits)) } else { None }
            }

            /// The element of the lowest bits of a byte.
            #[inline]
            pub const fn from_le_bytes(bytes: [u8; 1]) -> $field {
                $field(bytes[0] & u8::MAX >> (8 - $field::DEGREE))
            }

            /// The byte of the representation.
            #[inline]
            pub const fn into_bytes(self) -> [u8; 1] {
                [self.0]
            }
        }

        impl TryFrom<u8> for $field {
            type Error = ParseError;

            fn try_from(bits: u8) -> Result<$field, ParseError> {
                $field::new(bits).ok_or(ParseError)
            }
        }

        impl From<$field> for u8 {
            fn from(element: $field) -> u8 {
                element.0
            }
        }
    )*};
}

/// Levels of the tower, and fields in a polynomial basis beside them: the root that the level adjoins, and the Cantor vectors.
macro_rules! levels {
    ($($field:ident($word:ty, $log_bits:literal), $alpha:expr, $cantor:expr;)*) => {$(
        impl Sealed for $field {}

        impl TowerLevel for $field {
            type Repr = $word;

            const LOG_BITS: usize = $log_bits;

            #[inline]
            fn from_repr(bits: $word) -> $field {
                $field(bits.truncated($field::DEGREE))
            }

            #[inline]
            fn to_repr(self) -> $word {
                self.0
            }

            fn mul_alpha(self) -> $field {
                self * $field($alpha)
            }

            fn from_le_byte_iter(mut bytes: impl Iterator<Item = u8>) -> $field {
                $field::from_le_bytes(core::array::from_fn(|_| bytes.next().expect("the bytes of a whole element")))
            }

            fn cantor_basis(index: usize) -> $field {
                const VECTORS: [$word; 1 << $log_bits] = $cantor;
                $field(VECTORS[index])
            }
        }
    )*};
}

/// Changes of basis: one element by `From`, and slices.
macro_rules! bases {
    ($($from:ident $to:ident $function:ident;)*) => {$(
        impl From<$from> for $to {
            #[inline]
            fn from(value: $from) -> $to {
                on_one!($function: value => $to)
            }
        }

        impl $to {
            /// Writes the images of elements in the isomorphic field. The slices have one length.
            pub fn from_slice(values: &[$from], images: &mut [$to]) -> Result<(), Error> {
                Error::of(call!($function: [values], [mut images]))
            }
        }
    )*};
}

/// Subfields: their elements by `From`, and in operators beside those of the field.
macro_rules! embeddings {
    ($($from:ident => $to:ident by |$it:ident| $image:expr;)*) => {$(
        impl From<$from> for $to {
            #[inline]
            fn from($it: $from) -> $to {
                $image
            }
        }
    )*};
}

/// Operators between a field and a subfield.
macro_rules! subfields {
    ($($from:ident => $to:ident;)*) => {$(
        mixed!($to $from: Add add AddAssign add_assign, Sub sub SubAssign sub_assign, Mul mul MulAssign mul_assign);

        impl Algebra<$from> for $to {}
    )*};
}

/// Extensions whose elements are arrays of those of the field below.
macro_rules! extensions {
    ($($from:ident => $to:ident, $dimension:literal, $name:literal;)*) => {$(
        impl AlgebraIdentity<$from> for $to {
            fn algebra_id() -> Vec<u8> {
                $name.to_vec()
            }
        }

        impl BasedVectorSpace<$from> for $to {
            const DIMENSION: usize = $dimension;

            fn as_basis_coefficients_slice(&self) -> &[$from] {
                const { assert!(cfg!(target_endian = "little")) };
                let first = core::ptr::from_ref(self).cast::<$from>();
                // SAFETY: both types are transparent over words, of which the larger has the smaller ones, the lowest first. All
                // words are elements.
                unsafe { core::slice::from_raw_parts(first, $dimension) }
            }

            fn from_basis_coefficients_fn<F: FnMut(usize) -> $from>(mut coefficient: F) -> $to {
                let coefficients: [$from; $dimension] = core::array::from_fn(&mut coefficient);
                // SAFETY: as above.
                unsafe { core::ptr::from_ref(&coefficients).cast::<$to>().read_unaligned() }
            }
        }

        impl HasFrobenius<$from> for $to {}

        impl ExtensionField<$from> for $to {
            type ExtensionPacking = Packed<$to, PACKING>;

            fn as_base(&self) -> Option<$from> {
                let coefficients: &[$from] = self.as_basis_coefficients_slice();
                coefficients[1..].iter().all(Field::is_zero).then(|| coefficients[0])
            }
        }
    )*};
}

/// The cubic extension: its elements by their coefficients over the field below.
macro_rules! cubic {
    ($field:ident over $below:ident) => {
        impl $field {
            /// The element with these coefficients of 1, y and y^2.
            pub const fn new(coefficients: [$below; 3]) -> $field {
                $field([coefficients[0].0, coefficients[1].0, coefficients[2].0])
            }

            /// The coefficients of 1, y and y^2.
            pub const fn coefficients(self) -> [$below; 3] {
                [$below(self.0[0]), $below(self.0[1]), $below(self.0[2])]
            }

            /// The product, by nine products of coefficients, where y^3 = y + 1: to compare with.
            pub fn composed_mul(self, other: $field) -> $field {
                let mut products = [$below::ZERO; 5];
                for (i, a) in self.coefficients().into_iter().enumerate() {
                    for (j, b) in other.coefficients().into_iter().enumerate() {
                        products[i + j] += a * b;
                    }
                }
                let [c0, c1, c2, c3, c4] = products;
                $field::new([c0 + c3, c1 + c3 + c4, c2 + c4])
            }

            /// The bytes of the coefficients, that of 1 first, the lowest byte of each first.
            pub fn into_bytes(self) -> [u8; 24] {
                core::array::from_fn(|place| self.0[place / 8].to_le_bytes()[place % 8])
            }
        }

        /// It panics where the divisor is 0.
        impl Div<$below> for $field {
            type Output = $field;

            #[inline]
            fn div(self, divisor: $below) -> $field {
                self / $field::from(divisor)
            }
        }

        impl DivAssign<$below> for $field {
            fn div_assign(&mut self, divisor: $below) {
                *self = *self / divisor;
            }
        }

        impl From<[u64; 3]> for $field {
            fn from(coefficients: [u64; 3]) -> $field {
                $field(coefficients)
            }
        }
    };
}

/// Elements as bytes, by their own methods.
macro_rules! as_bytes {
    ($($field:ident $bytes:literal),*) => {$(
        impl RawDataSerializable for $field {
            const NUM_BYTES: usize = $bytes;

            #[allow(refining_impl_trait)]
            fn into_bytes(self) -> [u8; $bytes] {
                $field::into_bytes(self)
            }
        }
    )*};
}
