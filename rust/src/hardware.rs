//! Functions by the processor's carryless multiply instruction. They are not proved: before the first call they are compared in this
//! process with the proved ones, products on a basis, which determines them, and schedules (transforms, hashes of many blocks) at drawn
//! operands, which is not complete.

use crate::error::succeed;
use crate::hardware_functions::*;
use crate::{BinaryField64, BinaryField128, Error, Field, Ghash, Ghash128, Poly64, Polyval};

/// That all functions by the carryless multiply instruction were compared with the proved ones and may be called. What else this crate
/// has goes by the proved functions, whether there is such a value or not. Each method gives what the function of its name gives.
///
/// ```
/// use binary_field::{Field, Ghash128, Hardware, PrimeCharacteristicRing};
///
/// let (a, b) = (Ghash128::new(1 << 127), Ghash128::new(2));
/// let mut products = [Ghash128::ZERO];
/// match Hardware::begin() {
///     Some(hardware) => hardware.multiply(&[a], &[b], &mut products)?,
///     None => Ghash128::multiply_slices(&[a], &[b], &mut products)?,
/// }
/// assert_eq!(products, [a * b]);
/// # Ok::<(), binary_field::Error>(())
/// ```
#[derive(Clone, Copy, Debug)]
pub struct Hardware(());

/// A field whose slices `Hardware` computes on: `Ghash128` and `Poly64`.
///
/// ```
/// use binary_field::{Carryless, Hardware, PrimeCharacteristicRing};
///
/// /// The product of each element with itself, by the instruction where there is one.
/// fn products<F: Carryless>(values: &[F]) -> Vec<F> {
///     let mut products = vec![F::ZERO; values.len()];
///     let by = Hardware::begin().map(|it| it.multiply(values, values, &mut products));
///     by.unwrap_or_else(|| F::multiply_slices(values, values, &mut products)).unwrap();
///     products
/// }
/// assert_eq!(products(&[binary_field::Poly64::new(3)]), [binary_field::Poly64::new(5)]);
/// ```
pub trait Carryless: Field {
    #[doc(hidden)]
    fn each_product(left: &[Self], right: &[Self], products: &mut [Self]) -> u32;
    #[doc(hidden)]
    fn each_scaled(values: &[Self], scalar: Self, products: &mut [Self]) -> u32;
    #[doc(hidden)]
    fn add_each_scaled(sums: &mut [Self], scalar: Self, values: &[Self]) -> u32;
    #[doc(hidden)]
    fn each_square(values: &[Self], squares: &mut [Self]) -> u32;
    #[doc(hidden)]
    fn each_inverse(values: &[Self], inverses: &mut [Self]) -> u32;
    #[doc(hidden)]
    fn each_power(values: &[Self], exponent: u64, powers: &mut [Self]) -> u32;
    #[doc(hidden)]
    fn sum_of_products(left: &[Self], right: &[Self], sum: &mut Self) -> u32;
    #[doc(hidden)]
    fn each_value(coefficients: &[Self], points: &[Self], values: &mut [Self]) -> u32;
}

macro_rules! carryless {
    ($($field:ident |$it:ident| $scalar:expr; $products:ident $products_by:ident $scaled:ident $squares:ident $inverses:ident $powers:ident
       $sum:ident $values:ident)*) => {$(
        impl Carryless for $field {
            fn each_product(left: &[Self], right: &[Self], products: &mut [Self]) -> u32 {
                call!($products: [left], [right], [mut products])
            }

            fn each_scaled(values: &[Self], $it: Self, products: &mut [Self]) -> u32 {
                call!($products_by: [values], $scalar, [mut products])
            }

            fn add_each_scaled(sums: &mut [Self], $it: Self, values: &[Self]) -> u32 {
                call!($scaled: [mut sums], $scalar, [values])
            }

            fn each_square(values: &[Self], squares: &mut [Self]) -> u32 {
                call!($squares: [values], [mut squares])
            }

            fn each_inverse(values: &[Self], inverses: &mut [Self]) -> u32 {
                call!($inverses: [values], [mut inverses])
            }

            fn each_power(values: &[Self], exponent: u64, powers: &mut [Self]) -> u32 {
                call!($powers: [values], exponent, [mut powers])
            }

            fn sum_of_products(left: &[Self], right: &[Self], sum: &mut Self) -> u32 {
                call!($sum: [left], [right], (&raw mut *sum).cast())
            }

            fn each_value(coefficients: &[Self], points: &[Self], values: &mut [Self]) -> u32 {
                call!($values: [coefficients], [points], [mut values])
            }
        }
    )*};
}

carryless! {
    Ghash128 |it| (&raw const it).cast(); bf_hw_g128_multiply bf_hw_g128_multiply_by bf_hw_g128_add_scaled bf_hw_g128_square
        bf_hw_g128_inverse bf_hw_g128_power bf_hw_g128_dot_product bf_hw_g128_evaluate
    Poly64 |it| it.to_bits(); bf_hw_p64_multiply bf_hw_p64_multiply_by bf_hw_p64_add_scaled bf_hw_p64_square
        bf_hw_p64_inverse bf_hw_p64_power bf_hw_p64_dot_product bf_hw_p64_evaluate
}

/// A hash of a message in pieces that `Hardware` goes on with: `Ghash` and `Polyval`. What their own methods left and what `Hardware` left
/// is the same, so that a message may go by both.
///
/// ```
/// use binary_field::{Ghash, Hardware, ghash};
///
/// if let Some(hardware) = Hardware::begin() {
///     let mut hash: Ghash = hardware.new_hash(&[7; 16]);
///     hardware.update(&mut hash, b"one piece, ");
///     hash.update(b"and another");
///     assert_eq!(hardware.finalize(hash), ghash(&[7; 16], b"one piece, and another"));
/// }
/// ```
pub trait HashInPieces: Sized {
    #[doc(hidden)]
    fn of_key(key: &[u8; 16]) -> Self;
    #[doc(hidden)]
    fn add(&mut self, message: &[u8]);
    #[doc(hidden)]
    fn fill_up(&mut self);
    #[doc(hidden)]
    fn take(&mut self) -> [u8; 16];
}

macro_rules! in_pieces {
    ($($hash:ident $init:ident $update:ident $pad:ident $last:ident)*) => {$(
        impl HashInPieces for $hash {
            fn of_key(key: &[u8; 16]) -> Self {
                let mut state = [0; 13];
                succeed(call!($init: &raw mut state, [key]));
                $hash(state)
            }

            fn add(&mut self, message: &[u8]) {
                succeed(call!($update: &raw mut self.0, [message]));
            }

            fn fill_up(&mut self) {
                succeed(call!($pad: &raw mut self.0));
            }

            fn take(&mut self) -> [u8; 16] {
                let mut hash = [0; 16];
                succeed(call!($last: &raw mut self.0, [mut hash]));
                hash
            }
        }
    )*};
}

in_pieces! {
    Ghash bf_hw_tag_ghash_init bf_hw_tag_ghash_update bf_hw_tag_ghash_pad bf_hw_tag_ghash_final
    Polyval bf_hw_tag_polyval_init bf_hw_tag_polyval_update bf_hw_tag_polyval_pad bf_hw_tag_polyval_final
}

macro_rules! hashes {
    ($($(#[$about:meta])* $name:ident = $function:ident;)*) => {$(
        $(#[$about])*
        pub fn $name(&self, key: &[u8; 16], message: &[u8]) -> [u8; 16] {
            let mut hash = [0; 16];
            succeed(call!($function: [key], [message], [mut hash]));
            hash
        }
    )*};
}

impl Hardware {
    /// The functions, where the processor has the instruction and none of them differs from the proved one. The first call in a process
    /// compares them, in some 7 ms; threads may call it at the same time.
    pub fn begin() -> Option<Hardware> {
        // SAFETY: it takes no pointer.
        (unsafe { bf_hw_begin(ALL) } == crate::functions::BF_OK).then_some(Hardware(()))
    }

    /// Writes the product of the elements at each place.
    pub fn multiply<F: Carryless>(
        &self,
        left: &[F],
        right: &[F],
        products: &mut [F],
    ) -> Result<(), Error> {
        Error::of(F::each_product(left, right, products))
    }

    /// Writes the product of each element and the scalar.
    pub fn multiply_by<F: Carryless>(
        &self,
        values: &[F],
        scalar: F,
        products: &mut [F],
    ) -> Result<(), Error> {
        Error::of(F::each_scaled(values, scalar, products))
    }

    /// Adds to each sum the scalar times the value at its place.
    pub fn add_scaled<F: Carryless>(
        &self,
        sums: &mut [F],
        scalar: F,
        values: &[F],
    ) -> Result<(), Error> {
        Error::of(F::add_each_scaled(sums, scalar, values))
    }

    /// Writes the square of each element.
    pub fn square<F: Carryless>(&self, values: &[F], squares: &mut [F]) -> Result<(), Error> {
        Error::of(F::each_square(values, squares))
    }

    /// Writes the inverse of each element, and 0 for 0.
    pub fn inverse<F: Carryless>(&self, values: &[F], inverses: &mut [F]) -> Result<(), Error> {
        Error::of(F::each_inverse(values, inverses))
    }

    /// Writes each element to the power of the exponent; to the power 0 it is 1.
    pub fn power<F: Carryless>(
        &self,
        values: &[F],
        exponent: u64,
        powers: &mut [F],
    ) -> Result<(), Error> {
        Error::of(F::each_power(values, exponent, powers))
    }

    /// The sum of the products at each place.
    pub fn dot_product<F: Carryless>(&self, left: &[F], right: &[F]) -> Result<F, Error> {
        let mut sum = F::ZERO;
        Error::of(F::sum_of_products(left, right, &mut sum))?;
        Ok(sum)
    }

    /// Writes the value at each point of the polynomial with these coefficients, the constant one first.
    pub fn evaluate<F: Carryless>(
        &self,
        coefficients: &[F],
        points: &[F],
        values: &mut [F],
    ) -> Result<(), Error> {
        Error::of(F::each_value(coefficients, points, values))
    }

    /// The product of two elements of the tower.
    pub fn product_64(&self, left: BinaryField64, right: BinaryField64) -> BinaryField64 {
        let mut product = [left];
        succeed(call!(bf_hw_t64_multiply_in_place: [mut product], [[right]]));
        product[0]
    }

    /// The product of two elements of the tower.
    pub fn product_128(&self, left: BinaryField128, right: BinaryField128) -> BinaryField128 {
        let mut product = [left];
        succeed(call!(bf_hw_t128_multiply_in_place: [mut product], [[right]]));
        product[0]
    }

    /// low += scalar * high, and then high += low, at each place.
    pub fn butterfly_forward(
        &self,
        low: &mut [Ghash128],
        high: &mut [Ghash128],
        scalar: Ghash128,
    ) -> Result<(), Error> {
        Error::of(
            call!(bf_hw_g128_butterfly_forward: [mut low], [mut high], (&raw const scalar).cast()),
        )
    }

    /// high += low, and then low += scalar * high, at each place.
    pub fn butterfly_inverse(
        &self,
        low: &mut [Ghash128],
        high: &mut [Ghash128],
        scalar: Ghash128,
    ) -> Result<(), Error> {
        Error::of(
            call!(bf_hw_g128_butterfly_inverse: [mut low], [mut high], (&raw const scalar).cast()),
        )
    }

    /// Runs the four lowest stages over runs of sixteen values, as [`low_stages`](crate::low_stages).
    pub fn low_stages(
        &self,
        values: &mut [Ghash128],
        shifts: &[Ghash128],
        basis: &[Ghash128],
        first_run: usize,
    ) -> Result<(), Error> {
        Error::of(call!(bf_hw_g128_low_stages: [mut values], [shifts], [basis], first_run))
    }

    /// Leaves the values of a polynomial, as [`transform`](crate::transform).
    pub fn transform(&self, values: &mut [Ghash128], shift: Ghash128) -> Result<(), Error> {
        Error::of(call!(bf_hw_g128_transform: [mut values], (&raw const shift).cast()))
    }

    /// Leaves the coefficients of a polynomial, as [`inverse_transform`](crate::inverse_transform).
    pub fn inverse_transform(&self, values: &mut [Ghash128], shift: Ghash128) -> Result<(), Error> {
        Error::of(call!(bf_hw_g128_inverse_transform: [mut values], (&raw const shift).cast()))
    }

    hashes! {
        /// GHASH of a message, zeros added to whole blocks.
        ghash = bf_hw_tag_ghash;
        /// POLYVAL of a message, zeros added to whole blocks.
        polyval = bf_hw_tag_polyval;
    }

    /// The hash of GCM over associated data and ciphertext.
    pub fn gcm_ghash(&self, key: &[u8; 16], associated: &[u8], ciphertext: &[u8]) -> [u8; 16] {
        let mut hash = [0; 16];
        succeed(call!(bf_hw_tag_gcm_ghash: [key], [associated], [ciphertext], [mut hash]));
        hash
    }

    /// The hash of the empty message under the key.
    pub fn new_hash<H: HashInPieces>(&self, key: &[u8; 16]) -> H {
        H::of_key(key)
    }

    /// Adds bytes to the message of a hash, of any number.
    pub fn update<H: HashInPieces>(&self, hash: &mut H, message: &[u8]) {
        hash.add(message)
    }

    /// Adds as many zeros as make the message whole blocks of 16 bytes, which may be none.
    pub fn pad<H: HashInPieces>(&self, hash: &mut H) {
        hash.fill_up()
    }

    /// The hash of the message, with zeros added to whole blocks. The message is then empty, under the same key.
    pub fn finalize_reset<H: HashInPieces>(&self, hash: &mut H) -> [u8; 16] {
        hash.take()
    }

    /// The hash of the message, with zeros added to whole blocks.
    pub fn finalize<H: HashInPieces>(&self, mut hash: H) -> [u8; 16] {
        hash.take()
    }

    /// The hash of GCM, as [`finalize_gcm`](Ghash::finalize_gcm).
    pub fn finalize_gcm(
        &self,
        mut hash: Ghash,
        associated_length: usize,
        ciphertext_length: usize,
    ) -> Result<[u8; 16], Error> {
        let mut of_gcm = [0; 16];
        Error::of(
            call!(bf_hw_tag_gcm_ghash_final: &raw mut hash.0, associated_length, ciphertext_length, [mut of_gcm]),
        )?;
        Ok(of_gcm)
    }
}
