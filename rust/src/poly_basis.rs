//! The field of GHASH over plain numbers of 128 bits: bit i is the coefficient of x^i.

use crate::functions::{bf_g128_to_t128, bf_t128_to_g128, g128};
use crate::{BinaryField128, Error, Ghash128, PrimeCharacteristicRing, maps};

/// Whether products use an instruction of the processor: none does.
///
/// ```
/// assert!(!binary_field::poly_basis::HAS_HARDWARE_CLMUL);
/// ```
pub const HAS_HARDWARE_CLMUL: bool = false;

/// How many stages `LowStageTwiddles::forward` runs.
///
/// ```
/// assert_eq!(1 << binary_field::poly_basis::LOW_STAGES, 16);
/// ```
pub const LOW_STAGES: usize = 4;

// How many numbers are changed in place at once.
const BLOCK: usize = 64;

// The most elements of a basis.
const LONGEST_BASIS: usize = 128;

/// The image of an element of the tower.
///
/// ```
/// use binary_field::BinaryField128;
/// use binary_field::poly_basis::{from_tower, mul, to_tower};
///
/// let (x, y) = (BinaryField128::new(1 << 64), BinaryField128::new(1 << 100));
/// assert_eq!(to_tower(mul(from_tower(x), from_tower(y))), x * y);
/// ```
pub fn from_tower(element: BinaryField128) -> u128 {
    Ghash128::from(element).to_bits()
}

/// The element of the tower whose image it is.
///
/// ```
/// use binary_field::BinaryField128;
/// use binary_field::poly_basis::{from_tower, mul, to_tower};
///
/// let (x, y) = (BinaryField128::new(1 << 64), BinaryField128::new(1 << 100));
/// assert_eq!(to_tower(mul(from_tower(x), from_tower(y))), x * y);
/// ```
pub fn to_tower(number: u128) -> BinaryField128 {
    BinaryField128::from(Ghash128::new(number))
}

/// Leaves the image of each element of the tower.
///
/// ```
/// use binary_field::BinaryField128;
/// use binary_field::poly_basis::{from_tower, from_tower_slice, to_tower_slice};
///
/// let mut values = [1 << 64, 1];
/// from_tower_slice(&mut values);
/// assert_eq!(values, [from_tower(BinaryField128::new(1 << 64)), 1]);
/// to_tower_slice(&mut values);
/// assert_eq!(values, [1 << 64, 1]);
/// ```
pub fn from_tower_slice(values: &mut [u128]) {
    in_place(
        values,
        |block, images| call!(bf_t128_to_g128: [block], [mut images]),
    );
}

/// Leaves the element of the tower whose image each number is.
///
/// ```
/// use binary_field::BinaryField128;
/// use binary_field::poly_basis::{from_tower, from_tower_slice, to_tower_slice};
///
/// let mut values = [1 << 64, 1];
/// from_tower_slice(&mut values);
/// assert_eq!(values, [from_tower(BinaryField128::new(1 << 64)), 1]);
/// to_tower_slice(&mut values);
/// assert_eq!(values, [1 << 64, 1]);
/// ```
pub fn to_tower_slice(values: &mut [u128]) {
    in_place(
        values,
        |block, images| call!(bf_g128_to_t128: [block], [mut images]),
    );
}

/// The product.
///
/// ```
/// assert_eq!(binary_field::poly_basis::mul(1 << 127, 2), 0x87);
/// ```
pub fn mul(left: u128, right: u128) -> u128 {
    (Ghash128::new(left) * Ghash128::new(right)).to_bits()
}

/// The square.
///
/// ```
/// assert_eq!(binary_field::poly_basis::square(1 << 64), 0x87);
/// ```
pub fn square(value: u128) -> u128 {
    Ghash128::new(value).square().to_bits()
}

/// Multiplies each number by the scalar.
///
/// ```
/// let mut values = [1 << 127, 3];
/// binary_field::poly_basis::mul_slice(&mut values, 2);
/// assert_eq!(values, [0x87, 6]);
/// ```
pub fn mul_slice(values: &mut [u128], scalar: u128) {
    let scalar = (&raw const scalar).cast();
    in_place(
        values,
        |block, products| call!(g128::multiply_by: [block], scalar, [mut products]),
    );
}

/// low += scalar · high, and then high += low, at each place.
///
/// # Panics
///
/// Where the lengths differ.
///
/// ```
/// use binary_field::poly_basis::{butterfly_forward, butterfly_inverse};
///
/// let (mut low, mut high) = ([5], [3]);
/// butterfly_forward(&mut low, &mut high, 2);
/// assert_eq!((low, high), ([3], [0]));
/// butterfly_inverse(&mut low, &mut high, 2);
/// assert_eq!((low, high), ([5], [3]));
/// ```
pub fn butterfly_forward(low: &mut [u128], high: &mut [u128], scalar: u128) {
    let scalar = Ghash128::new(scalar);
    maps::butterfly_forward(elements(low), elements(high), scalar)
        .expect("two slices of one length");
}

/// high += low, and then low += scalar · high, at each place.
///
/// # Panics
///
/// Where the lengths differ.
///
/// ```
/// use binary_field::poly_basis::{butterfly_forward, butterfly_inverse};
///
/// let (mut low, mut high) = ([5], [3]);
/// butterfly_forward(&mut low, &mut high, 2);
/// assert_eq!((low, high), ([3], [0]));
/// butterfly_inverse(&mut low, &mut high, 2);
/// assert_eq!((low, high), ([5], [3]));
/// ```
pub fn butterfly_inverse(low: &mut [u128], high: &mut [u128], scalar: u128) {
    let scalar = Ghash128::new(scalar);
    maps::butterfly_inverse(elements(low), elements(high), scalar)
        .expect("two slices of one length");
}

/// The factors of the four lowest stages of an additive transform.
///
/// ```
/// use binary_field::poly_basis::LowStageTwiddles;
///
/// let twiddles = LowStageTwiddles::new(&[0; 4], &[2, 4, 8]);
/// let mut values = [0; 16];
/// values[0] = 9;
/// twiddles.forward(&mut values, 0);
/// assert_eq!(values, [9; 16]);
/// ```
#[derive(Clone, Debug)]
pub struct LowStageTwiddles {
    shifts: [Ghash128; LOW_STAGES],
    basis: [Ghash128; LONGEST_BASIS],
    length: usize,
}

impl LowStageTwiddles {
    /// The stages in which the factor of stage j at place p is `shifts[j]`, and `basis[t]` for each set bit t of p >> (j + 1).
    ///
    /// # Panics
    ///
    /// Where there are fewer than four shifts, fewer than three elements of the basis, or more than 128.
    pub fn new(shifts: &[u128], basis: &[u128]) -> LowStageTwiddles {
        assert!(shifts.len() >= LOW_STAGES, "each stage has a shift");
        assert!(
            (LOW_STAGES - 1..=LONGEST_BASIS).contains(&basis.len()),
            "a run of sixteen has a basis of 3 to 128"
        );
        let mut kept = [Ghash128::ZERO; LONGEST_BASIS];
        for (to, &from) in kept.iter_mut().zip(basis) {
            *to = Ghash128::new(from);
        }
        LowStageTwiddles {
            shifts: core::array::from_fn(|stage| Ghash128::new(shifts[stage])),
            basis: kept,
            length: basis.len(),
        }
    }

    /// Runs the stages over runs of sixteen values, the first of which is run `first_run`.
    ///
    /// # Panics
    ///
    /// Where the values are no whole runs, or where a run is beyond the basis.
    pub fn forward(&self, values: &mut [u128], first_run: usize) {
        let basis = &self.basis[..self.length];
        maps::low_stages(elements(values), &self.shifts, basis, first_run)
            .expect("whole runs that the basis reaches");
    }
}

// Numbers as elements.
fn elements(numbers: &mut [u128]) -> &mut [Ghash128] {
    // SAFETY: an element is transparent over its number, and every number is one.
    unsafe { &mut *(core::ptr::from_mut(numbers) as *mut [Ghash128]) }
}

// Leaves what a call writes for the numbers, block by block, since it writes beside what it reads.
fn in_place(values: &mut [u128], call: impl Fn(&[u128], &mut [u128]) -> u32) {
    let mut copied = [0; BLOCK];
    for block in values.chunks_mut(BLOCK) {
        let copied = &mut copied[..block.len()];
        copied.copy_from_slice(block);
        Error::of(call(copied, block)).expect("two slices of one length");
    }
}
