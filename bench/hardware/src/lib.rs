//! The Rust crate's functions with the parameters of the C library's, for bench/hardware.c alone. All arrays of a call have one length.

use p3_binary_field::poly_basis::{self, LowStageTwiddles};
use p3_binary_field::{BinaryField64, BinaryField128, Ghash128, Poly64, TowerLevel};
use p3_field::{Field, PrimeCharacteristicRing};
use std::slice::{from_raw_parts, from_raw_parts_mut};

macro_rules! field {
    ($field:ty, $word:ty, $multiply:ident $multiply_by:ident $square:ident $inverse:ident $dot:ident $in_place:ident) => {
        #[unsafe(no_mangle)]
        pub unsafe extern "C" fn $multiply(a: *const $word, n: usize, b: *const $word, _: usize, out: *mut $word, _: usize) -> u32 {
            let (a, b, out) = unsafe { (from_raw_parts(a, n), from_raw_parts(b, n), from_raw_parts_mut(out, n)) };
            for ((a, b), out) in a.iter().zip(b).zip(out) {
                *out = (<$field>::from_repr(*a) * <$field>::from_repr(*b)).to_repr();
            }
            0
        }

        #[unsafe(no_mangle)]
        pub unsafe extern "C" fn $square(a: *const $word, n: usize, out: *mut $word, _: usize) -> u32 {
            let (a, out) = unsafe { (from_raw_parts(a, n), from_raw_parts_mut(out, n)) };
            for (a, out) in a.iter().zip(out) {
                *out = <$field>::from_repr(*a).square().to_repr();
            }
            0
        }

        #[unsafe(no_mangle)]
        pub unsafe extern "C" fn $inverse(a: *const $word, n: usize, out: *mut $word, _: usize) -> u32 {
            let (a, out) = unsafe { (from_raw_parts(a, n), from_raw_parts_mut(out, n)) };
            for (a, out) in a.iter().zip(out) {
                *out = <$field>::from_repr(*a).inverse().to_repr();
            }
            0
        }

        /// Of 1,024 terms.
        #[unsafe(no_mangle)]
        pub unsafe extern "C" fn $dot(a: *const $word, _: usize, b: *const $word, _: usize, out: *mut $word) -> u32 {
            let (a, b, out) = unsafe { (&*(a as *const [$field; 1024]), &*(b as *const [$field; 1024]), &mut *out) };
            *out = <$field>::dot_product(a, b).to_repr();
            0
        }

        #[unsafe(no_mangle)]
        pub unsafe extern "C" fn $in_place(a: *mut $word, n: usize, b: *const $word, _: usize) -> u32 {
            let (a, b) = unsafe { (from_raw_parts_mut(a, n), from_raw_parts(b, n)) };
            for (a, b) in a.iter_mut().zip(b) {
                *a = (<$field>::from_repr(*a) * <$field>::from_repr(*b)).to_repr();
            }
            0
        }
    };
}

field!(Ghash128, u128, rs_g128_multiply rs_g128_scaled rs_g128_square rs_g128_inverse rs_g128_dot_product rs_g128_multiply_in_place);
field!(Poly64, u64, rs_p64_multiply rs_p64_scaled rs_p64_square rs_p64_inverse rs_p64_dot_product rs_p64_multiply_in_place);
field!(BinaryField128, u128, rs_t128_multiply rs_t128_scaled rs_t128_square rs_t128_inverse rs_t128_dot_product rs_t128_multiply_in_place);
field!(BinaryField64, u64, rs_t64_multiply rs_t64_scaled rs_t64_square rs_t64_inverse rs_t64_dot_product rs_t64_multiply_in_place);

/// The crate multiplies in place, so that the words are copied first.
#[unsafe(no_mangle)]
pub unsafe extern "C" fn rs_g128_multiply_by(a: *const u128, n: usize, scalar: *const u128, out: *mut u128, _: usize) -> u32 {
    let out = unsafe { from_raw_parts_mut(out, n) };
    out.copy_from_slice(unsafe { from_raw_parts(a, n) });
    poly_basis::mul_slice(out, unsafe { *scalar });
    0
}

#[unsafe(no_mangle)]
pub unsafe extern "C" fn rs_g128_butterfly_forward(low: *mut u128, n: usize, high: *mut u128, _: usize, scalar: *const u128) -> u32 {
    unsafe { poly_basis::butterfly_forward(from_raw_parts_mut(low, n), from_raw_parts_mut(high, n), *scalar) };
    0
}

/// The twiddles are made in each call.
#[unsafe(no_mangle)]
pub unsafe extern "C" fn rs_g128_low_stages(
    values: *mut u128,
    n: usize,
    shifts: *const u128,
    _: usize,
    basis: *const u128,
    length: usize,
    first_run: usize,
) -> u32 {
    let twiddles = unsafe { LowStageTwiddles::new(&*(shifts as *const [u128; 4]), from_raw_parts(basis, length)) };
    twiddles.forward(unsafe { from_raw_parts_mut(values, n) }, first_run);
    0
}

/// A transform with the shift 0 by the crate's butterflies and low stages. The twiddles are those of some basis and not of Cantor vectors,
/// which takes the same time.
#[unsafe(no_mangle)]
pub unsafe extern "C" fn rs_g128_transform(values: *mut u128, n: usize, _shift: *const u128) -> u32 {
    let values = unsafe { from_raw_parts_mut(values, n) };
    let basis: [u128; 40] = std::array::from_fn(|i| 0x9e37_79b9_7f4a_7c15_f39c_c060_5ced_c835u128.rotate_left(3 * i as u32));
    for j in (4..n.trailing_zeros() as usize).rev() {
        let half = 1 << j;
        for (block, pair) in values.chunks_exact_mut(2 * half).enumerate() {
            let twiddle = basis.iter().enumerate().filter(|&(t, _)| block >> t & 1 == 1).fold(0, |sum, (_, it)| sum ^ it);
            let (low, high) = pair.split_at_mut(half);
            poly_basis::butterfly_forward(low, high, twiddle);
        }
    }
    LowStageTwiddles::new(&[0; 4], &basis).forward(values, 0);
    0
}
