//! The functions of the C library, as the crate binary-field declares them. It takes 128 bits as two numbers of 64, low half first,
//! which is how a `u128` lies in memory here.

use crate::arithmetic::{Arithmetic, ByteMaps, Cubic, Polynomials, Stages};
use crate::functions::*;
use binary_field::{Error, Ghash128, ReedSolomon};

/// A call of a function that reads slices and writes one, whose status is asserted.
macro_rules! call {
    ($function:path: ($($slice:expr),*; $($middle:expr),*; $out:expr)) => {{
        let out = $out;
        // SAFETY: the pointers and lengths are those of slices, of which the one that is written overlaps no other.
        let status = unsafe {
            $function($($slice.as_ptr().cast(), $slice.len(),)* $($middle,)* out.as_mut_ptr().cast(), out.len())
        };
        assert_eq!(status, BF_OK);
    }};
}

/// The functions of fields.
macro_rules! fields {
    ($($field:ident: $word:ty = $library:ident;)*) => {$(
        pub fn $field() -> Arithmetic<$word> {
            Arithmetic {
                multiply: |x, y, out| call!($library::multiply: (x, y; ; out)),
                product: |factors, product| {
                    // SAFETY: the pointers are those of a slice and of a word.
                    let status = unsafe {
                        $library::product(factors.as_ptr().cast(), factors.len(), (&raw mut *product).cast())
                    };
                    assert_eq!(status, BF_OK);
                },
                square: |x, out| call!($library::square: (x; ; out)),
                inverse: |x, out| call!($library::inverse: (x; ; out)),
                batch_inverse: Some(|x, out| call!($library::batch_inverse: (x; ; out))),
                square_root: |x, out| call!($library::square_root: (x; ; out)),
            }
        }
    )*};
}

fields! {
    field8: u8 = t8;
    field16: u16 = t16;
    field32: u32 = t32;
    field64: u64 = t64;
    field128: u128 = t128;
    rijndael: u8 = r8;
    poly64: u64 = p64;
    ghash128: u128 = g128;
    poly192: Cubic = p192;
}

/// What two fields of polynomials have besides. The library has no change of basis in place.
macro_rules! bases {
    ($($basis:ident: $word:ty = $library:ident $from_tower:ident $to_tower:ident, $linear_map:expr;)*) => {$(
        pub fn $basis() -> Polynomials<$word> {
            Polynomials {
                dot_product: |x, y, sum| {
                    // SAFETY: the pointers and lengths are those of slices, and of a word.
                    let status = unsafe {
                        $library::dot_product(x.as_ptr().cast(), x.len(), y.as_ptr().cast(), y.len(), (&raw mut *sum).cast())
                    };
                    assert_eq!(status, BF_OK);
                },
                from_tower: |x, out| call!($from_tower: (x; ; out)),
                to_tower: |x, out| call!($to_tower: (x; ; out)),
                from_tower_slice: None,
                to_tower_slice: None,
                linear_map: $linear_map,
            }
        }
    )*};
}

bases! {
    basis64: u64 = p64 bf_t64_to_p64 bf_p64_to_t64, None;
    basis128: u128 = g128 bf_t128_to_g128 bf_g128_to_t128, Some(|images, words, out| call!(bf_g128_linear_map: (words, images; ; out)));
}

/// Maps of bytes, and what is over bytes alone.
pub fn byte_maps() -> ByteMaps {
    ByteMaps {
        matrix: |images, bytes, out| call!(bf_r8_linear_map: (bytes, images; ; out)),
        scale: |scalar, bytes, out| call!(r8::multiply_by: (bytes; scalar; out)),
        encode: Some(|data, parity, shards| {
            let code = ReedSolomon::new(data, parity).expect("a code");
            code.encode(shards).expect("shards of one size");
        }),
        ghash: Some(|key, message, out| {
            let key: &[u8; 16] = key.try_into().expect("16 bytes");
            out[..16].copy_from_slice(&binary_field::ghash(key, message));
        }),
    }
}

/// Slices by one scalar, and stages of transforms.
pub fn stages() -> Stages {
    Stages {
        multiply_by: |scalar, values, out| {
            call!(g128::multiply_by: (values; (&raw const scalar).cast(); out));
        },
        butterfly_forward: |low, high, scalar| {
            check(binary_field::butterfly_forward(
                elements(low),
                elements(high),
                Ghash128::new(scalar),
            ));
        },
        butterfly_inverse: |low, high, scalar| {
            check(binary_field::butterfly_inverse(
                elements(low),
                elements(high),
                Ghash128::new(scalar),
            ));
        },
        low_stages: |values, shifts, basis| {
            let (shifts, basis) = (shifts.map(Ghash128::new), basis.map(Ghash128::new));
            check(binary_field::low_stages(
                elements(values),
                &shifts,
                &basis,
                0,
            ));
        },
        transform: Some(|values| {
            check(binary_field::transform(elements(values), Ghash128::new(0)))
        }),
    }
}

fn check(result: Result<(), Error>) {
    result.expect("lengths that fit");
}

// The elements that words hold, where they lie.
fn elements(words: &mut [u128]) -> &mut [Ghash128] {
    // SAFETY: the field is transparent over its word, and every word is an element.
    unsafe { &mut *(std::ptr::from_mut(words) as *mut [Ghash128]) }
}
