//! Times single operators: `cargo run --release --example operators [SAMPLES]` prints nanoseconds an operation, the
//! least of so many samples. The code is one over p3-binary-field but for the lines of `use`, so that both are
//! timed alike.
//!
//! A product, a square and an inverse are over 1,024 elements that do not wait for each other; in the last column
//! each product is a factor of the next.

use binary_field::{
    BinaryField8, BinaryField16, BinaryField32, BinaryField64, BinaryField128, Ghash128, Poly64,
    Poly192, Rijndael8b,
};
use binary_field::{Field, TowerLevel};
use std::hint::black_box;
use std::time::Instant;

const LENGTH: usize = 1024;

// Nanoseconds an element, the least of the samples.
fn least(samples: usize, mut work: impl FnMut()) -> f64 {
    let mut least = f64::INFINITY;
    for _ in 0..samples {
        let start = Instant::now();
        work();
        least = least.min(start.elapsed().as_secs_f64());
    }
    least * 1e9 / LENGTH as f64
}

fn row<F: Field>(name: &str, samples: usize, x: &[F]) {
    let mut results = x.to_vec();
    let y: Vec<F> = x.iter().rev().copied().collect();
    let products = least(samples, || {
        for ((result, &x), &y) in results.iter_mut().zip(x).zip(black_box(&y)) {
            *result = x * y;
        }
        black_box(&mut results);
    });
    let squares = least(samples, || {
        for (result, x) in results.iter_mut().zip(black_box(x)) {
            *result = x.square();
        }
        black_box(&mut results);
    });
    let inverses = least(samples, || {
        for (result, x) in results.iter_mut().zip(black_box(x)) {
            *result = x.inverse();
        }
        black_box(&mut results);
    });
    let chain = least(samples, || {
        let mut product = F::ONE;
        for &it in black_box(x) {
            product *= it;
        }
        black_box(product);
    });
    println!("| `{name}` | {products:.2} | {squares:.2} | {inverses:.2} | {chain:.2} |");
}

// Numbers from a fixed seed, none of which is 0 in a byte.
fn numbers() -> Vec<u128> {
    let mut state = 0x9e37_79b9_7f4a_7c15_f39c_c060_5ced_c835_u128;
    (0..LENGTH)
        .map(|_| {
            state = state
                .wrapping_mul(0x2360_ed05_1fc6_5da4_4385_df64_9fcc_f645)
                .wrapping_add(1);
            state ^ state >> 61 | 1
        })
        .collect()
}

fn main() {
    let samples = std::env::args()
        .nth(1)
        .map_or(2000, |it| it.parse().expect("a number of samples"));
    let words = numbers();
    let poly64 = |shift: u32| {
        words
            .iter()
            .map(move |&it| Poly64::from_repr((it >> shift) as u64))
    };
    println!("| Field | product | square | inverse | product of a chain |");
    println!("|---|---|---|---|---|");
    macro_rules! rows {
        ($($field:ident $word:ty;)*) => {$(
            let x: Vec<$field> = words.iter().map(|&it| $field::from_repr(it as $word)).collect();
            row(stringify!($field), samples, &x);
        )*};
    }
    rows! {
        BinaryField8 u8;
        BinaryField16 u16;
        BinaryField32 u32;
        BinaryField64 u64;
        BinaryField128 u128;
        Rijndael8b u8;
        Poly64 u64;
        Ghash128 u128;
    }
    let cubic = poly64(0)
        .zip(poly64(64))
        .map(|(a, b)| Poly192::new([a, b, a * b]));
    row("Poly192", samples, &cubic.collect::<Vec<_>>());
}
