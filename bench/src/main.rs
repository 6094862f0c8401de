//! `bench [SAMPLES] [MILLISECONDS] [tower|polynomials]`: nanoseconds an operation of the static library's functions and,
//! where it is linked, of the Rust crate's, in one thread: the least of SAMPLES samples of MILLISECONDS each, the sides in
//! turn.

mod arithmetic;
// The declarations of the library's functions, which are private in the crate over it.
#[allow(dead_code)]
#[path = "../../rust/src/functions.rs"]
#[rustfmt::skip]
mod functions;
mod ours;
mod random;
#[cfg(feature = "rust_crate")]
mod theirs;
mod timing;

use arithmetic::{Arithmetic, ByteMaps, Polynomials, Stages, Unary, Word};
use random::Random;
use std::hint::black_box;
use std::process::ExitCode;
use timing::{Plan, Sums, least_times};

// The elements of a slice.
const LENGTH: usize = 1024;

// The elements of a slice whose images under a linear map are wanted: the least number of which the library maps any.
const MAPPED: usize = 4096;

#[cfg(feature = "rust_crate")]
macro_rules! sides {
    ($ours:expr, $theirs:expr) => {
        [$ours, $theirs]
    };
}

#[cfg(not(feature = "rust_crate"))]
macro_rules! sides {
    ($ours:expr, $theirs:expr) => {
        [$ours]
    };
}

#[cfg(feature = "rust_crate")]
use p3_binary_field as rust;

// A function of ours, and the field of the Rust crate whose functions stand beside it.
macro_rules! level {
    ($ours:ident, $theirs:ident) => {
        sides!(
            ours::$ours(),
            theirs::field::<theirs::Level<rust::$theirs>>()
        )
    };
}

fn main() -> ExitCode {
    let usage = "bench [SAMPLES] [MILLISECONDS] [tower|polynomials]";
    let mut arguments = std::env::args().skip(1);
    let plan = Plan::read(&mut arguments, usage);
    let part = arguments.next().unwrap_or_default();
    let mut report = Report {
        plan,
        sums: Sums::default(),
    };
    let processor = binary_field::processor();
    plan.print(&format!("ours for {processor}, slices of {LENGTH} elements"));
    if part != "polynomials" {
        report.tower();
    }
    if part != "tower" {
        report.fields_of_polynomials();
    }
    report.sums.verdict()
}

/// What was found so far.
struct Report {
    plan: Plan,
    sums: Sums,
}

impl Report {
    fn tower(&mut self) {
        print_heading("Fields of the tower");
        self.field(&level!(field8, BinaryField8));
        self.field(&level!(field16, BinaryField16));
        self.field(&level!(field32, BinaryField32));
        self.field(&level!(field64, BinaryField64));
        self.field(&level!(field128, BinaryField128));
    }

    fn fields_of_polynomials(&mut self) {
        print_heading("Rijndael8b");
        self.field(&level!(rijndael, Rijndael8b));
        self.bytes(&sides!(ours::byte_maps(), theirs::byte_maps()));
        print_heading("Poly64");
        self.field(&level!(poly64, Poly64));
        self.basis(&sides!(ours::basis64(), theirs::basis64()));
        print_heading("Ghash128");
        self.field(&level!(ghash128, Ghash128));
        self.basis(&sides!(ours::basis128(), theirs::basis128()));
        self.stages(&sides!(ours::stages(), theirs::stages()));
        print_heading("Poly192");
        self.field(&sides!(
            ours::poly192(),
            theirs::field::<theirs::Extension>()
        ));
    }

    /// The rows that every field has.
    fn field<W: Word>(&mut self, sides: &[Arithmetic<W>]) {
        let mut random = Random(u64::from(W::BITS));
        let left: &[W] = &random.elements(LENGTH);
        let right: &[W] = &random.elements(LENGTH);
        let zeros = vec![W::default(); LENGTH];
        self.row("product, throughput", sides, &zeros, |side| {
            let multiply = side.multiply;
            Some(move |out: &mut [W]| multiply(black_box(left), black_box(right), out))
        });
        self.row("product, latency", sides, &zeros, |side| {
            let product = side.product;
            Some(move |out: &mut [W]| product(black_box(left), &mut out[0]))
        });
        self.unary("square, throughput", sides, left, |side| side.square);
        self.unary("inverse, throughput", sides, left, |side| side.inverse);
        self.row("inverse, batch", sides, &zeros, |side| {
            side.batch_inverse
                .map(|operation| move |out: &mut [W]| operation(black_box(left), out))
        });
        self.unary("square root, thr.", sides, left, |side| side.square_root);
    }

    /// The rows over bytes.
    fn bytes(&mut self, sides: &[ByteMaps]) {
        let mut random = Random(9);
        let images: &[u8] = &random.elements(8);
        let bytes: &[u8] = &random.elements(LENGTH);
        let zeros = vec![0; LENGTH];
        self.row("bytes by a matrix", sides, &zeros, |side| {
            let matrix = side.matrix;
            Some(move |out: &mut [u8]| matrix(black_box(images), black_box(bytes), out))
        });
        self.row("bytes by one scalar", sides, &zeros, |side| {
            let scale = side.scale;
            Some(move |out: &mut [u8]| scale(black_box(bytes[0]), black_box(bytes), out))
        });
        let message: &[u8] = &random.elements(1 << 14);
        self.row("GHASH, a byte of 2^14", sides, message, |side| {
            side.ghash.map(|ghash| {
                move |out: &mut [u8]| ghash(black_box(&bytes[..16]), black_box(message), out)
            })
        });
        // Shards of 10,000 bytes, ten of them data and four parity.
        let shards: &[u8] = &random.elements(14 * 10_000);
        self.counted_row(
            "encode 10+4, data byte",
            sides,
            shards,
            10 * 10_000,
            |side| {
                side.encode
                    .map(|encode| move |out: &mut [u8]| encode(10, 4, out))
            },
        );
    }

    /// The rows of slices by one scalar, of butterflies and of transforms. A butterfly counts once a pair, a low stage once a value.
    fn stages(&mut self, sides: &[Stages]) {
        let mut random = Random(10);
        let scalar: u128 = random.nonzero();
        for length in [16, 64, 128, 1024, 4096] {
            let values: &[u128] = &random.elements(length);
            let name = format!("by one scalar, {length}");
            self.row(&name, sides, values, |side| {
                let multiply_by = side.multiply_by;
                Some(move |out: &mut [u128]| {
                    multiply_by(black_box(scalar), black_box(values), out);
                })
            });
        }
        for (name, butterfly) in [
            (
                "butterfly",
                (|side| side.butterfly_forward) as fn(&Stages) -> _,
            ),
            ("inverse butterfly", |side| side.butterfly_inverse),
        ] {
            for length in [16, 1024] {
                let pairs: &[u128] = &random.elements(2 * length);
                self.counted_row(&format!("{name}, {length}"), sides, pairs, length, |side| {
                    let butterfly: fn(&mut [u128], &mut [u128], u128) = butterfly(side);
                    Some(move |out: &mut [u128]| {
                        let (low, high) = out.split_at_mut(length);
                        butterfly(low, high, black_box(scalar));
                    })
                });
            }
        }
        let shifts: [u128; 4] = std::array::from_fn(|_| random.nonzero());
        let basis: [u128; 13] = std::array::from_fn(|_| random.nonzero());
        for length in [16, 1024] {
            let values: &[u128] = &random.elements(length);
            let name = format!("low stages, {length}");
            self.row(&name, sides, values, |side| {
                let low_stages = side.low_stages;
                Some(move |out: &mut [u128]| low_stages(out, shifts, basis))
            });
        }
        for log in [10, 16] {
            let values: &[u128] = &random.elements(1 << log);
            let name = format!("transform of 2^{log}");
            self.row(&name, sides, values, |side| side.transform);
        }
    }

    /// The rows that a field of polynomials has besides.
    fn basis<W: Word>(&mut self, sides: &[Polynomials<W>]) {
        let mut random = Random(u64::from(W::BITS) + 1);
        let left: &[W] = &random.elements(LENGTH);
        let right: &[W] = &random.elements(LENGTH);
        let zeros = vec![W::default(); LENGTH];
        self.row("dot product, term", sides, &zeros, |side| {
            let dot_product = side.dot_product;
            Some(move |out: &mut [W]| dot_product(black_box(left), black_box(right), &mut out[0]))
        });
        self.unary("from the tower", sides, left, |side| side.from_tower);
        self.unary("to the tower", sides, left, |side| side.to_tower);
        self.row("from the tower, in place", sides, left, |side| {
            side.from_tower_slice
        });
        self.row("to the tower, in place", sides, left, |side| {
            side.to_tower_slice
        });
        let columns = &right[..W::BITS as usize];
        let mapped: &[W] = &random.elements(MAPPED);
        self.row("linear map", sides, &[W::default(); MAPPED], |side| {
            side.linear_map
                .map(|map| move |out: &mut [W]| map(black_box(columns), black_box(mapped), out))
        });
    }

    fn unary<S, W: Word>(
        &mut self,
        name: &str,
        sides: &[S],
        words: &[W],
        operation: fn(&S) -> Unary<W>,
    ) {
        let zeros = vec![W::default(); LENGTH];
        self.row(name, sides, &zeros, |side| {
            let operation = operation(side);
            Some(move |out: &mut [W]| operation(black_box(words), out))
        });
    }

    /// One row: `call` gives for each side that has the operation what does it once for each word of `start` and writes the
    /// results over them.
    fn row<S, W: Word, C: Fn(&mut [W])>(
        &mut self,
        name: &str,
        sides: &[S],
        start: &[W],
        call: impl Fn(&S) -> Option<C>,
    ) {
        self.counted_row(name, sides, start, start.len(), call);
    }

    /// The same where a call is so many operations.
    fn counted_row<S, W: Word, C: Fn(&mut [W])>(
        &mut self,
        name: &str,
        sides: &[S],
        start: &[W],
        count: usize,
        call: impl Fn(&S) -> Option<C>,
    ) {
        let calls: Vec<Option<C>> = sides.iter().map(call).collect();
        if calls.iter().all(Option::is_none) {
            return;
        }
        let sums: Vec<u64> = calls
            .iter()
            .flatten()
            .map(|call| results_sum(start, call))
            .collect();
        let row = format!("{name}, {} bits", W::BITS);
        self.sums.compare(&row, &sums, calls[0].is_some());
        let mut timed: Vec<Box<dyn FnMut()>> = Vec::new();
        for call in calls.iter().flatten() {
            let mut out = start.to_vec();
            timed.push(Box::new(move || black_box(call)(black_box(&mut out))));
        }
        let mut times = least_times(self.plan, &mut timed).into_iter();
        let each: Vec<Option<f64>> = calls
            .iter()
            .map(|call| call.as_ref().and_then(|_| times.next()))
            .collect();
        print_row(name, W::BITS, count, &each);
    }
}

// The checksum of what a call writes over `start`.
fn results_sum<W: Word>(start: &[W], call: impl Fn(&mut [W])) -> u64 {
    let mut out = start.to_vec();
    call(&mut out);
    out.iter().fold(0xcbf2_9ce4_8422_2325, |sum: u64, word| {
        let bits = word.bits();
        let mixed = (sum ^ bits as u64)
            .wrapping_mul(0x0100_0000_01b3)
            .rotate_left(29);
        (mixed ^ (bits >> 64) as u64).wrapping_mul(0x0100_0000_01b3)
    })
}

fn print_heading(title: &str) {
    println!();
    println!("{title}");
    println!();
    println!("| operation                | bits |  ours ns | theirs ns | ratio |");
    println!("|--------------------------|-----:|---------:|----------:|------:|");
}

// A row of the times of `count` operations, ours first; a side may lack the operation, or be absent.
fn print_row(name: &str, bits: u32, count: usize, times: &[Option<f64>]) {
    let each = |side: usize| {
        times
            .get(side)
            .copied()
            .flatten()
            .map(|time| time / count as f64)
    };
    let shown = |value: Option<f64>| value.map_or("-".to_string(), |value| format!("{value:.2}"));
    let (ours, theirs) = (each(0), each(1));
    let ratio = ours.zip(theirs).map(|(ours, theirs)| ours / theirs);
    println!(
        "| {name:<24} | {bits:>4} | {:>8} | {:>9} | {:>5} |",
        shown(ours),
        shown(theirs),
        shown(ratio)
    );
}

impl Random {
    /// Words, none of which is 0.
    fn elements<W: Word>(&mut self, count: usize) -> Vec<W> {
        (0..count).map(|_| self.nonzero()).collect()
    }

    fn nonzero<W: Word>(&mut self) -> W {
        loop {
            let word = W::of(u128::from(self.word()) << 64 | u128::from(self.word()));
            if word != W::default() {
                return word;
            }
        }
    }
}
