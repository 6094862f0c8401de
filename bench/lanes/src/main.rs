//! `bench-lanes [SAMPLES] [MILLISECONDS]`: nanoseconds an operation of kernels in lanes, in the library's builds for x86-64-v2 and for
//! x86-64-v3 and, where it is linked, of the Rust crate, in one thread: the least of SAMPLES samples of MILLISECONDS each, the sides in turn.

#[cfg(feature = "rust_crate")]
mod draws;
mod ours;
#[cfg(feature = "rust_crate")]
#[path = "../../src/random.rs"]
mod random;
#[cfg(feature = "rust_crate")]
mod theirs;
#[path = "../../src/timing.rs"]
mod timing;

use std::hint::black_box;
use std::process::ExitCode;
use std::time::Instant;
use timing::{Plan, Sums, least_times};

/// Does an operation so many rounds over operands of a seed, of which slices have a length, and returns a checksum.
pub type Unit = fn(u64, u64, usize) -> u64;

const SEED: u64 = 20;

// The unit of the Rust crate of this name, where it is linked.
#[cfg(feature = "rust_crate")]
macro_rules! theirs {
    ($($unit:tt)*) => {
        Some(theirs::$($unit)* as Unit)
    };
}

#[cfg(not(feature = "rust_crate"))]
macro_rules! theirs {
    ($($unit:tt)*) => {
        None
    };
}

/// One operation: its unit on each side, the lengths of slices, and how many operations a round of such a length is.
struct Row {
    name: &'static str,
    ours: [Option<Unit>; 2],
    theirs: Option<Unit>,
    lengths: &'static [usize],
    count: fn(usize) -> usize,
}

impl Row {
    /// An operation on slices, which counts once an element.
    fn sliced(
        name: &'static str,
        ours: [Unit; 2],
        theirs: Option<Unit>,
        lengths: &'static [usize],
    ) -> Row {
        Row {
            name,
            ours: ours.map(Some),
            theirs,
            lengths,
            count: |length| length,
        }
    }

    /// An operation that a round does so many times.
    fn fixed(
        name: &'static str,
        ours: [Unit; 2],
        theirs: Option<Unit>,
        count: fn(usize) -> usize,
    ) -> Row {
        Row {
            name,
            ours: ours.map(Some),
            theirs,
            lengths: &[0],
            count,
        }
    }

    /// The same for x86-64-v3 alone, for which it was made.
    fn wide(self) -> Row {
        Row {
            ours: [None, self.ours[1]],
            ..self
        }
    }
}

fn rows() -> Vec<Row> {
    let mut rows = rows_of_ghash();
    rows.extend(rows_of_packings());
    rows.extend(rows_of_bytes());
    rows
}

fn rows_of_ghash() -> Vec<Row> {
    let scaled = &[8, 15, 16, 64, 128, 270, 1024, 4096];
    let added = &[16, 64, 128, 1024];
    vec![
        Row::fixed(
            "masked product, word",
            ours::MASKED_PRODUCTS,
            theirs!(masked_products),
            |_| 8 * 128,
        ),
        Row::fixed(
            "packings of 4, lane",
            ours::PACKED_GHASH_PRODUCT,
            theirs!(packed_ghash_product),
            |_| 256,
        ),
        Row::fixed(
            "packings by an element, lane",
            ours::PACKED_GHASH_BY_ELEMENT,
            theirs!(packed_ghash_by_element),
            |_| 256,
        ),
        Row::fixed(
            "packings, dot product, lane",
            ours::PACKED_GHASH_DOT_PRODUCT,
            theirs!(packed_ghash_dot_product),
            |_| 256,
        ),
        Row::sliced("by one scalar", ours::MUL_SLICE, theirs!(mul_slice), scaled),
        Row::sliced(
            "products added",
            ours::ADD_IN_LANES,
            theirs!(add_products),
            added,
        ),
        Row::sliced(
            "products added, wide",
            ours::ADD_IN_WIDE_LANES,
            theirs!(add_products),
            added,
        )
        .wide(),
        Row::sliced(
            "butterfly, pair",
            ours::BUTTERFLY_FORWARD,
            theirs!(butterfly_forward),
            &[8, 16, 64, 1024],
        ),
        Row::fixed(
            "low stages, run",
            ours::LOW_STAGES,
            theirs!(low_stages),
            |_| 64,
        ),
        Row::fixed(
            "low stages by fours, run",
            ours::LOW_STAGES_BY_FOURS,
            theirs!(low_stages),
            |_| 64,
        )
        .wide(),
        Row::fixed("transform of 2^16, value", ours::TRANSFORM, None, |_| {
            1 << 16
        }),
    ]
}

// Packings of bytes count once for each 16 lanes.
#[rustfmt::skip]
fn rows_of_packings() -> impl Iterator<Item = Row> {
    let rows = [
        ("16 bytes by 16 bytes", ours::PACKED_16_BYTES_PRODUCT, theirs!(packed_bytes_product::<16>)),
        ("32 bytes by 32 bytes", ours::PACKED_32_BYTES_PRODUCT, theirs!(packed_bytes_product::<32>)),
        ("16 bytes by an element", ours::PACKED_16_BYTES_BY_ELEMENT, theirs!(packed_bytes_by_element::<16>)),
        ("32 bytes by an element", ours::PACKED_32_BYTES_BY_ELEMENT, theirs!(packed_bytes_by_element::<32>)),
        ("16 bytes by a bit, and sum", ours::PACKED_16_BYTES_BY_BIT, theirs!(packed_bytes_by_bit::<16>)),
        ("32 bytes by a bit, and sum", ours::PACKED_32_BYTES_BY_BIT, theirs!(packed_bytes_by_bit::<32>)),
        ("16 bytes by a matrix", ours::PACKED_16_BYTES_BY_MATRIX, theirs!(packed_bytes_by_matrix::<16>)),
        ("32 bytes by a matrix", ours::PACKED_32_BYTES_BY_MATRIX, theirs!(packed_bytes_by_matrix::<32>)),
    ];
    rows.into_iter().map(|(name, ours, theirs)| {
        let count = if name.starts_with("16") { |_| 64 } else { |_| 128 };
        Row::fixed(name, ours, theirs, count)
    })
}

fn rows_of_bytes() -> Vec<Row> {
    vec![
        Row::sliced(
            "bytes by a matrix",
            ours::MATRIX,
            theirs!(matrix),
            &[15, 16, 64, 4096],
        ),
        Row::sliced(
            "bytes by one scalar",
            ours::BYTES_BY_SCALAR,
            theirs!(bytes_by_scalar),
            &[4096],
        ),
    ]
}

fn main() -> ExitCode {
    let usage = "bench-lanes [SAMPLES] [MILLISECONDS]";
    let plan = Plan::read(&mut std::env::args().skip(1), usage);
    print_heading(plan);
    let mut report = Report {
        plan,
        sums: Sums::default(),
    };
    for row in rows() {
        for length in row.lengths {
            report.row(&row, *length);
        }
    }
    report.sums.verdict()
}

fn print_heading(plan: Plan) {
    plan.print("slices as the rows say");
    println!();
    println!(
        "| operation                    |    v2 ns |    v3 ns |  Rust ns | v2 ratio | v3 ratio |"
    );
    println!(
        "|------------------------------|---------:|---------:|---------:|---------:|---------:|"
    );
}

/// What was found so far.
struct Report {
    plan: Plan,
    sums: Sums,
}

impl Report {
    fn row(&mut self, row: &Row, length: usize) {
        let name = if length == 0 {
            row.name.to_string()
        } else {
            format!("{}, {length}", row.name)
        };
        let sides = [row.ours[0], row.ours[1].filter(|_| runs_v3()), row.theirs];
        let units: Vec<Unit> = sides.iter().flatten().copied().collect();
        self.compare(&name, &units, length);
        let mut times = times_of_a_round(self.plan, &units, length).into_iter();
        let count = (row.count)(length) as f64;
        let each = sides.map(|unit| unit.and_then(|_| times.next()).map(|time| time / count));
        print_row(&name, each);
    }

    // Whether the sides' results are the same, in few rounds.
    fn compare(&mut self, name: &str, units: &[Unit], length: usize) {
        for rounds in [1, 5] {
            let sums: Vec<u64> = units
                .iter()
                .map(|unit| unit(rounds, SEED, length))
                .collect();
            self.sums
                .compare(&format!("{name} ({rounds} rounds)"), &sums, true);
        }
    }
}

// Whether this processor runs the build for x86-64-v3.
fn runs_v3() -> bool {
    is_x86_feature_detected!("avx2")
        && is_x86_feature_detected!("bmi2")
        && is_x86_feature_detected!("fma")
        && is_x86_feature_detected!("movbe")
        && is_x86_feature_detected!("lzcnt")
}

// The least time of one round of each unit, in nanoseconds: that of many rounds less that of none, in which the operands are drawn.
fn times_of_a_round(plan: Plan, units: &[Unit], length: usize) -> Vec<f64> {
    let rounds = rounds_of_a_sample(plan, units, length);
    let whole = least_times(plan, &mut calls(units, rounds, length));
    let none = Plan {
        samples: plan.samples.div_ceil(10),
        ..plan
    };
    let drawn = least_times(none, &mut calls(units, 0, length));
    whole
        .iter()
        .zip(drawn)
        .map(|(whole, drawn)| (whole - drawn) / rounds as f64)
        .collect()
}

fn calls(units: &[Unit], rounds: u64, length: usize) -> Vec<Box<dyn FnMut()>> {
    units
        .iter()
        .map(|unit| {
            let unit = *unit;
            Box::new(move || {
                black_box(unit(black_box(rounds), black_box(SEED), black_box(length)));
            }) as Box<dyn FnMut()>
        })
        .collect()
}

// How many rounds of the slowest unit fill a sample.
fn rounds_of_a_sample(plan: Plan, units: &[Unit], length: usize) -> u64 {
    let mut rounds = 1;
    loop {
        let fills = units.iter().any(|unit| {
            let start = Instant::now();
            black_box(unit(rounds, SEED, length));
            start.elapsed() >= plan.sample
        });
        if fills {
            return rounds;
        }
        rounds *= 2;
    }
}

// A row of the times of an operation: in both builds of the library, and of the Rust crate. A side may lack it, or be absent.
fn print_row(name: &str, times: [Option<f64>; 3]) {
    let shown = |value: Option<f64>, places: usize| {
        value.map_or("-".to_string(), |value| format!("{value:.places$}"))
    };
    let [v2, v3, theirs] = times;
    let ratio = |ours: Option<f64>| shown(ours.zip(theirs).map(|(ours, theirs)| ours / theirs), 2);
    println!(
        "| {name:<28} | {:>8} | {:>8} | {:>8} | {:>8} | {:>8} |",
        shown(v2, 3),
        shown(v3, 3),
        shown(theirs, 3),
        ratio(v2),
        ratio(v3)
    );
}
