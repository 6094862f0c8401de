//! Times of calls that take nanoseconds: the least of many samples, each of many calls; and whether sides compute the same.

use std::process::ExitCode;
use std::time::{Duration, Instant};

/// How much to measure.
#[derive(Clone, Copy)]
pub struct Plan {
    pub samples: u32,
    pub sample: Duration,
}

impl Plan {
    /// The plan that the next two words of a command name, or 100 samples of 2 milliseconds.
    pub fn read(words: &mut impl Iterator<Item = String>, usage: &str) -> Plan {
        let mut number = |otherwise: u32| {
            words
                .next()
                .map_or(otherwise, |word| word.parse().expect(usage))
        };
        Plan {
            samples: number(100),
            sample: Duration::from_millis(number(2).into()),
        }
    }

    /// Prints what the times of a table are, over what operands.
    pub fn print(self, operands: &str) {
        println!(
            "One thread, {operands}, nanoseconds an operation, the least of {} samples of {} ms.",
            self.samples,
            self.sample.as_millis()
        );
    }
}

/// The checksums of the results that were compared so far.
#[derive(Default)]
pub struct Sums {
    // of all results of the library
    checksum: u64,
    // the rows in which the sides' results differ
    differing: Vec<String>,
}

impl Sums {
    /// Keeps the sums of one row's results, those of the library first where it has the row, and whether they are one.
    pub fn compare(&mut self, name: &str, sums: &[u64], is_ours: bool) {
        if is_ours && let Some(first) = sums.first() {
            self.checksum = self.checksum.rotate_left(5) ^ first;
        }
        if sums.iter().any(|sum| *sum != sums[0]) {
            self.differing.push(name.to_string());
        }
    }

    /// Says whether the results of all sides are the same.
    pub fn verdict(self) -> ExitCode {
        println!();
        if !self.differing.is_empty() {
            println!("THE CHECKSUMS DIFFER: {}.", self.differing.join("; "));
            return ExitCode::FAILURE;
        }
        let absent = if cfg!(feature = "rust_crate") {
            ""
        } else {
            " The Rust crate is not linked: RUST_CRATE was not set."
        };
        println!(
            "Checksum {:016x}. The checksums of all sides agree in every row.{absent}",
            self.checksum
        );
        ExitCode::SUCCESS
    }
}

fn time(calls: u32, call: &mut dyn FnMut()) -> Duration {
    let start = Instant::now();
    for _ in 0..calls {
        call();
    }
    start.elapsed()
}

// How many calls fill a sample.
fn calls_of_a_sample(plan: Plan, call: &mut dyn FnMut()) -> u32 {
    let mut calls = 1;
    loop {
        let taken = time(calls, call);
        if taken * 2 >= plan.sample || calls > u32::MAX / 4 {
            let each = taken.as_secs_f64() / f64::from(calls);
            return (plan.sample.as_secs_f64() / each).ceil().max(1.0) as u32;
        }
        calls *= 2;
    }
}

/// The least time of one call of each side, in nanoseconds. The sides take turns, a sample each.
pub fn least_times(plan: Plan, sides: &mut [Box<dyn FnMut() + '_>]) -> Vec<f64> {
    let calls: Vec<u32> = sides
        .iter_mut()
        .map(|call| calls_of_a_sample(plan, call))
        .collect();
    let mut least = vec![f64::INFINITY; sides.len()];
    for _ in 0..plan.samples {
        for (side, call) in sides.iter_mut().enumerate() {
            let taken = time(calls[side], call).as_secs_f64() * 1e9 / f64::from(calls[side]);
            least[side] = least[side].min(taken);
        }
    }
    least
}
