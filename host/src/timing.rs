//! How the benchmarks time a call, and what they say of the archive's time beside another.

use std::hint::black_box;
use std::time::{Duration, Instant};

/// The best of so many runs counts; a run has so many calls that it takes this long at least.
const RUNS: usize = 7;
const LEAST_RUN: Duration = Duration::from_millis(2);

/// Microseconds for one call.
pub fn best<T>(mut call: impl FnMut() -> T) -> f64 {
    let mut calls = 1;
    while timed(&mut call, calls) < LEAST_RUN {
        calls *= 2;
    }
    (0..RUNS)
        .map(|_| timed(&mut call, calls).as_secs_f64() * 1e6 / f64::from(calls))
        .fold(f64::INFINITY, f64::min)
}

fn timed<T>(call: &mut impl FnMut() -> T, calls: u32) -> Duration {
    let start = Instant::now();
    for _ in 0..calls {
        black_box(call());
    }
    start.elapsed()
}

/// Is the archive for another processor?
pub fn is_emulated() -> bool {
    cfg!(bridged)
}

/// What is to be known before any of the archive's times is read.
pub fn announce() {
    if is_emulated() {
        println!(
            "The archive is for another processor: its times are an emulator's, with no ratio."
        );
    }
}

/// An emulated call against a native one has none that means anything.
pub fn ratio(ours: f64, theirs: f64) -> String {
    if is_emulated() {
        return "-".into();
    }
    format!("{:.2}", ours / theirs)
}
