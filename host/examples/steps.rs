//! The size of solve's search on the networks of the folder networks, its divisions, and how long
//! solve takes. Run with `cargo run --release --example steps`.

use rubblewaltz_host::compare::{Case, Version};
use rubblewaltz_host::files::{self, Known};
use rubblewaltz_host::timing::{announce, best, ratio};
use rubblewaltz_host::{baseline, solve};
use std::hint::black_box;

fn main() {
    announce();
    println!("                                               divisions    archive  safe Rust");
    println!(
        "network               rounds    arcs     steps  per step         us         us  ratio"
    );
    for known in files::answers()
        .into_iter()
        .filter(|known| !known.is_long())
    {
        report(&known);
    }
}

fn report(known: &Known) {
    let case = known.unsolved();
    let size = baseline::search_size(&case.rows.network());
    let ours = microseconds(&case, solve);
    let theirs = microseconds(&case, baseline::solve);
    println!(
        "{:<22}{:>6}{:>8}{:>10}{:>10.2}{ours:>11.2}{theirs:>11.2}{:>7}",
        known.name,
        size.rounds,
        size.arcs,
        size.steps,
        size.divisions as f64 / size.steps.max(1) as f64,
        ratio(ours, theirs)
    );
}

fn microseconds(case: &Case, version: Version) -> f64 {
    let mut case = case.clone();
    best(|| black_box(&mut case).call(version))
}
