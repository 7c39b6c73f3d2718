//! How long each call takes on the networks of the folder networks, and check on two with the most
//! arcs, where code 18 has most and least to compare; and how that compares with the same way of
//! working in safe Rust. Run with `cargo run --release --example bench`.

use rubblewaltz_host::compare::{Case, TextCase, TextVersion, Version};
use rubblewaltz_host::files::{self, Known};
use rubblewaltz_host::timing::{announce, best, ratio};
use rubblewaltz_host::{
    baseline, check, full, measure, print, read, rebuild, reference, solve, Answer, Filled,
};
use std::fmt::Debug;
use std::hint::black_box;

/// A call's name, the archive's version and the baseline's.
type Versions = (&'static str, Version, Version);

const CHECK: Versions = (
    "check",
    |network, times, _, _| check(network, times),
    |network, times, _, _| baseline::check(network, times),
);

const CALLS: [Versions; 4] = [
    CHECK,
    (
        "measure",
        |network, times, tensions, turns| measure(network, times, tensions, turns),
        |network, times, tensions, turns| baseline::measure(network, times, tensions, turns),
    ),
    ("solve", solve, baseline::solve),
    (
        "rebuild",
        |network, times, tensions, _| rebuild(network, tensions, times),
        |network, times, tensions, _| baseline::rebuild(network, tensions, times),
    ),
];

const TEXT_CALLS: [(&str, TextVersion, TextVersion); 2] = [
    (
        "read",
        |network, events, arcs| read(events, arcs, network),
        |network, events, arcs| baseline::read(events, arcs, network),
    ),
    (
        "print",
        |network, events, arcs| print(&network.network(), events, arcs),
        |network, events, arcs| baseline::print(&network.network(), events, arcs),
    ),
];

fn main() {
    announce();
    println!("network               call     code    archive us  safe Rust us   ratio");
    for known in files::answers()
        .into_iter()
        .filter(|known| !known.is_long())
    {
        let case = prepared(&known);
        for call in CALLS {
            report_call(&known.name, &case, call);
        }
        for (call, archive, baseline) in TEXT_CALLS {
            let case = prepared_text(&known.name, call);
            let (mut ours, mut theirs) = (case.clone(), case);
            let archive = || run_text(&mut ours, archive);
            report(&known.name, call, archive, || {
                run_text(&mut theirs, baseline)
            });
        }
    }
    for (name, rows) in [
        ("256 parallel", full::parallel()),
        ("256 apart", full::apart()),
    ] {
        let case = Case {
            times: vec![0; rows.periods.len()],
            ..Case::unwritten(rows)
        };
        report_call(name, &case, CHECK);
    }
}

fn report_call(network: &str, case: &Case, (call, archive, baseline): Versions) {
    let (mut ours, mut theirs) = (case.clone(), case.clone());
    let archive = || run(&mut ours, archive);
    report(network, call, archive, || run(&mut theirs, baseline));
}

/// A line of the table. The first calls must answer the same.
fn report<T>(
    network: &str,
    call: &str,
    mut archive: impl FnMut() -> T,
    mut baseline: impl FnMut() -> T,
) where
    T: Copy + Debug + PartialEq + Into<Answer>,
{
    let answer = archive();
    assert_eq!(answer, baseline(), "{call}");
    let ours = best(archive);
    let theirs = best(baseline);
    println!(
        "{network:<21} {call:<8} {:>4} {ours:>13.2} {theirs:>13.2} {:>7}",
        answer.into().code,
        ratio(ours, theirs)
    );
}

/// The network with its smallest timetable, or all times 0 where none is feasible, and with the
/// tensions and turns of that: what each call reads, and what it writes.
fn prepared(known: &Known) -> Case {
    let mut case = Case::unwritten(files::network(&known.name));
    match &known.times {
        Some(times) => case.times.clone_from(times),
        None => case.times.fill(0),
    }
    let network = case.rows.network();
    reference::measure(&network, &case.times, &mut case.tensions, &mut case.turns);
    case
}

/// For read the texts and rows to be filled, for print the network and rows of its texts' lengths.
fn prepared_text(name: &str, call: &str) -> TextCase {
    let (events, arcs) = files::texts(name);
    let mut rows = files::network(name);
    if call == "read" {
        rows.resize(64, 256);
    }
    TextCase { rows, events, arcs }
}

fn run(case: &mut Case, version: Version) -> Answer {
    black_box(case).call(version)
}

fn run_text(case: &mut TextCase, version: TextVersion) -> Filled {
    let case = black_box(case);
    let network = case.rows.network_mut();
    version(network, &mut case.events, &mut case.arcs)
}
