//! solve, read and print on the benchmark networks.

use rubblewaltz_host::compare::Version;
use rubblewaltz_host::files;
use rubblewaltz_host::round_trip::{printed, read_rows};
use rubblewaltz_host::{baseline, solve};

/// How many networks the folder holds.
const FILES: usize = 47;

/// Of how many of them solve's answer is known, and on how many of those it takes too long.
const ANSWERS: usize = 43;
const LONG: usize = 3;

fn assert_solves(name: &str, solve: Version) {
    let answers = files::answers();
    assert_eq!(answers.len(), ANSWERS);
    assert_eq!(answers.iter().filter(|known| known.is_long()).count(), LONG);
    for known in answers.iter().filter(|known| !known.is_long()) {
        let mut case = known.unsolved();
        let answer = case.call(solve);
        assert_eq!((answer, case), known.solved(), "{name}: {}", known.name);
    }
}

#[test]
fn answers_are_the_known_ones() {
    assert_solves("archive", solve);
}

#[test]
fn answers_of_the_baseline_are_too() {
    assert_solves("baseline", baseline::solve);
}

#[test]
fn files_are_read_and_printed_byte_for_byte() {
    let names = files::names();
    assert_eq!(names.len(), FILES);
    for name in names {
        let (events, arcs) = files::texts(&name);
        let rows = read_rows(&events, &arcs);
        assert_eq!(rows, files::network(&name), "{name}");
        assert_eq!(printed(&rows), (events, arcs), "{name}");
    }
}
