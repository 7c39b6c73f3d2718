//! The benchmark's baseline against the reference, so that it measures work that is right.

use rubblewaltz_host::compare::{
    Call, Case, TextCall, CHECK, MEASURE, PRINT, READ, REBUILD, SOLVE, SOLVE_BY_SKIPPING,
};
use rubblewaltz_host::random::damage::{
    Damage, INFEASIBLE, LATE_TIME, NETWORK, OPEN_LOOP, OTHER_PERIOD, READ_TIMES, SHORT_TENSIONS,
    SHORT_TIMES, SHORT_TURNS, TENSION_OUTSIDE, TENSION_ROW, UNMET_ARC,
};
use rubblewaltz_host::random::{
    dense, knotted, linked, loose, small, solvable, unplanted, vary_tensions, with_tensions, Random,
};
use rubblewaltz_host::tally::Tally;
use rubblewaltz_host::trials::text;
use rubblewaltz_host::{baseline, special, trials};

const BASELINE_CHECK: Call = Call {
    name: "baseline check",
    tried: |network, times, _, _| baseline::check(network, times),
    ..CHECK
};

const BASELINE_MEASURE: Call = Call {
    name: "baseline measure",
    tried: |network, times, tensions, turns| baseline::measure(network, times, tensions, turns),
    ..MEASURE
};

const BASELINE_SOLVE: Call = Call {
    name: "baseline solve",
    tried: baseline::solve,
    ..SOLVE
};

const BASELINE_SOLVE_BY_SKIPPING: Call = Call {
    reference: SOLVE_BY_SKIPPING.reference,
    ..BASELINE_SOLVE
};

const BASELINE_REBUILD: Call = Call {
    name: "baseline rebuild",
    tried: |network, times, tensions, _| baseline::rebuild(network, tensions, times),
    ..REBUILD
};

const BASELINE_READ: TextCall = TextCall {
    name: "baseline read",
    tried: |network, events, arcs| baseline::read(events, arcs, network),
    ..READ
};

const BASELINE_PRINT: TextCall = TextCall {
    name: "baseline print",
    tried: |network, events, arcs| baseline::print(&network.network(), events, arcs),
    ..PRINT
};

fn with_network(own: &[Damage]) -> Vec<Damage> {
    [&NETWORK[..], own].concat()
}

#[test]
fn damaged_cases() {
    let check = with_network(&[READ_TIMES, LATE_TIME, UNMET_ARC]);
    let codes = [1, 2, 3, 4, 5, 6, 7, 8, 9, 14, 15, 18];
    trials::bunches(&BASELINE_CHECK, &check, linked, 10_000).require(100, &codes);
    let measure = with_network(&[READ_TIMES, SHORT_TENSIONS, SHORT_TURNS, LATE_TIME]);
    let codes = [1, 2, 3, 4, 5, 6, 7, 8, 9, 14, 18];
    trials::bunches(&BASELINE_MEASURE, &measure, linked, 10_000).require(100, &codes);
    let solve = with_network(&[SHORT_TIMES, SHORT_TENSIONS, SHORT_TURNS, INFEASIBLE]);
    let codes = [1, 2, 3, 4, 5, 6, 7, 8, 9, 10, 18];
    trials::bunches(&BASELINE_SOLVE, &solve, solvable, 10_000).require(100, &codes);
    let rebuild = [
        TENSION_ROW,
        SHORT_TIMES,
        OTHER_PERIOD,
        TENSION_OUTSIDE,
        OPEN_LOOP,
    ];
    let codes = [1, 2, 3, 4, 5, 6, 7, 8, 9, 11, 12, 13, 18];
    let rebuild = with_network(&rebuild);
    trials::bunches(&BASELINE_REBUILD, &rebuild, knotted, 10_000).require(100, &codes);
}

#[test]
fn lengths_of_rows() {
    let measure = trials::lengths(&BASELINE_MEASURE, linked, |times, n| times == n, 100);
    measure.require(400, &[0, 9]);
    let solve = trials::lengths(&BASELINE_SOLVE, solvable, |times, n| times >= n, 100);
    solve.require(800, &[0, 9]);
}

#[test]
fn right_cases() {
    let mut random = Random::new(41);
    let mut scans = Tally::new("baseline check and measure");
    let mut searches = Tally::new("baseline solve");
    let mut loops = Tally::new("baseline rebuild");
    for _ in 0..5000 {
        let case = unplanted(&mut random);
        scans.add(BASELINE_CHECK.compare(&case).0);
        scans.add(BASELINE_MEASURE.compare(&case).0);
        searches.add(BASELINE_SOLVE.compare(&small(&mut random)).0);
        let mut case = with_tensions(&mut random);
        vary_tensions(&mut random, &mut case);
        loops.add(BASELINE_REBUILD.compare(&case).0);
    }
    scans.require(100, &[0, 15]);
    searches.require(100, &[0, 10]);
    loops.require(100, &[0, 12, 13]);
}

#[test]
fn dense_networks() {
    let mut random = Random::new(42);
    let mut tally = Tally::new("baseline solve, dense networks");
    for _ in 0..10_000 {
        tally.add(BASELINE_SOLVE_BY_SKIPPING.compare(&dense(&mut random)).0);
        tally.add(BASELINE_SOLVE_BY_SKIPPING.compare(&loose(&mut random)).0);
    }
    tally.require(2000, &[0, 10]);
}

/// Also whether the search is come to.
#[test]
fn special_networks() {
    for special in special::all() {
        let size = baseline::search_size(&special.rows.network());
        assert_eq!(size.steps > 0, special.searched, "{}", special.what);
        let (answer, _) = BASELINE_SOLVE_BY_SKIPPING.compare(&Case::unwritten(special.rows));
        let code = if special.feasible { 0 } else { 10 };
        assert_eq!(answer.code, code, "{}", special.what);
    }
}

#[test]
fn texts() {
    text::accepted(&BASELINE_READ, 5000, |_| ()).require(5000, &[0]);
    text::one_damage(&BASELINE_READ, 5000).require(1000, &[16, 17]);
    text::two_records(&BASELINE_READ, 2000).require(2000, &[17]);
    text::both_texts(&BASELINE_READ, 2000).require(200, &[9, 16, 17]);
    text::scratches(&BASELINE_READ, 5000).require(100, &[0, 9, 16, 17]);
    text::networks(&BASELINE_PRINT, 5000, |_, _, _| ()).require(500, &[0, 9]);
    text::damaged_networks(&BASELINE_PRINT, 2000).require(400, &[1, 3]);
}
