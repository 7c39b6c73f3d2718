//! The words of the request for turns, each in a network whose turns are worked out by hand.

use rubblewaltz_host::compare::{Call, Case, MEASURE, SOLVE_BY_SKIPPING};
use rubblewaltz_host::{Answer, Arc, Rows};

/// What stands behind the entries for the arcs.
const KEPT: i32 = -7_777_777;

/// Tail, head and both bounds of each arc; no weight.
fn network(periods: &[u32], arcs: &[(u32, u32, i32, i32)]) -> Rows {
    let arc = |&(tail, head, lower, upper): &(u32, u32, i32, i32)| Arc {
        tail,
        head,
        lower,
        upper,
        weight: 0,
    };
    let arcs: Vec<Arc> = arcs.iter().map(arc).collect();
    Rows::new(periods, &arcs)
}

/// Nothing is written yet, and the rows for tensions and turns are one entry longer than need be.
fn longer(rows: Rows) -> Case {
    let mut case = Case::unwritten(rows);
    case.tensions.push(KEPT);
    case.turns.push(KEPT);
    case
}

/// Compares with the reference, and with the times and each arc's tension and turn that are known.
fn expect(call: &Call, lent: &Case, times: &[u32], known: &[(i32, i32)]) {
    let (mut tensions, mut turns): (Vec<i32>, Vec<i32>) = known.iter().copied().unzip();
    tensions.push(KEPT);
    turns.push(KEPT);
    let left = Case {
        rows: lent.rows.clone(),
        times: times.to_vec(),
        tensions,
        turns,
    };
    let got = call.compare(lent);
    assert_eq!(got, (Answer::success(0), left), "{}", call.name);
}

fn assert_measured(rows: Rows, times: &[u32], known: &[(i32, i32)]) {
    let lent = Case {
        times: times.to_vec(),
        ..longer(rows)
    };
    expect(&MEASURE, &lent, times, known);
}

/// The timetable is the smallest of its network, and solve gives the same of it as measure.
fn assert_solved(rows: Rows, times: &[u32], known: &[(i32, i32)]) {
    expect(&SOLVE_BY_SKIPPING, &longer(rows.clone()), times, known);
    assert_measured(rows, times, known);
}

#[test]
fn tension_of_30_belongs_to_minutes_50_and_20() {
    let rows = network(&[60, 60], &[(0, 1, 30, 30)]);
    assert_measured(rows, &[50, 20], &[(30, 1)]);
    let rows = network(&[60; 3], &[(0, 1, 50, 50), (1, 2, 30, 30)]);
    assert_solved(rows, &[0, 50, 20], &[(50, 0), (30, 1)]);
}

/// The same two minutes in both directions, and tensions below 0. No two arcs are as wide, or they
/// would repeat each other.
#[test]
fn turns_of_either_sign() {
    let arcs = [
        (0, 1, 50, 50),
        (2, 1, 30, 30),
        (2, 1, -30, -29),
        (1, 2, -30, -30),
        (2, 1, 90, 92),
        (0, 1, -10, -9),
    ];
    let known = [(50, 0), (30, 0), (-30, -1), (-30, 0), (90, 1), (-10, -1)];
    assert_solved(network(&[60; 3], &arcs), &[0, 50, 20], &known);
}

/// A turn is one of 12, which is neither period.
#[test]
fn periods_that_differ() {
    let arcs = [(0, 1, 100, 100), (1, 0, -100, -100), (1, 0, 3, 10)];
    let known = [(100, 8), (-100, -8), (8, 1)];
    assert_solved(network(&[60, 24], &arcs), &[0, 4], &known);
    let arcs = [(1, 0, 100, 100), (0, 1, -100, -100), (0, 1, 3, 10)];
    let known = [(100, 9), (-100, -9), (8, 0)];
    assert_solved(network(&[24, 60], &arcs), &[0, 8], &known);
}

/// No turn is farther from 0 than these: period 1 against the last tick of 3,600, and lower at its
/// limits.
#[test]
fn least_and_greatest_turn() {
    let arcs = [(0, 1, 3599, 3599), (1, 2, 7200, 7200), (2, 1, -7200, -7200)];
    let known = [(3599, 0), (7200, 10_799), (-7200, -10_799)];
    assert_solved(network(&[3600, 3600, 1], &arcs), &[0, 3599, 0], &known);
}

/// The first arc's tension is far above its upper bound, the second's is within.
#[test]
fn arcs_that_are_not_met() {
    let rows = network(&[60, 60], &[(0, 1, 10, 10), (1, 0, 50, 60)]);
    assert_measured(rows, &[0, 5], &[(65, 1), (55, 1)]);
}

/// Code 9 comes before the late time and before the search.
#[test]
fn row_of_turns_too_short() {
    let rows = network(&[60, 60], &[(0, 1, 10, 10), (0, 1, 11, 11)]);
    for (length, measured, solved) in [(0, 9, 9), (1, 9, 9), (2, 14, 10)] {
        let mut case = longer(rows.clone());
        case.turns.truncate(length);
        let (answer, _) = MEASURE.compare(&case);
        assert_eq!(answer, Answer::refusal(measured, 0), "{length}");
        let (answer, _) = SOLVE_BY_SKIPPING.compare(&case);
        assert_eq!(answer, Answer::refusal(solved, 0), "{length}");
    }
}
