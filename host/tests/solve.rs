//! solve against the reference.

use rubblewaltz_host::compare::{Case, SOLVE, SOLVE_BY_SKIPPING};
use rubblewaltz_host::random::damage::{
    Damage, INFEASIBLE, NETWORK, SHORT_TENSIONS, SHORT_TIMES, SHORT_TURNS,
};
use rubblewaltz_host::random::{
    by_laps, dense, edges, heavy, loose, planted, small, solvable, unplanted, unsolved, Random,
};
use rubblewaltz_host::reference::finishes_within;
use rubblewaltz_host::tally::Tally;
use rubblewaltz_host::{baseline, check, measure, special, trials, Answer};

const CODES: [u32; 11] = [1, 2, 3, 4, 5, 6, 7, 8, 9, 10, 18];

/// The reference tries all timetables of a dense network that has no more than that.
const TIMETABLES: u32 = 2000;

/// A network is left out where the reference's search is not through after so many steps.
const STEPS: u64 = 500;

fn damages() -> Vec<Damage> {
    let own = [SHORT_TIMES, SHORT_TENSIONS, SHORT_TURNS, INFEASIBLE];
    [&NETWORK[..], &own].concat()
}

/// The archive's own check and measure agree with what its solve has left.
fn assert_accepted(answer: Answer, left: &Case) {
    let network = left.rows.network();
    let (n, m) = (network.periods.len(), network.tail.len());
    let times = &left.times[..n];
    assert_eq!(check(&network, times), answer, "{left:?}");
    let (mut tensions, mut turns) = (vec![0; m], vec![0; m]);
    let measured = measure(&network, times, &mut tensions, &mut turns);
    assert_eq!(measured, answer, "{left:?}");
    assert_eq!(tensions, left.tensions[..m], "{left:?}");
    assert_eq!(turns, left.turns[..m], "{left:?}");
}

#[test]
fn small_networks_by_trying_all_timetables() {
    let mut random = Random::new(31);
    let mut tally = Tally::new("solve, small networks");
    for _ in 0..50_000 {
        let (answer, left) = SOLVE.compare(&small(&mut random));
        if answer.code == 0 {
            assert_accepted(answer, &left);
        }
        tally.add(answer);
    }
    tally.require(5000, &[0, 10]);
}

/// Where no timetable is feasible, some are refused before the search and some by it; where one is,
/// some searches find it at once and some go back.
#[test]
fn dense_networks() {
    let mut random = Random::new(35);
    let mut tally = Tally::new("solve, dense networks");
    let (mut closed, mut searched, mut at_once, mut back) = (0, 0, 0, 0);
    for round in 0..20_000 {
        let make = [dense, loose, by_laps][round % 3];
        let case = make(&mut random);
        let few = case.rows.periods.iter().product::<u32>() <= TIMETABLES;
        let call = if few { SOLVE } else { SOLVE_BY_SKIPPING };
        let (answer, left) = call.compare(&case);
        let steps = baseline::search_size(&case.rows.network()).steps;
        let n = case.rows.periods.len() as u64;
        match answer.code {
            0 if steps == n => at_once += 1,
            0 => back += 1,
            _ if steps == 0 => closed += 1,
            _ => searched += 1,
        }
        if answer.code == 0 {
            assert_accepted(answer, &left);
        }
        tally.add(answer);
    }
    tally.require(2000, &[0, 10]);
    println!("refused before {closed}, by search {searched}; found at once {at_once}, else {back}");
    assert!(closed.min(searched).min(at_once).min(back) >= 300);
}

#[test]
fn special_networks() {
    for special in special::all() {
        let (answer, left) = SOLVE_BY_SKIPPING.compare(&Case::unwritten(special.rows));
        let code = if special.feasible { 0 } else { 10 };
        assert_eq!(answer.code, code, "{}", special.what);
        if special.feasible {
            assert_accepted(answer, &left);
        }
    }
}

/// Up to 64 events, 256 arcs and all periods.
#[test]
fn larger_networks() {
    let mut random = Random::new(32);
    let mut tally = Tally::new("solve, larger networks");
    for round in 0..6000 {
        let make = if round % 3 == 0 { planted } else { unplanted };
        let case = make(&mut random);
        let case = unsolved(&mut random, case);
        if finishes_within(&case.rows.network(), STEPS) {
            let (answer, left) = SOLVE_BY_SKIPPING.compare(&case);
            if answer.code == 0 {
                assert_accepted(answer, &left);
            }
            tally.add(answer);
        }
    }
    tally.require(100, &[0, 10]);
}

#[test]
fn pairs_of_damages() {
    trials::pairs(&SOLVE_BY_SKIPPING, &damages(), solvable, 100).require(100, &CODES);
}

#[test]
fn bunches_of_damages() {
    trials::bunches(&SOLVE_BY_SKIPPING, &damages(), solvable, 20_000).require(250, &CODES);
}

/// Longer rows of all three kinds are as good as those of the wanted lengths.
#[test]
fn lengths_of_rows() {
    let tally = trials::lengths(&SOLVE_BY_SKIPPING, solvable, |times, n| times >= n, 200);
    tally.require(1600, &[0, 9]);
}

#[test]
fn limits() {
    let mut random = Random::new(33);
    let mut tally = Tally::new("solve, limits");
    for _ in 0..2 {
        edges::each_case(&solvable(&mut random), |case| {
            if finishes_within(&case.rows.network(), STEPS) {
                tally.add(SOLVE_BY_SKIPPING.compare(case).0);
            }
        });
    }
    tally.require(100, &[&[0], &CODES[..]].concat());
}

/// Every arc is always met, so the times are all 0 and the slacks of any length.
#[test]
fn costs_of_more_than_32_bits() {
    let mut random = Random::new(34);
    let mut great = 0;
    for _ in 0..300 {
        let case = heavy(&mut random);
        let (answer, _) = SOLVE_BY_SKIPPING.compare(&unsolved(&mut random, case));
        great += u32::from(answer.cost > u64::from(u32::MAX));
    }
    assert!(great > 100, "{great} of 300");
}
