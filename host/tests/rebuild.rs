//! rebuild against the reference.

use rubblewaltz_host::compare::{Case, REBUILD, REBUILD_BY_TRYING};
use rubblewaltz_host::random::damage::{
    Damage, NETWORK, OPEN_LOOP, OTHER_PERIOD, SHORT_TIMES, TENSION_OUTSIDE, TENSION_ROW,
};
use rubblewaltz_host::random::{
    few_timetables, heavy, knotted, planted, unrebuilt, vary_tensions, with_tensions, Random,
};
use rubblewaltz_host::tally::Tally;
use rubblewaltz_host::{measure, trials, Answer};

const CODES: [u32; 13] = [1, 2, 3, 4, 5, 6, 7, 8, 9, 11, 12, 13, 18];

fn damages() -> Vec<Damage> {
    let own = [
        TENSION_ROW,
        SHORT_TIMES,
        OTHER_PERIOD,
        TENSION_OUTSIDE,
        OPEN_LOOP,
    ];
    [&NETWORK[..], &own].concat()
}

/// The archive's own measure gives the tensions back, at the same cost.
fn assert_measured(answer: Answer, left: &Case) {
    let times = &left.times[..left.rows.periods.len()];
    let m = left.tensions.len();
    let (mut tensions, mut turns) = (vec![0; m], vec![0; m]);
    let measured = measure(&left.rows.network(), times, &mut tensions, &mut turns);
    assert_eq!((measured, &tensions), (answer, &left.tensions), "{left:?}");
}

#[test]
fn tensions_of_timetables() {
    let mut random = Random::new(51);
    let mut tally = Tally::new("rebuild, tensions of timetables");
    for _ in 0..15_000 {
        let (answer, left) = REBUILD.compare(&with_tensions(&mut random));
        assert_measured(answer, &left);
        tally.add(answer);
    }
    tally.require(1000, &[0]);
}

#[test]
fn varied_tensions() {
    let mut random = Random::new(52);
    let mut tally = Tally::new("rebuild, varied tensions");
    for _ in 0..20_000 {
        let mut case = with_tensions(&mut random);
        vary_tensions(&mut random, &mut case);
        let (answer, left) = REBUILD.compare(&case);
        if answer.code == 0 {
            assert_measured(answer, &left);
        }
        tally.add(answer);
    }
    tally.require(300, &[0, 12, 13]);
}

#[test]
fn small_networks_by_trying_all_timetables() {
    let mut random = Random::new(53);
    let mut tally = Tally::new("rebuild, small networks");
    for _ in 0..20_000 {
        let mut case = few_timetables(&mut random);
        vary_tensions(&mut random, &mut case);
        tally.add(REBUILD_BY_TRYING.compare(&case).0);
    }
    tally.require(300, &[0, 12, 13]);
}

#[test]
fn periods_of_all_kinds() {
    let mut random = Random::new(54);
    let mut tally = Tally::new("rebuild, periods of all kinds");
    for _ in 0..5000 {
        let case = planted(&mut random);
        tally.add(REBUILD.compare(&unrebuilt(&mut random, case)).0);
    }
    tally.require(500, &[0, 11]);
}

#[test]
fn pairs_of_damages() {
    trials::pairs(&REBUILD, &damages(), knotted, 200).require(200, &CODES);
}

#[test]
fn bunches_of_damages() {
    trials::bunches(&REBUILD, &damages(), knotted, 20_000).require(200, &CODES);
}

#[test]
fn limits() {
    let mut random = Random::new(55);
    let bases: Vec<Case> = (0..2).map(|_| knotted(&mut random)).collect();
    let codes = [&[0], &CODES[..]].concat();
    trials::limits(&REBUILD, &bases).require(100, &codes);
}

#[test]
fn costs_of_more_than_32_bits() {
    let mut random = Random::new(56);
    for _ in 0..300 {
        let case = heavy(&mut random);
        let (answer, left) = REBUILD.compare(&unrebuilt(&mut random, case));
        assert!(answer.cost > u64::from(u32::MAX));
        assert_measured(answer, &left);
    }
}
