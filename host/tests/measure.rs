//! measure against the reference.

use rubblewaltz_host::compare::{Case, MEASURE};
use rubblewaltz_host::random::damage::{
    Damage, LATE_TIME, NETWORK, READ_TIMES, SHORT_TENSIONS, SHORT_TURNS,
};
use rubblewaltz_host::random::{heavy, linked, planted, unplanted, Random};
use rubblewaltz_host::tally::Tally;
use rubblewaltz_host::trials;

const CODES: [u32; 11] = [1, 2, 3, 4, 5, 6, 7, 8, 9, 14, 18];

fn damages() -> Vec<Damage> {
    let own = [READ_TIMES, SHORT_TENSIONS, SHORT_TURNS, LATE_TIME];
    [&NETWORK[..], &own].concat()
}

#[test]
fn random_networks() {
    let mut random = Random::new(3);
    let mut tally = Tally::new("measure, random networks");
    for _ in 0..30_000 {
        tally.add(MEASURE.compare(&planted(&mut random)).0);
        tally.add(MEASURE.compare(&unplanted(&mut random)).0);
    }
    tally.require(1000, &[0]);
}

#[test]
fn pairs_of_damages() {
    trials::pairs(&MEASURE, &damages(), linked, 500).require(400, &CODES);
}

#[test]
fn bunches_of_damages() {
    trials::bunches(&MEASURE, &damages(), linked, 20_000).require(300, &CODES);
}

/// The rows that are written may be longer, that of the times may not.
#[test]
fn lengths_of_rows() {
    trials::lengths(&MEASURE, linked, |times, n| times == n, 300).require(1200, &[0, 9]);
}

#[test]
fn limits() {
    let mut random = Random::new(4);
    let bases: Vec<Case> = (0..2).map(|_| linked(&mut random)).collect();
    let codes = [&[0], &CODES[..]].concat();
    trials::limits(&MEASURE, &bases).require(100, &codes);
}

#[test]
fn costs_of_more_than_32_bits() {
    let mut random = Random::new(6);
    for _ in 0..300 {
        let (answer, _) = MEASURE.compare(&heavy(&mut random));
        assert!(answer.cost > u64::from(u32::MAX));
    }
}
