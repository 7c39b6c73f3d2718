//! check against the reference.

use rubblewaltz_host::compare::{Case, CHECK};
use rubblewaltz_host::random::damage::{self, Damage, LATE_TIME, NETWORK, READ_TIMES, UNMET_ARC};
use rubblewaltz_host::random::{heavy, linked, planted, unplanted, Random};
use rubblewaltz_host::tally::Tally;
use rubblewaltz_host::trials;

const CODES: [u32; 12] = [1, 2, 3, 4, 5, 6, 7, 8, 9, 14, 15, 18];

fn damages() -> Vec<Damage> {
    [&NETWORK[..], &[READ_TIMES, LATE_TIME, UNMET_ARC]].concat()
}

/// A right timetable, one with up to three arcs not met, or bounds that know nothing of it.
fn any_case(random: &mut Random) -> Case {
    match random.below(4) {
        0 => planted(random),
        1 => linked(random),
        2 => {
            let mut case = linked(random);
            let unmet = vec![UNMET_ARC; 1 + random.below(3)];
            damage::apply(random, &mut case, &unmet);
            case
        }
        _ => unplanted(random),
    }
}

#[test]
fn random_networks() {
    let mut random = Random::new(1);
    let mut tally = Tally::new("check, random networks");
    for _ in 0..60_000 {
        tally.add(CHECK.compare(&any_case(&mut random)).0);
    }
    tally.require(1000, &[0, 15]);
}

#[test]
fn pairs_of_damages() {
    trials::pairs(&CHECK, &damages(), linked, 500).require(400, &CODES);
}

#[test]
fn bunches_of_damages() {
    trials::bunches(&CHECK, &damages(), linked, 20_000).require(300, &CODES);
}

#[test]
fn limits() {
    let mut random = Random::new(2);
    let bases: Vec<Case> = (0..2).map(|_| linked(&mut random)).collect();
    let codes = [&[0], &CODES[..]].concat();
    trials::limits(&CHECK, &bases).require(100, &codes);
}

#[test]
fn costs_of_more_than_32_bits() {
    let mut random = Random::new(5);
    for _ in 0..300 {
        let (answer, _) = CHECK.compare(&heavy(&mut random));
        assert!(answer.cost > u64::from(u32::MAX));
    }
}
