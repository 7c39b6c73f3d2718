//! The reference's own parts against their plain meaning.

use rubblewaltz_host::compare::{Call, REBUILD_BY_TRYING};
use rubblewaltz_host::random::{few_timetables, small, unplanted, vary_tensions, Random};
use rubblewaltz_host::reference::{
    arc_period, common_divisor, rebuild, remainder, smallest, smallest_by_skipping, tension, turn,
};
use rubblewaltz_host::tally::Tally;

#[test]
fn common_divisor_is_the_greatest_that_divides_both() {
    for a in 1..=150 {
        for b in 1..=150 {
            let greatest = (1..=a).rev().find(|d| a % d == 0 && b % d == 0);
            assert_eq!(Some(common_divisor(a, b)), greatest, "{a}, {b}");
        }
    }
}

#[test]
fn remainder_lies_from_zero_to_less_than_the_divisor() {
    assert_eq!(remainder(-35, 20), 5);
    for by in 1..=70 {
        for number in -300..=300 {
            let left = remainder(number, by);
            assert!((0..i64::from(by)).contains(&left), "{number} by {by}");
            assert_eq!((number - left) % i64::from(by), 0, "{number} by {by}");
        }
    }
}

/// Of all numbers from the least to the greatest that are asked for; signs of every kind occur.
#[test]
fn turn_is_the_only_number_that_gives_the_tension() {
    let mut random = Random::new(23);
    let mut signs = [0; 3];
    for _ in 0..500 {
        let case = unplanted(&mut random);
        let network = case.rows.network();
        for arc in 0..network.tail.len() {
            let g = i64::from(arc_period(&network, arc));
            let head = i64::from(case.times[network.head[arc] as usize]);
            let tail = i64::from(case.times[network.tail[arc] as usize]);
            let tension = tension(&network, arc, &case.times);
            let turns = (-14_400..=14_400).filter(|z| head - tail + z * g == tension);
            let turn = turn(&network, arc, &case.times);
            assert_eq!(turns.collect::<Vec<i64>>(), [turn], "arc {arc}: {case:?}");
            signs[(turn.signum() + 1) as usize] += 1;
        }
    }
    assert!(signs.iter().all(|&count| count > 500), "{signs:?}");
}

#[test]
fn skipping_passes_over_no_feasible_timetable() {
    let mut random = Random::new(21);
    let mut feasible = 0;
    for _ in 0..20_000 {
        let case = small(&mut random);
        let network = case.rows.network();
        let found = smallest(&network);
        assert_eq!(smallest_by_skipping(&network), found, "{case:?}");
        feasible += u32::from(found.is_some());
    }
    assert!((2000..18_000).contains(&feasible), "{feasible} of 20000");
}

#[test]
fn potentials_find_what_trying_all_timetables_finds() {
    let potentials = Call {
        name: "rebuild by potentials",
        tried: |network, times, tensions, _| rebuild(network, tensions, times),
        ..REBUILD_BY_TRYING
    };
    let mut random = Random::new(22);
    let mut tally = Tally::new(potentials.name);
    for _ in 0..20_000 {
        let mut case = few_timetables(&mut random);
        vary_tensions(&mut random, &mut case);
        tally.add(potentials.compare(&case).0);
    }
    tally.require(300, &[0, 12, 13]);
}
