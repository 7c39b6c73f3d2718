//! The trials that the calls go through: damages in pairs and in bunches, lengths, and the limits.

pub mod text;

use crate::compare::{Call, Case};
use crate::random::damage::{self, Damage};
use crate::random::{edges, Random};
use crate::tally::Tally;

type Maker = fn(&mut Random) -> Case;

/// Each pair of damages, also twice the same, `rounds` times at random places.
pub fn pairs(call: &Call, damages: &[Damage], make: Maker, rounds: usize) -> Tally {
    let mut random = Random::new(11);
    let mut tally = Tally::new(format!("{}, pairs of damages", call.name));
    for (k, &one) in damages.iter().enumerate() {
        for &other in &damages[k..] {
            for _ in 0..rounds {
                damaged(call, &mut random, make, &[one, other], &mut tally);
            }
        }
    }
    tally
}

/// Bunches of one to five damages out of the list.
pub fn bunches(call: &Call, damages: &[Damage], make: Maker, rounds: usize) -> Tally {
    let mut random = Random::new(12);
    let mut tally = Tally::new(format!("{}, bunches of damages", call.name));
    for _ in 0..rounds {
        let count = 1 + random.below(5);
        let bunch: Vec<Damage> = (0..count).map(|_| random.pick(damages)).collect();
        damaged(call, &mut random, make, &bunch, &mut tally);
    }
    tally
}

/// Compares, and asks that of the damages' codes the one that is tried first is answered.
fn damaged(call: &Call, random: &mut Random, make: Maker, damages: &[Damage], tally: &mut Tally) {
    let mut case = make(random);
    damage::apply(random, &mut case, damages);
    let (answer, _) = call.compare(&case);
    let codes = damages.iter().map(|&(code, _)| code);
    let first = codes.min_by_key(|&code| damage::rank(code));
    assert_eq!(Some(answer.code), first, "{}: {case:?}", call.name);
    tally.add(answer);
}

/// Right cases whose rows of times, tensions and turns have every length near the wanted one, or
/// none, each with each. `fits` judges how many times there are for how many events: code 9 is
/// answered if and only if they don't fit or one of the other rows is short.
pub fn lengths(call: &Call, make: Maker, fits: fn(usize, usize) -> bool, rounds: usize) -> Tally {
    let mut random = Random::new(13);
    let mut tally = Tally::new(format!("{}, lengths of rows", call.name));
    for _ in 0..rounds {
        let base = make(&mut random);
        let (n, m) = (base.rows.periods.len(), base.rows.tail.len());
        for [times, tensions, turns] in lengths_near(n, m) {
            let mut case = base.clone();
            case.times.resize(times, u32::MAX);
            case.tensions.resize(tensions, i32::MAX);
            case.turns.resize(turns, i32::MAX);
            let enough = fits(times, n) && tensions >= m && turns >= m;
            let (answer, _) = call.compare(&case);
            let code = if enough { 0 } else { 9 };
            assert_eq!(answer.code, code, "{}: {case:?}", call.name);
            tally.add(answer);
        }
    }
    tally
}

/// Lengths for the times of `n` events and for the tensions and turns of `m` arcs.
fn lengths_near(n: usize, m: usize) -> Vec<[usize; 3]> {
    let near = |count: usize| [0, count - 1, count, count + 1];
    let mut lengths = Vec::new();
    for times in near(n) {
        for tensions in near(m) {
            lengths.extend(near(m).map(|turns| [times, tensions, turns]));
        }
    }
    lengths
}

/// Every case at the limits that lies near one of the given ones; 256 arcs must be accepted in some.
pub fn limits(call: &Call, bases: &[Case]) -> Tally {
    let mut tally = Tally::new(format!("{}, limits", call.name));
    let mut full = 0;
    for base in bases {
        edges::each_case(base, |case| {
            let (answer, _) = call.compare(case);
            full += u32::from(answer.code == 0 && case.rows.tail.len() == 256);
            tally.add(answer);
        });
    }
    assert!(full > 0, "{}: 256 arcs were never accepted", call.name);
    tally
}
