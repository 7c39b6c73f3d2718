//! Networks for rebuild: a common period, tensions of a timetable, a row of times to be written.

use super::networks::{build, size};
use super::solving::unsolved;
use super::Random;
use crate::compare::Case;
use crate::reference::{tension, working_upper};

/// A common period of any kind, the tensions of a timetable, and a row of times to be written.
pub fn with_tensions(random: &mut Random) -> Case {
    let (n, m) = size(random);
    let most = random.pick(&[6, 60, 3600]);
    let period = random.between(1, most) as u32;
    rebuildable(random, period, n, m)
}

/// The same with so few timetables that all can be tried.
pub fn few_timetables(random: &mut Random) -> Case {
    let n = random.between(1, 4) as usize;
    let m = if n == 1 { 0 } else { random.below(9) };
    let period = random.between(1, 4) as u32;
    rebuildable(random, period, n, m)
}

/// The same with two events and two arcs at least and a period of 2 or more, so that every damage
/// finds a place; and with room for further arcs.
pub fn knotted(random: &mut Random) -> Case {
    let n = random.between(2, 8) as usize;
    let m = random.between(2, 12) as usize;
    let period = random.between(2, 3600) as u32;
    rebuildable(random, period, n, m)
}

fn rebuildable(random: &mut Random, period: u32, n: usize, m: usize) -> Case {
    let case = build(random, vec![period; n], m, true);
    unrebuilt(random, case)
}

/// The same network with the tensions of its timetable and a row of times to be written.
pub fn unrebuilt(random: &mut Random, case: Case) -> Case {
    let network = case.rows.network();
    let tensions = (0..network.tail.len())
        .map(|arc| tension(&network, arc, &case.times) as i32)
        .collect();
    unsolved(random, Case { tensions, ..case })
}

/// Draws up to three tensions anew, seldom past their working bounds.
pub fn vary_tensions(random: &mut Random, case: &mut Case) {
    let m = case.tensions.len();
    for _ in 0..random.below(4).min(m) {
        let arc = random.below(m);
        let past = i64::from(random.one_in(8));
        let least = i64::from(case.rows.lower[arc]) - past;
        let greatest = working_upper(&case.rows.network(), arc) + past;
        case.tensions[arc] = random.between(least, greatest) as i32;
    }
}
