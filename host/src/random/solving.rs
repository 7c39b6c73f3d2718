//! Networks for solve: few timetables, and a row of times to be written.

use super::networks::{build, ends, fill, weight};
use super::Random;
use crate::compare::Case;
use crate::network::{Arc, Rows};
use crate::reference::common_divisor;

/// Few timetables, with and without a feasible one, and rows for solve to write.
pub fn small(random: &mut Random) -> Case {
    let n = random.between(1, 5) as usize;
    let m = if n == 1 { 0 } else { random.below(13) };
    let mut periods = few_times(random, n);
    while periods.iter().product::<u32>() > 2000 {
        periods = few_times(random, n);
    }
    let met = random.one_in(3);
    let case = build(random, periods, m, met);
    unsolved(random, case)
}

/// Few events and many arcs, with and without a feasible timetable, and rows for solve to write.
/// Periods mostly share a divisor, so that the arcs tell something of one another.
pub fn dense(random: &mut Random) -> Case {
    let choices: &[u32] = random.pick(&[&[12], &[4, 8, 12], &[2, 3, 4, 6, 12], &[5, 10], &[7, 9]]);
    let (periods, m) = many_arcs(random, choices);
    let met = random.one_in(3);
    let case = build(random, periods, m, met);
    unsolved(random, case)
}

/// The same with arcs that rule out less than half of the times each, and not none, of which little
/// follows before the search.
pub fn loose(random: &mut Random) -> Case {
    let choices: &[u32] = random.pick(&[&[3], &[4], &[5], &[6], &[3, 6], &[4, 8, 12]]);
    let (periods, m) = many_arcs(random, choices);
    let case = fill(random, periods, m, |random, rows, _| {
        let (tail, head) = ends(random, rows);
        let period = |event: u32| rows.periods[event as usize];
        let g = i64::from(common_divisor(period(tail), period(head)));
        let lower = random.between(-g, g);
        Arc {
            tail,
            head,
            lower: lower as i32,
            upper: (lower + random.between(g / 2, g - 2)) as i32,
            weight: weight(random),
        }
    });
    unsolved(random, case)
}

/// Two ways from the first event to the last, by laps of which only their product is the lap of those
/// two: they settle the time between them, which the spans can't say. A last arc may rule it out.
pub fn by_laps(random: &mut Random) -> Case {
    let (a, b) = random.pick(&[(2, 3), (2, 5), (3, 4), (3, 5)]);
    let periods = [a * b, a, b, a * b];
    let lap = i64::from(a * b);
    let mut arc = |tail: u32, head: u32, width: i64| {
        let lower = random.between(-lap, lap) as i32;
        Arc {
            tail,
            head,
            lower,
            upper: lower + random.between(0, width) as i32,
            weight: weight(random),
        }
    };
    let arcs = [
        arc(0, 1, 0),
        arc(1, 3, 0),
        arc(0, 2, 0),
        arc(2, 3, 0),
        arc(0, 3, lap - 2),
    ];
    let case = Case::unwritten(Rows::new(&periods, &arcs));
    unsolved(random, case)
}

/// The periods of 3 to 5 events, and how many arcs there are between them.
fn many_arcs(random: &mut Random, choices: &[u32]) -> (Vec<u32>, usize) {
    let n = random.between(3, 5);
    let periods = (0..n).map(|_| random.pick(choices)).collect();
    (periods, random.between(6, 12) as usize)
}

/// As `linked`, but with few timetables and rows for solve to write.
pub fn solvable(random: &mut Random) -> Case {
    let n = random.between(2, 4) as usize;
    let m = random.between(2, 6) as usize;
    let base = random.between(2, 5);
    let periods = (0..n)
        .map(|_| (base * random.between(1, 3)) as u32)
        .collect();
    let case = build(random, periods, m, true);
    unsolved(random, case)
}

/// The same network with a row of times to be written.
pub fn unsolved(random: &mut Random, case: Case) -> Case {
    let length = case.rows.periods.len() + random.below(3);
    Case {
        times: (0..length as u32).map(|k| 2_000_000_000 + k).collect(),
        ..case
    }
}

fn few_times(random: &mut Random, n: usize) -> Vec<u32> {
    let base = random.between(1, 6);
    (0..n)
        .map(|_| (base * random.between(1, 3)) as u32)
        .collect()
}
