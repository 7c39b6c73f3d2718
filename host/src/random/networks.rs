//! Well-formed random networks without repeats, each with a timetable.

use super::Random;
use crate::compare::Case;
use crate::network::{Arc, Rows};
use crate::reference::{common_divisor, remainder, repeats_earlier};

/// No more arcs are drawn for a network: where events are few and periods short, all might be there.
const DRAWS: usize = 1000;

/// Every arc is met by the timetable.
pub fn planted(random: &mut Random) -> Case {
    let (n, m) = size(random);
    let periods = periods(random, n);
    build(random, periods, m, true)
}

/// Bounds are drawn without regard to the timetable.
pub fn unplanted(random: &mut Random) -> Case {
    let (n, m) = size(random);
    let periods = periods(random, n);
    build(random, periods, m, false)
}

/// Planted, with two events and two arcs at least and a divisor of 2 or more common to all periods,
/// so that every damage finds a place; and with room for further arcs.
pub fn linked(random: &mut Random) -> Case {
    let n = random.between(2, 8) as usize;
    let m = random.between(2, 12) as usize;
    let periods = match random.below(2) {
        0 => vec![random.between(2, 3600) as u32; n],
        _ => multiples(random, n, 2),
    };
    build(random, periods, m, true)
}

/// 256 arcs of the greatest weight with long slacks: the cost takes more than 32 bits. Where every
/// slack is the longest, no two arcs may have the same ends, so that it takes more events.
pub fn heavy(random: &mut Random) -> Case {
    let (least, fewest) = random.pick(&[(1800, 2), (3599, 24)]);
    let n = random.between(fewest, 64) as usize;
    fill(random, vec![3600; n], 256, |random, rows, times| {
        let (tail, head) = ends(random, rows);
        let slack = random.between(least, 3599);
        let lower = i64::from(times[head as usize]) - i64::from(times[tail as usize]) - slack;
        Arc {
            tail,
            head,
            lower: lower as i32,
            upper: upper(random, lower, 3599, 3600),
            weight: 10_000,
        }
    })
}

pub(super) fn size(random: &mut Random) -> (usize, usize) {
    let (n, m) = match random.below(40) {
        0 => return (64, 256),
        1..=4 => (64, 256),
        5..=12 => (16, 40),
        _ => (6, 10),
    };
    let n = 1 + random.below(n);
    // One event has no other to be joined to.
    let m = if n == 1 { 0 } else { random.below(m + 1) };
    (n, m)
}

fn periods(random: &mut Random, n: usize) -> Vec<u32> {
    let most = match random.below(3) {
        0 => 6,
        1 => 3600,
        _ => return multiples(random, n, 1),
    };
    (0..n).map(|_| random.between(1, most) as u32).collect()
}

/// Multiples of one base, so that arc periods are often neither 1 nor a whole period.
fn multiples(random: &mut Random, n: usize, least: i64) -> Vec<u32> {
    let base = random.between(least, 600);
    let most = random.pick(&[1, 2, 6]);
    (0..n)
        .map(|_| (base * random.between(1, most)) as u32)
        .collect()
}

pub(super) fn build(random: &mut Random, periods: Vec<u32>, m: usize, met: bool) -> Case {
    fill(random, periods, m, |random, rows, times| {
        arc(random, rows, times, met)
    })
}

/// Draws the times, and `m` arcs beside them, or fewer where the rest would be repeats.
pub(super) fn fill(
    random: &mut Random,
    periods: Vec<u32>,
    m: usize,
    draw: impl Fn(&mut Random, &Rows, &[u32]) -> Arc,
) -> Case {
    let times: Vec<u32> = periods
        .iter()
        .map(|&period| random.below(period as usize) as u32)
        .collect();
    let mut rows = Rows::new(&periods, &[]);
    for _ in 0..DRAWS {
        if rows.tail.len() == m {
            break;
        }
        let arc = draw(random, &rows, &times);
        if is_new(&mut rows, arc) {
            rows.push(arc);
        }
    }
    let m = rows.tail.len();
    Case {
        tensions: kept(random, m, 1_000_000_000),
        turns: kept(random, m, -1_000_000_000),
        rows,
        times,
    }
}

/// Does the arc repeat none of the rows? They are left as they were.
pub(super) fn is_new(rows: &mut Rows, arc: Arc) -> bool {
    let last = rows.tail.len();
    rows.push(arc);
    let is_new = !repeats_earlier(&rows.network(), last);
    rows.remove(last);
    is_new
}

fn arc(random: &mut Random, rows: &Rows, times: &[u32], met: bool) -> Arc {
    let (tail, head) = ends(random, rows);
    let period = |event: u32| rows.periods[event as usize];
    let time = |event: u32| i64::from(times[event as usize]);
    let g = common_divisor(period(tail), period(head));
    let lower = lower(random, i64::from(g));
    let slack = remainder(time(head) - time(tail) - lower, g);
    Arc {
        tail,
        head,
        lower: lower as i32,
        upper: upper(random, lower, if met { slack } else { 0 }, i64::from(g)),
        weight: weight(random),
    }
}

/// Two different events; now and then those of an earlier arc, for parallel arcs and short loops.
pub(super) fn ends(random: &mut Random, rows: &Rows) -> (u32, u32) {
    let (n, m) = (rows.periods.len(), rows.tail.len());
    if m > 0 && random.one_in(5) {
        let arc = random.below(m);
        return random.pick(&[
            (rows.tail[arc], rows.head[arc]),
            (rows.head[arc], rows.tail[arc]),
        ]);
    }
    let tail = random.below(n);
    let head = (tail + 1 + random.below(n - 1)) % n;
    (tail as u32, head as u32)
}

fn lower(random: &mut Random, g: i64) -> i64 {
    match random.below(4) {
        0 => random.between(0, g - 1),
        1 => random.between(-g, -1),
        2 => random.between(-7200, 7200),
        _ => random.pick(&[-7200, -1, 0, 1, 7200]),
    }
}

/// From `least` above lower on. One in four spans is as wide as the arc's period or wider, up to
/// the greatest upper bound that there is.
pub(super) fn upper(random: &mut Random, lower: i64, least: i64, g: i64) -> i32 {
    let greatest = i64::from(i32::MAX);
    let upper = match random.below(8) {
        0 => lower + least,
        1 => lower + g - 1,
        2 => random.pick(&[lower + g, greatest]),
        3 => random.between(lower + g, greatest),
        _ => lower + random.between(least, g - 1),
    };
    upper as i32
}

pub(super) fn weight(random: &mut Random) -> u32 {
    match random.below(4) {
        0 => 0,
        1 => 10_000,
        _ => random.between(0, 10_000) as u32,
    }
}

/// A row to be written for the arcs, up to two entries too long, filled with numbers from `first`
/// on, which no call ever writes.
fn kept(random: &mut Random, m: usize, first: i32) -> Vec<i32> {
    let length = m + random.below(3);
    (first..).take(length).collect()
}
