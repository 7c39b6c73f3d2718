//! Small and full networks by hand that try what solve does before its search: from how long one
//! event may come after another, and another after that, it draws how long the last may come after
//! the first.

use crate::full;
use crate::network::{Arc, Rows};

pub struct Special {
    pub what: &'static str,
    pub rows: Rows,
    /// Has it a feasible timetable?
    pub feasible: bool,
    /// Does solve search, or is it through before?
    pub searched: bool,
}

/// An arc's tail, head, lower and upper bound.
type Bounds = (u32, u32, i32, i32);

fn special(what: &'static str, periods: &[u32], arcs: &[Bounds]) -> Special {
    let arc = |&(tail, head, lower, upper): &Bounds| Arc {
        tail,
        head,
        lower,
        upper,
        weight: 1,
    };
    let arcs: Vec<Arc> = arcs.iter().map(arc).collect();
    Special {
        what,
        rows: Rows::new(periods, &arcs),
        feasible: true,
        searched: true,
    }
}

/// No timetable is feasible, and solve finds that out before its search.
fn empty(what: &'static str, periods: &[u32], arcs: &[Bounds]) -> Special {
    Special {
        feasible: false,
        searched: false,
        ..special(what, periods, arcs)
    }
}

/// No timetable is feasible, which takes the search.
fn dead(what: &'static str, periods: &[u32], arcs: &[Bounds]) -> Special {
    Special {
        feasible: false,
        ..special(what, periods, arcs)
    }
}

pub fn all() -> Vec<Special> {
    [
        contradictions(),
        pieces(),
        laps(),
        shorter_laps(),
        periods_of_one(),
        telling_nothing(),
        most_arcs(),
    ]
    .into_iter()
    .flatten()
    .collect()
}

fn contradictions() -> Vec<Special> {
    let hours = [60; 4];
    let (first, second) = ((0, 1, 10, 15), (1, 2, 20, 25));
    vec![
        empty("parallel arcs", &[60; 2], &[first, (0, 1, 30, 35)]),
        empty("opposite arcs", &[60; 2], &[first, (1, 0, 10, 15)]),
        empty(
            "over the second event",
            &[60; 3],
            &[first, second, (0, 2, 50, 55)],
        ),
        empty(
            "over the first event",
            &[60; 3],
            &[first, (0, 2, 20, 25), (1, 2, 16, 20)],
        ),
        empty(
            "over the last event",
            &[60; 3],
            &[(2, 0, 10, 15), (2, 1, 20, 25), (0, 1, 16, 20)],
        ),
        empty(
            "over two events",
            &hours,
            &[first, second, (2, 3, 5, 5), (3, 0, 26, 30)],
        ),
        special(
            "over two events, in one tick",
            &hours,
            &[first, second, (2, 3, 5, 5), (3, 0, 25, 29)],
        ),
        special(
            "over the second event, in one tick",
            &[60; 3],
            &[first, second, (0, 2, 40, 45)],
        ),
    ]
}

/// Two arcs between the same events, which have two pieces in common: 0 to 2 and 6 to 8 of 12.
fn pieces() -> Vec<Special> {
    let (one, other) = ((0, 1, 0, 8), (0, 1, 6, 14));
    let between = (0, 1, 3, 5);
    let hours = [12; 3];
    vec![
        special("two pieces", &[12; 2], &[one, other]),
        special("the second piece", &[12; 2], &[one, other, (0, 1, 4, 6)]),
        special("the first piece", &[12; 2], &[one, other, (1, 0, 10, 11)]),
        special(
            "the narrower of two",
            &[12; 2],
            &[(0, 1, 0, 9), (0, 1, 7, 14)],
        ),
        dead("between the pieces", &[12; 2], &[one, other, between]),
        empty("between them first", &[12; 2], &[between, one, other]),
        empty(
            "between them over a third event",
            &hours,
            &[one, other, (1, 2, 0, 0), (0, 2, 3, 5)],
        ),
        special(
            "a piece over a third event",
            &hours,
            &[one, other, (1, 2, 0, 0), (0, 2, 3, 6)],
        ),
    ]
}

/// Where two events have a longer lap than the third between them, that one tells nothing of them.
fn laps() -> Vec<Special> {
    let (first, second) = ((0, 1, 1, 1), (1, 2, 1, 1));
    vec![
        special(
            "a shorter lap between",
            &[12, 4, 12],
            &[first, second, (0, 2, 6, 6)],
        ),
        empty("and unmet", &[12, 4, 12], &[first, second, (0, 2, 7, 7)]),
        special(
            "a lap of 1 between",
            &[12, 5, 12],
            &[first, second, (0, 2, 4, 4)],
        ),
        special(
            "a longer lap between",
            &[4, 12, 4],
            &[first, second, (0, 2, 2, 2)],
        ),
        empty("and unmet", &[4, 12, 4], &[first, second, (0, 2, 3, 3)]),
    ]
}

/// The second event settles the last by laps of 2 ticks after the first, the third by laps of 3:
/// it comes 5 of 6 ticks after it.
fn shorter_laps() -> Vec<Special> {
    let (second, third) = ([(0, 1, 0, 0), (1, 3, 1, 1)], [(0, 2, 0, 0), (2, 3, 2, 2)]);
    let arcs = |last| [&second[..], &third, &[last]].concat();
    let periods = [6, 2, 3, 6];
    vec![
        special("laps of 2 and of 3", &periods, &arcs((0, 3, 2, 5))),
        dead("and unmet", &periods, &arcs((0, 3, 2, 4))),
    ]
}

fn periods_of_one() -> Vec<Special> {
    vec![
        special(
            "periods of 1",
            &[1; 3],
            &[(0, 1, 5, 5), (1, 2, -7, -7), (0, 2, 3, 9)],
        ),
        special(
            "a period of 1 first",
            &[1, 60, 60],
            &[(0, 1, 1, 1), (1, 2, 30, 30), (0, 2, 7, 7)],
        ),
        special(
            "a period of 1 last",
            &[60, 60, 1],
            &[(0, 1, 30, 30), (1, 2, 9, 9), (0, 2, 7, 7)],
        ),
    ]
}

fn telling_nothing() -> Vec<Special> {
    let wide = [(0, 1, 5, 64), (1, 2, -30, 29), (2, 0, 7, i32::MAX)];
    vec![
        special("one event", &[3600], &[]),
        special("64 events and no arcs", &[3600; 64], &[]),
        special("64 periods of 1 and no arcs", &[1; 64], &[]),
        special("arcs as wide as their laps", &[60; 3], &wide),
        special("one time ruled out", &[60; 2], &[(0, 1, 1, 59)]),
    ]
}

/// The most arcs. The first 64 settle all times; the others are wider, and the last is met or not.
fn most_arcs() -> Vec<Special> {
    let time = |event: u32| (event * 7 % 12) as i32;
    let arc = |k: u32| {
        let (tail, head) = (k % 64, (k + k / 64 + 1) % 64);
        let (lower, wide) = (time(head) - time(tail), (k / 64) as i32);
        (tail, head, lower - wide, lower + wide)
    };
    let mut arcs: Vec<Bounds> = (0..256).map(arc).collect();
    let met = special("256 arcs", &[12; 64], &arcs);
    let (tail, head, lower, _) = arcs[255];
    arcs[255] = (tail, head, lower - 1, lower - 1);
    let unmet = empty("256 arcs, the last not met", &[12; 64], &arcs);
    let of_rows = |what, rows| Special {
        rows,
        ..special(what, &[], &[])
    };
    let parallel = of_rows("256 parallel arcs", full::parallel());
    let apart = of_rows("256 arcs apart", full::apart());
    vec![met, unmet, parallel, apart]
}
