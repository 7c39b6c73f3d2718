//! Damages: each makes a right case wrong at a random place, so that a known code applies.

use super::networks::{self, is_new};
use super::Random;
use crate::compare::Case;
use crate::network::{Arc, Rows};
use crate::reference::{arc_period, remainder, repeats_earlier, working_upper};

/// The code that the damage brings about, and what it does to the case.
pub type Damage = (u32, fn(&mut Random, &mut Case));

/// The codes in the order in which they are tried.
const ORDER: [u32; 16] = [1, 2, 3, 4, 5, 6, 7, 8, 18, 9, 10, 11, 12, 13, 14, 15];

/// The damages to a network, one for each of codes 1 to 8 and 18.
pub const NETWORK: [Damage; 9] = [
    (1, event_count),
    (2, period),
    (3, arc_rows),
    (4, end),
    (5, equal_ends),
    (6, lower),
    (7, upper),
    (8, weight),
    (18, repeat),
];

/// Where a code stands in the order.
pub fn rank(code: u32) -> usize {
    let found = ORDER.iter().position(|&other| other == code);
    found.expect("a code of a timetable's calls")
}

/// Does all the damages, the last code first, so that the first surely stands in the end.
pub fn apply(random: &mut Random, case: &mut Case, damages: &[Damage]) {
    let mut falling = damages.to_vec();
    falling.sort_by_key(|&(code, _)| std::cmp::Reverse(rank(code)));
    for (code, damage) in falling {
        damage(random, case);
        if rank(code) > rank(18) {
            drop_repeats(case);
        }
    }
}

/// An arc that comes to repeat an earlier one by accident goes: the earlier one rules out as much.
fn drop_repeats(case: &mut Case) {
    for arc in (0..case.rows.tail.len()).rev() {
        if repeats_earlier(&case.rows.network(), arc) {
            case.rows.remove(arc);
            case.tensions.remove(arc);
        }
    }
}

/// Adds an arc at a random place, with an entry for it in the rows of tensions and turns.
fn insert(random: &mut Random, case: &mut Case, arc: Arc, tension: i32) {
    let place = random.below(case.rows.tail.len() + 1);
    case.rows.insert(place, arc);
    // A row that was cut short may end before.
    let place = place.min(case.tensions.len());
    case.tensions.insert(place, tension);
    case.turns.push(i32::MAX);
}

fn event_count(random: &mut Random, case: &mut Case) {
    let n = random.pick(&[0, 65, 66, 300]);
    case.rows.periods.resize(n, 60);
}

fn period(random: &mut Random, case: &mut Case) {
    let event = random.below(case.rows.periods.len());
    case.rows.periods[event] = random.pick(&[0, 3601, 1 << 31, u32::MAX]);
}

fn arc_rows(random: &mut Random, case: &mut Case) {
    let rows = &mut case.rows;
    if random.one_in(4) {
        lengthen_all(rows, 257 + random.below(3));
    }
    // A second damage of this kind might undo the first.
    while level(rows) {
        match random.below(5) {
            0 => change_length(random, &mut rows.tail),
            1 => change_length(random, &mut rows.head),
            2 => change_length(random, &mut rows.lower),
            3 => change_length(random, &mut rows.upper),
            _ => change_length(random, &mut rows.weight),
        }
    }
}

fn lengthen_all(rows: &mut Rows, m: usize) {
    rows.tail.resize(m, 0);
    rows.head.resize(m, 1);
    rows.lower.resize(m, 0);
    rows.upper.resize(m, 0);
    rows.weight.resize(m, 0);
}

/// Is the number of arcs in order?
fn level(rows: &Rows) -> bool {
    let m = rows.tail.len();
    let others = [
        rows.head.len(),
        rows.lower.len(),
        rows.upper.len(),
        rows.weight.len(),
    ];
    m <= 256 && others == [m; 4]
}

fn change_length<T: Clone + Default>(random: &mut Random, row: &mut Vec<T>) {
    match random.below(5) {
        0 => row.clear(),
        1 | 2 => row.push(T::default()),
        _ => row.truncate(row.len().saturating_sub(1)),
    }
}

fn end(random: &mut Random, case: &mut Case) {
    let n = case.rows.periods.len() as u32;
    let arc = random.below(case.rows.tail.len());
    let beyond = random.pick(&[n, n + 1, 1 << 31, u32::MAX]);
    if random.one_in(2) {
        case.rows.tail[arc] = beyond;
    } else {
        case.rows.head[arc] = beyond;
    }
}

fn equal_ends(random: &mut Random, case: &mut Case) {
    let arc = random.below(case.rows.tail.len());
    if random.one_in(2) {
        case.rows.tail[arc] = case.rows.head[arc];
    } else {
        case.rows.head[arc] = case.rows.tail[arc];
    }
}

fn lower(random: &mut Random, case: &mut Case) {
    let arc = random.below(case.rows.lower.len());
    case.rows.lower[arc] = random.pick(&[-7201, 7201, i32::MIN, i32::MAX]);
}

fn upper(random: &mut Random, case: &mut Case) {
    let arc = random.below(case.rows.upper.len());
    let lower = case.rows.lower[arc];
    case.rows.upper[arc] = random.pick(&[lower - 1, i32::MIN]);
}

fn weight(random: &mut Random, case: &mut Case) {
    let arc = random.below(case.rows.weight.len());
    case.rows.weight[arc] = random.pick(&[10_001, 1 << 31, u32::MAX]);
}

/// A further arc says what another says, whole periods earlier or later, at any weight.
fn repeat(random: &mut Random, case: &mut Case) {
    let network = case.rows.network();
    let model = random.below(network.tail.len());
    let g = i64::from(arc_period(&network, model));
    let width = working_upper(&network, model) - i64::from(network.lower[model]);
    let left = remainder(network.lower[model].into(), g as u32);
    let lower = left + g * random.between(-(7200 + left) / g, (7200 - left) / g);
    let upper = if width < g - 1 {
        (lower + width) as i32
    } else {
        networks::upper(random, lower, width, g)
    };
    let arc = Arc {
        tail: network.tail[model],
        head: network.head[model],
        lower: lower as i32,
        upper,
        weight: networks::weight(random),
    };
    insert(random, case, arc, arc.lower);
}

/// For a call that reads the times: not exactly one for each event.
pub const READ_TIMES: Damage = (9, |random, case| {
    while case.times.len() == case.rows.periods.len() {
        change_length(random, &mut case.times);
    }
});

/// For a call that writes the tensions: fewer entries than arcs.
pub const SHORT_TENSIONS: Damage = (9, |random, case| {
    let m = case.rows.tail.len();
    case.tensions.truncate(random.below(m));
});

/// For a call that writes the turns: fewer entries than arcs.
pub const SHORT_TURNS: Damage = (9, |random, case| {
    let m = case.rows.tail.len();
    case.turns.truncate(random.below(m));
});

/// For a call that reads the times.
pub const LATE_TIME: Damage = (14, |random, case| {
    let event = random.below(case.times.len());
    let period = case.rows.periods[event];
    case.times[event] = random.pick(&[period, period + 1, 1 << 31, u32::MAX]);
});

/// For check: an arc of period 2 or more gets bounds that its ends' times don't meet.
pub const UNMET_ARC: Damage = (15, |random, case| {
    let arc = random.below(case.rows.tail.len());
    let g = arc_period(&case.rows.network(), arc) as usize;
    let slack = 1 + random.below(g - 1);
    let tail = case.times[case.rows.tail[arc] as usize] as i32;
    let head = case.times[case.rows.head[arc] as usize] as i32;
    case.rows.lower[arc] = head - tail - slack as i32;
    case.rows.upper[arc] = case.rows.lower[arc] + random.below(slack) as i32;
});

/// For a call that writes the times: fewer entries than events.
pub const SHORT_TIMES: Damage = (9, |random, case| {
    let n = case.rows.periods.len();
    case.times.truncate(random.below(n));
});

/// For solve: two parallel arcs of period 2 or more that no times meet both.
pub const INFEASIBLE: Damage = (10, |random, case| {
    let model = random.below(case.rows.tail.len());
    let (tail, head) = (case.rows.tail[model], case.rows.head[model]);
    let lower = case.rows.lower[model].min(7199);
    for bound in [lower, lower + 1] {
        let arc = Arc {
            tail,
            head,
            lower: bound,
            upper: bound,
            weight: 1,
        };
        insert(random, case, arc, i32::MAX);
    }
});

/// For rebuild: the tension row counts as an arc row.
pub const TENSION_ROW: Damage = (3, |random, case| {
    while case.tensions.len() == case.rows.tail.len() {
        change_length(random, &mut case.tensions);
    }
});

/// For rebuild.
pub const OTHER_PERIOD: Damage = (11, |random, case| {
    let rows = &mut case.rows;
    let event = random.below(rows.periods.len());
    let mut period = rows.periods[0];
    while rows.periods.contains(&period) {
        period = random.between(1, 3600) as u32;
    }
    rows.periods[event] = period;
});

/// For rebuild; in a wide arc also at most the upper bound itself.
pub const TENSION_OUTSIDE: Damage = (12, |random, case| {
    let arc = random.below(case.tensions.len());
    let below = case.rows.lower[arc] - 1;
    let above = working_upper(&case.rows.network(), arc) as i32 + 1;
    let upper = above.max(case.rows.upper[arc]);
    case.tensions[arc] = random.pick(&[below, above, upper, i32::MIN, i32::MAX]);
});

/// For rebuild: an arc parallel to another, of period 2 or more, with a tension that disagrees.
pub const OPEN_LOOP: Damage = (13, |random, case| {
    let model = random.below(case.rows.tail.len());
    let period = case.rows.periods[0];
    let other = i64::from(case.tensions[model]) + random.between(1, i64::from(period) - 1);
    let lower = random.between(-3600, 3600);
    let tension = (lower + remainder(other - lower, period)) as i32;
    let greatest = lower as i32 + period as i32 - 1;
    let mut arc = Arc {
        tail: case.rows.tail[model],
        head: case.rows.head[model],
        lower: lower as i32,
        upper: random.pick(&[tension, greatest, i32::MAX]),
        weight: 1,
    };
    if !is_new(&mut case.rows, arc) {
        // By bounds for this tension alone it repeats at most an arc that has the same.
        (arc.lower, arc.upper) = (tension, tension);
    }
    insert(random, case, arc, tension);
});
