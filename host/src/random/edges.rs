//! The values at every limit and just past it, at the first, a middle and the last place of a row.

use crate::compare::Case;
use crate::reference::{arc_period, working_upper};

/// A change of a case; where an earlier one has taken its place away, it does nothing.
type Edit = Box<dyn Fn(&mut Case)>;

type Row<T> = fn(&mut Case) -> &mut Vec<T>;

/// Makes each edit alone, and each two of them one after the other, on a case that is right.
pub fn each_case(base: &Case, mut visit: impl FnMut(&Case)) {
    let edits = edits(base);
    for one in &edits {
        let mut edited = base.clone();
        one(&mut edited);
        visit(&edited);
        for other in &edits {
            let mut both = edited.clone();
            other(&mut both);
            visit(&both);
        }
    }
}

fn edits(case: &Case) -> Vec<Edit> {
    let mut list = Vec::new();
    add_periods(&mut list, case);
    add_values(&mut list, case);
    add_bounds(&mut list, case);
    add_repeats(&mut list, case);
    add_times(&mut list, case);
    add_tensions(&mut list, case);
    add_lengths(&mut list);
    list
}

/// Twice the period leaves the periods of the event's arcs as they are.
fn add_periods(list: &mut Vec<Edit>, case: &Case) {
    for event in places(case.rows.periods.len()) {
        let twice = 2 * case.rows.periods[event];
        let values = [0, 1, twice, 3600, 3601, u32::MAX];
        put(list, |case| &mut case.rows.periods, &[event], &values);
    }
}

fn add_values(list: &mut Vec<Edit>, case: &Case) {
    let n = case.rows.periods.len() as u32;
    let arcs = places(case.rows.tail.len());
    let ends = [0, n - 1, n, u32::MAX];
    let lowers = [-7200, 7200, -7201, 7201, i32::MIN, i32::MAX];
    put(list, |case| &mut case.rows.tail, &arcs, &ends);
    put(list, |case| &mut case.rows.head, &arcs, &ends);
    put(list, |case| &mut case.rows.lower, &arcs, &lowers);
    put(
        list,
        |case| &mut case.rows.upper,
        &arcs,
        &[i32::MIN, i32::MAX],
    );
    put(
        list,
        |case| &mut case.rows.weight,
        &arcs,
        &[0, 10_000, 10_001, u32::MAX],
    );
}

/// Both bounds of an arc: at either limit of lower, the wrong way round, as narrow as may be, one
/// short of the arc's period, and as wide as that.
fn add_bounds(list: &mut Vec<Edit>, case: &Case) {
    for arc in places(case.rows.tail.len()) {
        let g = arc_period(&case.rows.network(), arc) as i32;
        for lower in [-7200, case.rows.lower[arc], 7200] {
            for width in [-1, 0, g - 1, g] {
                put(list, |case| &mut case.rows.upper, &[arc], &[lower + width]);
                list.push(Box::new(move |case| {
                    set(&mut case.rows.lower, arc, lower);
                    set(&mut case.rows.upper, arc, lower + width);
                }));
            }
        }
    }
}

/// One arc instead of another: the same again, a period later or earlier, one tick past that, and
/// one tick wider.
fn add_repeats(list: &mut Vec<Edit>, case: &Case) {
    let network = case.rows.network();
    let arcs = places(network.tail.len());
    for &model in &arcs {
        let g = arc_period(&network, model) as i32;
        let (tail, head) = (network.tail[model], network.head[model]);
        let lower = network.lower[model];
        let width = working_upper(&network, model) as i32 - lower;
        for &arc in arcs.iter().filter(|&&arc| arc != model) {
            for (shift, wider) in [(0, 0), (g, 0), (-g, 0), (g + 1, 0), (0, 1)] {
                list.push(Box::new(move |case| {
                    set(&mut case.rows.tail, arc, tail);
                    set(&mut case.rows.head, arc, head);
                    set(&mut case.rows.lower, arc, lower + shift);
                    set(&mut case.rows.upper, arc, lower + shift + width + wider);
                }));
            }
        }
    }
}

fn add_times(list: &mut Vec<Edit>, case: &Case) {
    for event in places(case.rows.periods.len()) {
        let period = case.rows.periods[event];
        let values = [0, period - 1, period, u32::MAX];
        put(list, |case| &mut case.times, &[event], &values);
    }
}

fn add_tensions(list: &mut Vec<Edit>, case: &Case) {
    for arc in places(case.rows.tail.len()) {
        let lower = case.rows.lower[arc];
        let greatest = working_upper(&case.rows.network(), arc) as i32;
        let values = [lower - 1, lower, greatest, greatest + 1, i32::MIN, i32::MAX];
        put(list, |case| &mut case.tensions, &[arc], &values);
    }
}

fn add_lengths(list: &mut Vec<Edit>) {
    for step in [-1, 0, 1] {
        stretch(list, |case| &mut case.rows.periods, step);
        stretch(list, |case| &mut case.rows.tail, step);
        stretch(list, |case| &mut case.rows.head, step);
        stretch(list, |case| &mut case.rows.lower, step);
        stretch(list, |case| &mut case.rows.upper, step);
        stretch(list, |case| &mut case.rows.weight, step);
        stretch(list, |case| &mut case.times, step);
        stretch(list, |case| &mut case.tensions, step);
        stretch(list, |case| &mut case.turns, step);
    }
    for n in [0, 1, 64, 65] {
        list.push(Box::new(move |case| resize_events(case, n)));
    }
    for m in [0, 1, 256, 257] {
        list.push(Box::new(move |case| resize_arcs(case, m)));
    }
}

fn resize_events(case: &mut Case, n: usize) {
    resize(&mut case.rows.periods, n);
    resize(&mut case.times, n);
}

/// Each further arc begins a tick before the one that it follows, so that it need not repeat that.
fn resize_arcs(case: &mut Case, m: usize) {
    let known = case.rows.lower.len();
    resize(&mut case.rows.tail, m);
    resize(&mut case.rows.head, m);
    resize(&mut case.rows.lower, m);
    for (ticks, lower) in (1..).zip(case.rows.lower.iter_mut().skip(known)) {
        *lower = lower.saturating_sub(ticks);
    }
    resize(&mut case.rows.upper, m);
    resize(&mut case.rows.weight, m);
    resize(&mut case.tensions, m);
    resize(&mut case.turns, m);
}

/// Further entries are copies of the last.
fn resize<T: Copy + Default>(row: &mut Vec<T>, length: usize) {
    let last = row.last().copied().unwrap_or_default();
    row.resize(length, last);
}

fn places(length: usize) -> Vec<usize> {
    let mut places = vec![0, length / 2, length.saturating_sub(1)];
    places.dedup();
    places.retain(|&place| place < length);
    places
}

fn put<T: Copy + 'static>(list: &mut Vec<Edit>, row: Row<T>, places: &[usize], values: &[T]) {
    for &place in places {
        for &value in values {
            list.push(Box::new(move |case| set(row(case), place, value)));
        }
    }
}

fn set<T>(row: &mut [T], place: usize, value: T) {
    if let Some(entry) = row.get_mut(place) {
        *entry = value;
    }
}

/// One entry fewer for step -1, one more for step 1, none at all for step 0.
fn stretch<T: Copy + Default + 'static>(list: &mut Vec<Edit>, row: Row<T>, step: i32) {
    list.push(Box::new(move |case| {
        let row = row(case);
        let length = match step {
            -1 => row.len().saturating_sub(1),
            0 => 0,
            _ => row.len() + 1,
        };
        resize(row, length);
    }));
}
