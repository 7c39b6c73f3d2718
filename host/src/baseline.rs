//! The archive's way of working in safe Rust, for the benchmark to measure it against.

mod bar;
mod closure;
mod repeat;
mod search;
mod text;

pub use bar::Bar;
pub use closure::{longer, Closed, MOST};
pub use search::{search_size, size_over, Size, MOST_STEPS};
pub use text::{print, read};

use crate::network::{Answer, Network};
use repeat::first_repeat;
use search::smallest;
use std::cmp::Ordering;

fn common_divisor(mut a: u32, mut b: u32) -> u32 {
    while b != 0 {
        (a, b) = (b, a % b);
    }
    a
}

fn arc_period(network: &Network, arc: usize) -> u32 {
    let tail = network.tail[arc] as usize;
    let head = network.head[arc] as usize;
    common_divisor(network.periods[tail], network.periods[head])
}

/// Head time less tail time less lower.
fn above_lower(network: &Network, arc: usize, times: &[u32]) -> i32 {
    let tail = times[network.tail[arc] as usize] as i32;
    let head = times[network.head[arc] as usize] as i32;
    head - tail - network.lower[arc]
}

fn slack(network: &Network, arc: usize, times: &[u32]) -> u32 {
    let g = arc_period(network, arc) as i32;
    above_lower(network, arc, times).rem_euclid(g) as u32
}

/// The turn and the slack of an arc, by one division.
fn turn_and_slack(network: &Network, arc: usize, times: &[u32]) -> (i32, u32) {
    let g = arc_period(network, arc) as i32;
    let number = above_lower(network, arc, times);
    let quotient = number.div_euclid(g);
    (-quotient, (number - quotient * g) as u32)
}

fn met(network: &Network, arc: usize, times: &[u32]) -> bool {
    network.lower[arc] + slack(network, arc, times) as i32 <= network.upper[arc]
}

fn working_upper(network: &Network, arc: usize, gap: u32) -> i32 {
    network.upper[arc].min(network.lower[arc] + gap as i32 - 1)
}

/// Does the rule of this code, one of 4 to 8, apply to the arc?
fn is_bad(network: &Network, code: u32, arc: usize) -> bool {
    let n = network.periods.len();
    match code {
        4 => network.tail[arc] as usize >= n || network.head[arc] as usize >= n,
        5 => network.tail[arc] == network.head[arc],
        6 => network.lower[arc] < -7200 || network.lower[arc] > 7200,
        7 => network.upper[arc] < network.lower[arc],
        _ => network.weight[arc] > 10_000,
    }
}

fn refusal(network: &Network) -> Option<Answer> {
    let (n, m) = (network.periods.len(), network.tail.len());
    if n == 0 || n > 64 {
        return Some(Answer::refusal(1, 0));
    }
    let is_bad_period = |&period: &u32| period == 0 || period > 3600;
    if let Some(event) = network.periods.iter().position(is_bad_period) {
        return Some(Answer::refusal(2, event));
    }
    let even = network.head.len() == m
        && network.lower.len() == m
        && network.upper.len() == m
        && network.weight.len() == m;
    if !even || m > 256 {
        return Some(Answer::refusal(3, 0));
    }
    for code in 4..=8 {
        if let Some(arc) = (0..m).find(|&arc| is_bad(network, code, arc)) {
            return Some(Answer::refusal(code, arc));
        }
    }
    first_repeat(network).map(|arc| Answer::refusal(18, arc))
}

fn late_time(network: &Network, times: &[u32]) -> Option<Answer> {
    let late = (0..times.len()).find(|&event| times[event] >= network.periods[event]);
    late.map(|event| Answer::refusal(14, event))
}

fn cost(network: &Network, times: &[u32]) -> u64 {
    let weighed = |arc: usize| u64::from(network.weight[arc] * slack(network, arc, times));
    (0..network.tail.len()).map(weighed).sum()
}

pub fn check(network: &Network, times: &[u32]) -> Answer {
    if let Some(answer) = refusal(network) {
        return answer;
    }
    if times.len() != network.periods.len() {
        return Answer::refusal(9, 0);
    }
    if let Some(answer) = late_time(network, times) {
        return answer;
    }
    if let Some(arc) = (0..network.tail.len()).find(|&arc| !met(network, arc, times)) {
        return Answer::refusal(15, arc);
    }
    Answer::success(cost(network, times))
}

pub fn measure(
    network: &Network,
    times: &[u32],
    tensions: &mut [i32],
    turns: &mut [i32],
) -> Answer {
    let (n, m) = (network.periods.len(), network.tail.len());
    if let Some(answer) = refusal(network) {
        return answer;
    }
    if times.len() != n || tensions.len() < m || turns.len() < m {
        return Answer::refusal(9, 0);
    }
    if let Some(answer) = late_time(network, times) {
        return answer;
    }
    write_arcs(network, times, tensions, turns)
}

/// Writes the tensions and the turns and answers with the cost, in one pass.
fn write_arcs(network: &Network, times: &[u32], tensions: &mut [i32], turns: &mut [i32]) -> Answer {
    let mut cost = 0;
    for arc in 0..network.tail.len() {
        let (turn, slack) = turn_and_slack(network, arc, times);
        tensions[arc] = network.lower[arc] + slack as i32;
        turns[arc] = turn;
        cost += u64::from(network.weight[arc]) * u64::from(slack);
    }
    Answer::success(cost)
}

pub fn solve(
    network: &Network,
    times: &mut [u32],
    tensions: &mut [i32],
    turns: &mut [i32],
) -> Answer {
    let (n, m) = (network.periods.len(), network.tail.len());
    if let Some(answer) = refusal(network) {
        return answer;
    }
    if times.len() < n || tensions.len() < m || turns.len() < m {
        return Answer::refusal(9, 0);
    }
    let mut found = [0; 64];
    if !smallest(network, &mut found[..n]) {
        return Answer::refusal(10, 0);
    }
    times[..n].copy_from_slice(&found[..n]);
    write_arcs(network, &found[..n], tensions, turns)
}

pub fn rebuild(network: &Network, tensions: &[i32], times: &mut [u32]) -> Answer {
    let (n, m) = (network.periods.len(), network.tail.len());
    match refusal(network) {
        Some(answer) if answer.code <= 3 => return answer,
        _ if tensions.len() != m => return Answer::refusal(3, 0),
        Some(answer) => return answer,
        None => (),
    }
    if times.len() < n {
        return Answer::refusal(9, 0);
    }
    let is_other = |&period: &u32| period != network.periods[0];
    if let Some(event) = network.periods.iter().position(is_other) {
        return Answer::refusal(11, event);
    }
    let upper = |arc: usize| working_upper(network, arc, arc_period(network, arc));
    let bounds = |arc: usize| network.lower[arc]..=upper(arc);
    if let Some(arc) = (0..m).find(|&arc| !bounds(arc).contains(&tensions[arc])) {
        return Answer::refusal(12, arc);
    }
    let mut found = [0; 64];
    if let Some(arc) = join_all(network, tensions, &mut found[..n]) {
        return Answer::refusal(13, arc);
    }
    times[..n].copy_from_slice(&found[..n]);
    Answer::success(cost(network, &found[..n]))
}

/// Joins the parts arc by arc, each with its lowest event at 0; the first arc that does not fit.
fn join_all(network: &Network, tensions: &[i32], times: &mut [u32]) -> Option<usize> {
    let period = network.periods[0];
    let mut parts: [usize; 64] = std::array::from_fn(|event| event);
    for (arc, tension) in tensions.iter().enumerate() {
        let (tail, head) = (network.tail[arc] as usize, network.head[arc] as usize);
        let (near, far) = (parts[tail], parts[head]);
        let tension = tension.rem_euclid(period as i32) as u32;
        // What the head's part must move by for the arc to have its tension.
        let gap = (times[tail] + tension + period - times[head]) % period;
        match near.cmp(&far) {
            Ordering::Less => join(&mut parts, times, (far, near), gap, period),
            Ordering::Greater => join(&mut parts, times, (near, far), period - gap, period),
            Ordering::Equal if gap != 0 => return Some(arc),
            Ordering::Equal => (),
        }
    }
    None
}

/// Moves the first part by the gap and makes it belong to the second.
fn join(parts: &mut [usize], times: &mut [u32], (from, to): (usize, usize), gap: u32, period: u32) {
    for (part, time) in parts.iter_mut().zip(times) {
        if *part == from {
            *part = to;
            *time = (*time + gap) % period;
        }
    }
}
