//! solve: the smallest feasible timetable, by trying timetables in rising order.

use super::judge::{refusal, whole};
use super::measure::write_arcs;
use super::rule::{cost, met};
use crate::network::{Answer, Network};

pub fn solve(
    network: &Network,
    times: &mut [u32],
    tensions: &mut [i32],
    turns: &mut [i32],
) -> Answer {
    solve_with(smallest, network, times, tensions, turns)
}

/// The same for networks with too many timetables to try them all.
pub fn solve_by_skipping(
    network: &Network,
    times: &mut [u32],
    tensions: &mut [i32],
    turns: &mut [i32],
) -> Answer {
    solve_with(smallest_by_skipping, network, times, tensions, turns)
}

type Search = fn(&Network) -> Option<Vec<u32>>;

fn solve_with(
    search: Search,
    network: &Network,
    times: &mut [u32],
    tensions: &mut [i32],
    turns: &mut [i32],
) -> Answer {
    let (n, m) = (network.periods.len(), network.tail.len());
    let short = tensions.len() < m || turns.len() < m;
    let refused = refusal(network).or_else(|| whole(9, times.len() < n || short));
    if let Some(answer) = refused {
        return answer;
    }
    let Some(found) = search(network) else {
        return Answer::refusal(10, 0);
    };
    times[..n].copy_from_slice(&found);
    write_arcs(network, &found, tensions, turns);
    Answer::success(cost(network, &found))
}

/// The first feasible one of all timetables in rising order.
pub fn smallest(network: &Network) -> Option<Vec<u32>> {
    let n = network.periods.len();
    let mut times = vec![0; n];
    while !(0..network.tail.len()).all(|arc| met(network, arc, &times)) {
        if !advance(network, &mut times, n) {
            return None;
        }
    }
    Some(times)
}

/// Goes on to the next timetable that differs at one of the first `count` events, as in counting:
/// the last of them is the lowest digit, and all behind it are set to 0. False if none is left.
pub fn advance(network: &Network, times: &mut [u32], count: usize) -> bool {
    times[count..].fill(0);
    for event in (0..count).rev() {
        times[event] += 1;
        if times[event] < network.periods[event] {
            return true;
        }
        times[event] = 0;
    }
    false
}

/// As `smallest`, but where an arc is not met, every timetable with the same times up to its later
/// end fails too and is passed over.
pub fn smallest_by_skipping(network: &Network) -> Option<Vec<u32>> {
    search(network, u64::MAX).flatten()
}

/// Is solve by skipping through within so many steps of its search?
pub fn finishes_within(network: &Network, steps: u64) -> bool {
    refusal(network).is_some() || search(network, steps).is_some()
}

/// Nothing if the steps are not enough.
fn search(network: &Network, steps: u64) -> Option<Option<Vec<u32>>> {
    let mut times = vec![0; network.periods.len()];
    for _ in 0..steps {
        let Some(event) = first_failure(network, &times) else {
            return Some(Some(times));
        };
        if !advance(network, &mut times, event + 1) {
            return Some(None);
        }
    }
    None
}

/// The lowest event that is the later end of an arc that is not met.
fn first_failure(network: &Network, times: &[u32]) -> Option<usize> {
    (0..network.tail.len())
        .filter(|&arc| !met(network, arc, times))
        .map(|arc| network.tail[arc].max(network.head[arc]) as usize)
        .min()
}
