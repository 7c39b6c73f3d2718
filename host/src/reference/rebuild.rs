//! rebuild: a timetable from its tensions, in which the lowest event of each part is at 0.

use super::judge::{first, refusal, whole};
use super::potentials::{first_misfit, potentials};
use super::rule::{cost, remainder, working_upper};
use super::solve::advance;
use crate::network::{Answer, Network};

pub fn rebuild(network: &Network, tensions: &[i32], times: &mut [u32]) -> Answer {
    let refused = refused(network, tensions, times)
        .or_else(|| first_misfit(network, tensions).map(|arc| Answer::refusal(13, arc)));
    refused.unwrap_or_else(|| {
        let found = potentials(network, tensions, network.tail.len());
        write_times(network, &found, times)
    })
}

/// The same by the words of the paper, for networks with few timetables.
pub fn rebuild_by_trying(network: &Network, tensions: &[i32], times: &mut [u32]) -> Answer {
    let m = network.tail.len();
    let refused = refused(network, tensions, times).or_else(|| {
        first(13, m, |arc| {
            try_all(network, |times| fits(network, tensions, arc + 1, times)).is_none()
        })
    });
    refused.unwrap_or_else(|| {
        let lowest = lowest_events(network);
        let anchored = |times: &[u32]| lowest.iter().all(|&event| times[event] == 0);
        let found = try_all(network, |times| {
            anchored(times) && fits(network, tensions, m, times)
        });
        write_times(network, &found.expect("each part can be moved"), times)
    })
}

/// Codes 1 to 12 and 18. The tension row counts as an arc row, so its length belongs to code 3.
fn refused(network: &Network, tensions: &[i32], times: &[u32]) -> Option<Answer> {
    let (n, m) = (network.periods.len(), network.tail.len());
    let (periods, lower) = (network.periods, network.lower);
    match refusal(network) {
        Some(answer) if answer.code <= 3 => return Some(answer),
        _ if tensions.len() != m => return Some(Answer::refusal(3, 0)),
        Some(answer) => return Some(answer),
        None => (),
    }
    whole(9, times.len() < n)
        .or_else(|| first(11, n, |event| periods[event] != periods[0]))
        .or_else(|| {
            first(12, m, |arc| {
                tensions[arc] < lower[arc] || i64::from(tensions[arc]) > working_upper(network, arc)
            })
        })
}

fn write_times(network: &Network, found: &[u32], times: &mut [u32]) -> Answer {
    times[..found.len()].copy_from_slice(found);
    Answer::success(cost(network, found))
}

/// Do the times give the first `count` arcs their tensions, by the common period?
pub fn fits(network: &Network, tensions: &[i32], count: usize, times: &[u32]) -> bool {
    (0..count).all(|arc| {
        let tail = i64::from(times[network.tail[arc] as usize]);
        let head = i64::from(times[network.head[arc] as usize]);
        remainder(head - tail - i64::from(tensions[arc]), network.periods[0]) == 0
    })
}

/// The first of all timetables that is as wanted. Times below the period are enough: what an arc
/// gets from whole numbers it gets from their remainders.
fn try_all(network: &Network, wanted: impl Fn(&[u32]) -> bool) -> Option<Vec<u32>> {
    let n = network.periods.len();
    let mut times = vec![0; n];
    while !wanted(&times) {
        if !advance(network, &mut times, n) {
            return None;
        }
    }
    Some(times)
}

/// The lowest event of each connected part: the least number that arcs carry along is an own one.
fn lowest_events(network: &Network) -> Vec<usize> {
    let mut label: Vec<usize> = (0..network.periods.len()).collect();
    for _ in 0..label.len() {
        for (&tail, &head) in network.tail.iter().zip(network.head) {
            let least = label[tail as usize].min(label[head as usize]);
            label[tail as usize] = least;
            label[head as usize] = least;
        }
    }
    (0..label.len())
        .filter(|&event| label[event] == event)
        .collect()
}
