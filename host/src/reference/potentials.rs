//! What a row of tensions asks of the times, followed from event to event.

use super::rebuild::fits;
use super::rule::remainder;
use crate::network::Network;
use std::collections::VecDeque;

/// The first arc that can't have its tension together with all before it. Once that is so, it is so
/// of every later arc too.
pub fn first_misfit(network: &Network, tensions: &[i32]) -> Option<usize> {
    let m = network.tail.len();
    let arcs: Vec<usize> = (0..m).collect();
    let first = arcs.partition_point(|&arc| {
        let times = potentials(network, tensions, arc + 1);
        fits(network, tensions, arc + 1, &times)
    });
    (first < m).then_some(first)
}

/// Times that follow from 0 at the lowest event of each part along the first `count` arcs. If any
/// times give these arcs their tensions, these do.
pub fn potentials(network: &Network, tensions: &[i32], count: usize) -> Vec<u32> {
    let n = network.periods.len();
    let mut times: Vec<Option<u32>> = vec![None; n];
    for start in 0..n {
        if times[start].is_none() {
            times[start] = Some(0);
            spread(network, tensions, count, start, &mut times);
        }
    }
    times.into_iter().flatten().collect()
}

/// Gives a time to every event that can be reached from this one, the nearest first.
fn spread(
    network: &Network,
    tensions: &[i32],
    count: usize,
    start: usize,
    times: &mut [Option<u32>],
) {
    let mut queue = VecDeque::from([start]);
    while let Some(event) = queue.pop_front() {
        let time = i64::from(times[event].expect("queued with its time"));
        for (arc, &tension) in tensions[..count].iter().enumerate() {
            let (tail, head) = (network.tail[arc] as usize, network.head[arc] as usize);
            let (other, reached) = match event {
                _ if event == tail => (head, time + i64::from(tension)),
                _ if event == head => (tail, time - i64::from(tension)),
                _ => continue,
            };
            if times[other].is_none() {
                times[other] = Some(remainder(reached, network.periods[0]) as u32);
                queue.push_back(other);
            }
        }
    }
}
