//! The public rule: arc period, remainder, slack, tension, turn, met, working upper bound, repeats,
//! cost.

use crate::network::Network;

/// The greatest number that divides both, by Euclid's steps; both are 1 or more.
pub fn common_divisor(a: u32, b: u32) -> u32 {
    if b == 0 {
        a
    } else {
        common_divisor(b, a % b)
    }
}

/// What is left from 0 to `by` less 1, also of a negative number.
pub fn remainder(number: i64, by: u32) -> i64 {
    number.rem_euclid(i64::from(by))
}

/// The arc's g: the greatest common divisor of the periods at its two ends.
pub fn arc_period(network: &Network, arc: usize) -> u32 {
    let tail = network.tail[arc] as usize;
    let head = network.head[arc] as usize;
    common_divisor(network.periods[tail], network.periods[head])
}

/// Of the times at the arc's two ends.
fn head_less_tail(network: &Network, arc: usize, times: &[u32]) -> i64 {
    let tail = i64::from(times[network.tail[arc] as usize]);
    let head = i64::from(times[network.head[arc] as usize]);
    head - tail
}

pub fn slack(network: &Network, arc: usize, times: &[u32]) -> i64 {
    let number = head_less_tail(network, arc, times) - i64::from(network.lower[arc]);
    remainder(number, arc_period(network, arc))
}

pub fn tension(network: &Network, arc: usize, times: &[u32]) -> i64 {
    i64::from(network.lower[arc]) + slack(network, arc, times)
}

/// How many times g is added to head time less tail time, or below 0 taken from it, until that is
/// the tension. The turns are counted, one after the other.
pub fn turn(network: &Network, arc: usize, times: &[u32]) -> i64 {
    let tension = tension(network, arc, times);
    let g = i64::from(arc_period(network, arc));
    let mut reached = head_less_tail(network, arc, times);
    let mut turn = 0;
    while reached < tension {
        reached += g;
        turn += 1;
    }
    while reached > tension {
        reached -= g;
        turn -= 1;
    }
    assert_eq!(reached, tension, "whole turns of arc {arc}: {network:?}");
    assert!((-14_400..=14_400).contains(&turn), "{turn}: {network:?}");
    turn
}

pub fn met(network: &Network, arc: usize, times: &[u32]) -> bool {
    tension(network, arc, times) <= i64::from(network.upper[arc])
}

/// The lesser of upper and lower plus g less 1.
pub fn working_upper(network: &Network, arc: usize) -> i64 {
    let upper = i64::from(network.upper[arc]);
    let lower = i64::from(network.lower[arc]);
    upper.min(lower + i64::from(arc_period(network, arc)) - 1)
}

/// The same rule twice: equal tail, equal head, lower bounds that leave the same remainder by g,
/// and equal working width.
pub fn repeats(network: &Network, first: usize, second: usize) -> bool {
    let lower = |arc: usize| i64::from(network.lower[arc]);
    let left = |arc: usize| remainder(lower(arc), arc_period(network, arc));
    let width = |arc: usize| working_upper(network, arc) - lower(arc);
    network.tail[first] == network.tail[second]
        && network.head[first] == network.head[second]
        && left(first) == left(second)
        && width(first) == width(second)
}

pub fn repeats_earlier(network: &Network, second: usize) -> bool {
    (0..second).any(|first| repeats(network, first, second))
}

/// The sum of weight times slack over all arcs.
pub fn cost(network: &Network, times: &[u32]) -> u64 {
    (0..network.tail.len())
        .map(|arc| u64::from(network.weight[arc]) * slack(network, arc, times) as u64)
        .sum()
}
