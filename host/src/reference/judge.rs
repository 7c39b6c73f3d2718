//! The refusals of a network, codes 1 to 8 and then 18, each tried over everything before the next.

use super::rule::repeats_earlier;
use crate::network::{Answer, Network};

/// A rule about the rows as a whole: its place is 0.
pub fn whole(code: u32, applies: bool) -> Option<Answer> {
    applies.then(|| Answer::refusal(code, 0))
}

/// A rule about single events or arcs: its place is the first to which it applies.
pub fn first(code: u32, count: usize, applies: impl Fn(usize) -> bool) -> Option<Answer> {
    (0..count)
        .find(|&place| applies(place))
        .map(|place| Answer::refusal(code, place))
}

pub fn refusal(network: &Network) -> Option<Answer> {
    let Network {
        periods,
        tail,
        head,
        lower,
        upper,
        weight,
    } = *network;
    let (n, m) = (periods.len(), tail.len());
    let uneven = [head.len(), lower.len(), upper.len(), weight.len()] != [m; 4];
    whole(1, n == 0 || n > 64)
        .or_else(|| first(2, n, |event| periods[event] == 0 || periods[event] > 3600))
        .or_else(|| whole(3, uneven || m > 256))
        .or_else(|| first(4, m, |arc| tail[arc].max(head[arc]) as usize >= n))
        .or_else(|| first(5, m, |arc| tail[arc] == head[arc]))
        .or_else(|| first(6, m, |arc| lower[arc] < -7200 || lower[arc] > 7200))
        .or_else(|| first(7, m, |arc| upper[arc] < lower[arc]))
        .or_else(|| first(8, m, |arc| weight[arc] > 10_000))
        .or_else(|| first(18, m, |arc| repeats_earlier(network, arc)))
}
