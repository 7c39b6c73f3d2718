//! The same rule entered twice: the first arc that repeats an earlier one. Links are one more than
//! an arc's number, and 0 is none.

use super::{arc_period, working_upper};
use crate::network::Network;

/// Each arc passed is linked to the last before it with the same tail.
pub fn first_repeat(network: &Network) -> Option<usize> {
    let mut lasts = [0; 64];
    let mut befores = [0; 256];
    for arc in 0..network.tail.len() {
        let last = &mut lasts[network.tail[arc] as usize];
        if repeats_earlier(network, &befores, arc, *last) {
            return Some(arc);
        }
        befores[arc] = *last;
        *last = arc as u32 + 1;
    }
    None
}

/// Only arcs with the same tail are looked at, and bounds only where the heads agree.
fn repeats_earlier(network: &Network, befores: &[u32], arc: usize, last: u32) -> bool {
    let mut next = last as usize;
    while next > 0 {
        if network.head[next - 1] == network.head[arc] {
            return is_matched(network, befores, arc, next);
        }
        next = befores[next - 1] as usize;
    }
    false
}

/// The arc's own part of each comparison is worked out once.
fn is_matched(network: &Network, befores: &[u32], arc: usize, mut next: usize) -> bool {
    let g = arc_period(network, arc);
    let left = offset(network, arc, g);
    let wide = working_width(network, arc, g);
    while next > 0 {
        let other = next - 1;
        if network.head[other] == network.head[arc]
            && offset(network, other, g) == left
            && working_width(network, other, g) == wide
        {
            return true;
        }
        next = befores[other] as usize;
    }
    false
}

/// What the lower bound leaves by g, counted from the least that there is.
fn offset(network: &Network, arc: usize, g: u32) -> u32 {
    (network.lower[arc] + 7200) as u32 % g
}

fn working_width(network: &Network, arc: usize, g: u32) -> i32 {
    working_upper(network, arc, g) - network.lower[arc]
}
