//! How strong solve's closure is on a network. No contract says so: a closure that narrowed less would
//! be right and slow.

use crate::baseline::{longer, size_over, Bar, Closed, MOST, MOST_STEPS};
use crate::network::Network;

/// The closure's rounds, how many arcs it leaves the search, and how many steps that takes then, if it
/// does not take too many. All are 0 where the closure finds a span empty.
#[derive(Clone, Copy, Debug, PartialEq, Eq)]
pub struct Strength {
    pub rounds: u64,
    pub arcs: u64,
    pub steps: Option<u64>,
}

/// The arcs that the archive's closure makes, in the baseline's words, and its rounds.
pub fn archive_closed(network: &Network) -> (u32, Vec<Bar>) {
    let mut row = [0; 5 * MOST];
    let gauge = crate::gauge(network, &mut row);
    assert_eq!(gauge.code, 0, "the network is in order");
    let numbers = row.chunks_exact(5).take(gauge.arcs as usize);
    let bar = |five: &[u32]| Bar {
        near: five[0],
        last: five[1],
        shift: five[2],
        run: five[3],
        gap: five[4],
    };
    (gauge.rounds, numbers.map(bar).collect())
}

/// The same of the baseline's.
pub fn baseline_closed(network: &Network) -> (u32, Vec<Bar>) {
    let mut bars = [Bar::default(); MOST];
    let closed = longer(network, &mut bars);
    (closed.rounds, closed.bars.to_vec())
}

/// The search is the baseline's, which can be stopped.
pub fn strength(network: &Network, (rounds, bars): &(u32, Vec<Bar>)) -> Strength {
    let closed = Closed {
        rounds: *rounds,
        bars,
    };
    let size = size_over(network, &closed);
    Strength {
        rounds: size.rounds.into(),
        arcs: size.arcs as u64,
        steps: (size.steps < MOST_STEPS).then_some(size.steps),
    }
}
