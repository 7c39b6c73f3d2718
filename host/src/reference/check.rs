//! check: is a given timetable right?

use super::judge::{first, refusal, whole};
use super::rule::{cost, met};
use crate::network::{Answer, Network};

pub fn check(network: &Network, times: &[u32]) -> Answer {
    let (n, m) = (network.periods.len(), network.tail.len());
    refusal(network)
        .or_else(|| whole(9, times.len() != n))
        .or_else(|| first(14, n, |event| times[event] >= network.periods[event]))
        .or_else(|| first(15, m, |arc| !met(network, arc, times)))
        .unwrap_or_else(|| Answer::success(cost(network, times)))
}
