//! measure: the tensions, turns and cost of a given timetable, whether its arcs are met or not.

use super::judge::{first, refusal, whole};
use super::rule::{cost, tension, turn};
use crate::network::{Answer, Network};

pub fn measure(
    network: &Network,
    times: &[u32],
    tensions: &mut [i32],
    turns: &mut [i32],
) -> Answer {
    let (n, m) = (network.periods.len(), network.tail.len());
    let short = tensions.len() < m || turns.len() < m;
    let refused = refusal(network)
        .or_else(|| whole(9, times.len() != n || short))
        .or_else(|| first(14, n, |event| times[event] >= network.periods[event]));
    if let Some(answer) = refused {
        return answer;
    }
    write_arcs(network, times, tensions, turns);
    Answer::success(cost(network, times))
}

/// Each arc's tension and turn; entries beyond the network's arcs keep their contents.
pub fn write_arcs(network: &Network, times: &[u32], tensions: &mut [i32], turns: &mut [i32]) {
    for arc in 0..network.tail.len() {
        tensions[arc] = tension(network, arc, times) as i32;
        turns[arc] = turn(network, arc, times) as i32;
    }
}
