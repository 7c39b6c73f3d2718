//! An arc as solve's search sees it from its later end.

use super::{arc_period, working_upper};
use crate::network::Network;

/// What an arc rules out at its later end, `last`: in each lap of `gap` ticks a run of `run` times,
/// which begins `shift` after the time at its earlier end, `near`.
#[derive(Clone, Copy, Debug, Default, PartialEq, Eq)]
pub struct Bar {
    pub near: u32,
    pub last: u32,
    pub shift: u32,
    pub run: u32,
    pub gap: u32,
}

impl Bar {
    pub fn new(network: &Network, arc: usize) -> Self {
        let (tail, head) = (network.tail[arc], network.head[arc]);
        let gap = arc_period(network, arc);
        let (low, high) = (network.lower[arc], working_upper(network, arc, gap));
        let shift = if tail < head { high + 1 } else { 1 - low };
        Bar {
            near: tail.min(head),
            last: tail.max(head),
            shift: shift.rem_euclid(gap as i32) as u32,
            run: gap - 1 - (high - low) as u32,
            gap,
        }
    }

    /// Marks the times ruled out, by one division; had one of them no mark before?
    pub fn mark(&self, times: &[u32], row: &mut [bool]) -> bool {
        let (run, gap) = (self.run as usize, self.gap as usize);
        let start = ((times[self.near as usize] + self.shift) % self.gap) as usize;
        let mut fresh = false;
        // The run of the lap before may reach into the row.
        if start + run > gap {
            fresh = mark_run(&mut row[..start + run - gap]);
        }
        let mut from = start;
        while from < row.len() {
            let end = row.len().min(from + run);
            fresh |= mark_run(&mut row[from..end]);
            from += gap;
        }
        fresh
    }
}

/// Had a place of the run no mark before?
fn mark_run(run: &mut [bool]) -> bool {
    let mut fresh = false;
    for place in run {
        fresh |= !*place;
        *place = true;
    }
    fresh
}
