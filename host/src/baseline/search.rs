//! solve's search: event after event, each at its first time that no arc to an earlier one rules
//! out. From an event that can't be placed it goes back to the last one that had a part in that.

use super::bar::Bar;
use super::closure::{longer, Closed, MOST};
use crate::network::Network;

/// Stands for no arc.
const NONE: u32 = MOST as u32;

/// What is counted on the way.
trait Count {
    /// May the search go on?
    fn add_step(&mut self) -> bool;
    fn add_division(&mut self);
}

/// Nothing, where the search is timed.
impl Count for () {
    fn add_step(&mut self) -> bool {
        true
    }

    fn add_division(&mut self) {}
}

/// How large a search is: the closure's rounds; how many arcs it has, the closure's and the network's
/// own; its steps are the events whose row is marked, each time anew, and each arc that is marked
/// there costs a division. All are 0 where the closure alone has the answer.
#[derive(Default)]
pub struct Size {
    pub rounds: u32,
    pub arcs: usize,
    pub steps: u64,
    pub divisions: u64,
}

/// A search that is measured is stopped after so many steps, as if it had placed every event.
pub const MOST_STEPS: u64 = 200_000;

impl Count for Size {
    fn add_step(&mut self) -> bool {
        self.steps += 1;
        self.steps < MOST_STEPS
    }

    fn add_division(&mut self) {
        self.divisions += 1;
    }
}

/// The events that have a part in something.
type Blame = [bool; 64];

/// What the search asks again and again, worked out once: what the arcs rule out, the first arc of
/// each event that it is the later end of, and the next arc with the same later end.
struct Search<'a, C> {
    periods: &'a [u32],
    bars: &'a [Bar],
    firsts: [u32; 64],
    nexts: [u32; MOST],
    count: C,
}

pub fn smallest(network: &Network, times: &mut [u32]) -> bool {
    let mut bars = [Bar::default(); MOST];
    let closed = longer(network, &mut bars);
    closed.rounds > 0
        && Search::new(network.periods, closed.bars, ()).place(times, 0, &mut [false; 64])
}

/// The size of solve's search on a network that is in order.
pub fn search_size(network: &Network) -> Size {
    size_over(network, &longer(network, &mut [Bar::default(); MOST]))
}

/// The same over the arcs that another closure made.
pub fn size_over(network: &Network, closed: &Closed) -> Size {
    let size = Size {
        rounds: closed.rounds,
        arcs: closed.bars.len(),
        ..Size::default()
    };
    if closed.rounds == 0 {
        return size;
    }
    let mut search = Search::new(network.periods, closed.bars, size);
    search.place(&mut [0; 64], 0, &mut [false; 64]);
    search.count
}

/// The first place from there on without a mark. Where 64 are marked, that is seen at once.
fn next_time(row: &[bool], from: usize) -> Option<usize> {
    let mut skipped = from;
    while let Some(block) = row.get(skipped..skipped + 64) {
        if block.iter().fold(false, |free, marked| free | !marked) {
            break;
        }
        skipped += 64;
    }
    let free = row[skipped..].iter().position(|marked| !marked);
    free.map(|wait| skipped + wait)
}

impl<'a, C: Count> Search<'a, C> {
    fn new(periods: &'a [u32], bars: &'a [Bar], count: C) -> Self {
        let mut search = Search {
            periods,
            bars,
            firsts: [NONE; 64],
            nexts: [NONE; MOST],
            count,
        };
        for (arc, bar) in bars.iter().enumerate().rev() {
            let last = bar.last as usize;
            search.nexts[arc] = search.firsts[last];
            search.firsts[last] = arc as u32;
        }
        search
    }

    /// Places the event and all later ones; false if that can't be, and then no other times of the
    /// events that are not blamed would help.
    fn place(&mut self, times: &mut [u32], event: usize, blame: &mut Blame) -> bool {
        let Some(&period) = self.periods.get(event) else {
            return true;
        };
        if !self.count.add_step() {
            return true;
        }
        let mut row = [false; 3600];
        let row = &mut row[..period as usize];
        self.mark(times, event, row, blame);
        let mut deeper = [false; 64];
        let mut from = 0;
        while let Some(time) = next_time(row, from) {
            times[event] = time as u32;
            if self.place(times, event + 1, &mut deeper) {
                return true;
            }
            if !deeper[event] {
                *blame = deeper;
                return false;
            }
            for (blamed, deeper) in blame.iter_mut().zip(&deeper) {
                *blamed |= deeper;
            }
            from = time + 1;
        }
        false
    }

    /// Marks the times that the arcs between the event and earlier ones rule out. An earlier event
    /// is blamed if an arc to it rules out a time that none before it did.
    fn mark(&mut self, times: &[u32], event: usize, row: &mut [bool], blame: &mut Blame) {
        *blame = [false; 64];
        let mut arc = self.firsts[event] as usize;
        while let Some(bar) = self.bars.get(arc) {
            self.count.add_division();
            if bar.mark(times, row) {
                blame[bar.near as usize] = true;
            }
            arc = self.nexts[arc] as usize;
        }
    }
}
