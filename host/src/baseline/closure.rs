//! What solve does before its search: for each two events it narrows down how long the second may
//! come after the first, by what is known of a third, and makes further arcs of what is left.

use super::bar::Bar;
use super::common_divisor;
use crate::network::Network;

/// The most arcs: one for each two of 64 events, and 256 of the network's own.
pub const MOST: usize = 64 * 63 / 2 + 256;

/// No more rounds are made, whatever the last one has narrowed.
const ROUNDS: u32 = 64;

/// An entry for each two events, in the row of the first.
type Table = [[u32; 64]; 64];

/// How long after the first event the second may come: by laps of `gap` ticks, from `low` on up to
/// `width` ticks more.
struct Spans {
    low: Table,
    width: Table,
    gap: Table,
}

/// What becomes of a span. An empty one means that no timetable is feasible.
enum Change {
    Empty,
    Same,
    Narrower,
}

impl Spans {
    /// Any time will do.
    fn new(periods: &[u32]) -> Self {
        let mut spans = Spans {
            low: [[0; 64]; 64],
            width: [[0; 64]; 64],
            gap: [[0; 64]; 64],
        };
        for (i, &first) in periods.iter().enumerate() {
            for (j, &second) in periods.iter().enumerate().skip(i) {
                let gap = common_divisor(first, second);
                for (i, j) in [(i, j), (j, i)] {
                    spans.width[i][j] = gap - 1;
                    spans.gap[i][j] = gap;
                }
            }
        }
        spans
    }

    /// Narrows the span, seen from either event, to what it has in common with another.
    fn narrow(&mut self, i: usize, j: usize, low: u32, width: u32) -> Change {
        let gap = self.gap[i][j];
        let present = (self.low[i][j], self.width[i][j]);
        match cut(gap, present, (low, width)) {
            None => Change::Empty,
            Some((_, width)) if width >= present.1 => Change::Same,
            Some((low, width)) => {
                self.low[i][j] = low;
                self.width[i][j] = width;
                self.low[j][i] = (2 * gap - (low + width)) % gap;
                self.width[j][i] = width;
                Change::Narrower
            }
        }
    }

    /// How many rounds it took, or 0 if a span is empty. An arc may cut off a piece that it could not
    /// cut off a wider span, so that each round begins with the arcs.
    fn close(&mut self, periods: &[u32], own: &[Bar]) -> u32 {
        for round in 1..=ROUNDS {
            if !self.cut_by_arcs(own) {
                return 0;
            }
            match self.round(periods) {
                Change::Empty => return 0,
                Change::Same => return round,
                Change::Narrower => (),
            }
        }
        ROUNDS
    }

    /// Narrows the span of each arc's ends by the arc; false if one is empty.
    fn cut_by_arcs(&mut self, own: &[Bar]) -> bool {
        own.iter().all(|bar| {
            let low = (bar.shift + bar.run) % bar.gap;
            let width = bar.gap - 1 - bar.run;
            let change = self.narrow(bar.near as usize, bar.last as usize, low, width);
            !matches!(change, Change::Empty)
        })
    }

    /// Each two events by way of each third.
    fn round(&mut self, periods: &[u32]) -> Change {
        let mut change = Change::Same;
        for (k, &period) in periods.iter().enumerate() {
            for i in 0..periods.len() {
                match self.join(i, k, period, periods.len()) {
                    Change::Empty => return Change::Empty,
                    Change::Same => (),
                    Change::Narrower => change = Change::Narrower,
                }
            }
        }
        change
    }

    /// From event `i` by way of `k`, whose period is given, to each event behind `i`. Laps that do
    /// not divide that period tell nothing.
    fn join(&mut self, i: usize, k: usize, period: u32, n: usize) -> Change {
        let mut change = Change::Same;
        let (low, width) = (self.low[i][k], self.width[i][k]);
        for j in i + 1..n {
            let gap = self.gap[i][j];
            let width = width + self.width[k][j];
            // Mostly the lap is the whole period, which takes no division.
            if gap <= width || (gap != period && !period.is_multiple_of(gap)) {
                continue;
            }
            let low = (low + self.low[k][j]) % gap;
            match self.narrow(i, j, low, width) {
                Change::Empty => return Change::Empty,
                Change::Same => (),
                Change::Narrower => change = Change::Narrower,
            }
        }
        change
    }

    /// Puts the arcs of each event to later ones: one for each span that tells something, and then the
    /// network's own; how many?
    fn put(&self, n: usize, own: &[Bar], bars: &mut [Bar]) -> usize {
        let mut count = 0;
        for i in 0..n {
            for j in i + 1..n {
                let (low, width, gap) = (self.low[i][j], self.width[i][j], self.gap[i][j]);
                if width + 1 < gap {
                    bars[count] = Bar {
                        near: i as u32,
                        last: j as u32,
                        shift: (low + width + 1) % gap,
                        run: gap - 1 - width,
                        gap,
                    };
                    count += 1;
                }
            }
            for bar in own.iter().filter(|bar| bar.near as usize == i) {
                bars[count] = *bar;
                count += 1;
            }
        }
        count
    }
}

/// What two spans have in common, each a low and a width; where that is two pieces, the narrower
/// of the two spans. None if it is nothing.
fn cut(gap: u32, (low, width): (u32, u32), (other, wide): (u32, u32)) -> Option<(u32, u32)> {
    let after = if low <= other {
        other - low
    } else {
        other + gap - low
    };
    let round = after + wide;
    if after <= width {
        if round < gap {
            Some((other, wide.min(width - after)))
        } else if wide < width {
            Some((other, wide))
        } else {
            Some((low, width))
        }
    } else if round < gap {
        None
    } else {
        Some((low, width.min(round - gap)))
    }
}

/// The arcs for the search and how many rounds the closure made: 0 where a span is empty, and then
/// there are no arcs.
pub struct Closed<'a> {
    pub rounds: u32,
    pub bars: &'a [Bar],
}

/// Puts the arcs that the spans make and the network's own, sorted by their earlier end.
pub fn longer<'a>(network: &Network, bars: &'a mut [Bar; MOST]) -> Closed<'a> {
    let (n, m) = (network.periods.len(), network.tail.len());
    let mut own = [Bar::default(); 256];
    for (arc, bar) in own[..m].iter_mut().enumerate() {
        *bar = Bar::new(network, arc);
    }
    let mut spans = Spans::new(network.periods);
    let rounds = spans.close(network.periods, &own[..m]);
    if rounds == 0 {
        return Closed { rounds, bars: &[] };
    }
    let count = spans.put(n, &own[..m], bars);
    Closed {
        rounds,
        bars: &bars[..count],
    }
}
