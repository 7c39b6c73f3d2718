//! Two networks with the most arcs that there may be, none of which repeats another. Their smallest
//! timetables have all times 0.

use crate::network::{Arc, Rows};

const ARCS: u32 = 256;

/// All arcs between the same two events, each from a tick earlier than the one before.
pub fn parallel() -> Rows {
    let arc = |k: u32| Arc {
        tail: 0,
        head: 1,
        lower: -(k as i32),
        upper: 0,
        weight: 1,
    };
    let arcs: Vec<Arc> = (0..ARCS).map(arc).collect();
    Rows::new(&[3600, 3600], &arcs)
}

/// Each arc with ends of its own.
pub fn apart() -> Rows {
    let arc = |k: u32| Arc {
        tail: k % 64,
        head: (k + k / 64 + 1) % 64,
        lower: 0,
        upper: 0,
        weight: 1,
    };
    let arcs: Vec<Arc> = (0..ARCS).map(arc).collect();
    Rows::new(&[3600; 64], &arcs)
}
