//! Damages to a text that read accepts: each at a random place, and with a refusal that is known.

mod header;
mod records;

pub use header::HEADER;
pub use records::{NO_EVENT, ONE_RECORD, RECORDS};

use super::texts::Draft;
use super::Random;
use crate::network::{Filled, Rows};

/// Changes a text with two records at least; gives what it is now refused with.
pub type TextDamage = fn(&mut Random, &mut Draft) -> Filled;

/// One of the six rows is too short, often by one entry.
pub fn short_row(random: &mut Random, rows: &mut Rows) {
    let periods = random.pick(&[63, 63, 1, 0]);
    let arcs = random.pick(&[255, 255, 64, 0]);
    match random.below(6) {
        0 => rows.periods.truncate(periods),
        1 => rows.tail.truncate(arcs),
        2 => rows.head.truncate(arcs),
        3 => rows.lower.truncate(arcs),
        4 => rows.upper.truncate(arcs),
        _ => rows.weight.truncate(arcs),
    }
}

/// Changes, deletes or inserts a byte, or cuts the text off: it may be accepted still.
pub fn scratch(random: &mut Random, text: &mut Vec<u8>) {
    let any = random.below(256) as u8;
    let likely = random.pick(b"0123456789,-+ \r\n\"");
    let byte = random.pick(&[any, likely, likely]);
    let place = random.below(text.len() + 1);
    match random.below(10) {
        0 => text.truncate(place),
        1..=3 => text.insert(place, byte),
        _ if place == text.len() => text.push(byte),
        4..=6 => drop(text.remove(place)),
        _ => text[place] = byte,
    }
}
