//! Networks for print, and rows of bytes to be written.

use super::damage::{self, Damage, NETWORK};
use super::texts::any_rows;
use super::Random;
use crate::compare::{Case, TextCase};
use crate::reference::texts_of;

/// Values of any size; each row of bytes is often as long as its text, or one byte off.
pub fn printable(random: &mut Random) -> TextCase {
    let rows = any_rows(random);
    let (events, arcs) = texts_of(&rows.network());
    TextCase {
        events: kept_bytes(random, events.len()),
        arcs: kept_bytes(random, arcs.len()),
        rows,
    }
}

fn kept_bytes(random: &mut Random, wanted: usize) -> Vec<u8> {
    let length = match random.below(12) {
        0 => wanted - 1,
        1 => random.below(wanted),
        2..=6 => wanted,
        7 => wanted + 1,
        _ => wanted + random.below(100),
    };
    (0..length).map(|_| random.below(256) as u8).collect()
}

/// The same with too few or too many events, wrong arc rows, or both; and the code of that.
pub fn damaged_print(random: &mut Random) -> (u32, TextCase) {
    let both: [Damage; 2] = [NETWORK[0], NETWORK[2]];
    let damages = random.pick(&[&both[..1], &both[1..], &both]);
    let lent = printable(random);
    let mut case = Case {
        rows: lent.rows,
        ..Case::default()
    };
    damage::apply(random, &mut case, damages);
    let rows = case.rows;
    (damages[0].0, TextCase { rows, ..lent })
}
