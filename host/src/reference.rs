//! The calls as the paper defines them, and the turns, read and print as they were asked for,
//! written from those words alone: wide numbers, one rule after the other, no thought of speed. It
//! shares no code with the archive.

mod check;
mod judge;
mod measure;
mod potentials;
mod rebuild;
mod rule;
mod solve;
mod text;

pub use check::check;
pub use measure::measure;
pub use rebuild::{rebuild, rebuild_by_trying};
pub use rule::{
    arc_period, common_divisor, met, remainder, repeats, repeats_earlier, slack, tension, turn,
    working_upper,
};
pub use solve::{
    advance, finishes_within, smallest, smallest_by_skipping, solve, solve_by_skipping,
};
pub use text::{network_of, print, read, texts_of};
