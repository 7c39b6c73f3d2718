//! Cases from fixed seeds: random networks and texts, damaged ones, and the values at every limit.

pub mod damage;
pub mod edges;
mod generator;
mod networks;
mod printing;
mod rebuilding;
mod solving;
pub mod text_damage;
mod texts;

pub use generator::Random;
pub use networks::{heavy, linked, planted, unplanted};
pub use printing::{damaged_print, printable};
pub use rebuilding::{few_timetables, knotted, unrebuilt, vary_tensions, with_tensions};
pub use solving::{by_laps, dense, loose, small, solvable, unsolved};
pub use texts::{any_rows, lent, some_rows, spelled, Draft};
