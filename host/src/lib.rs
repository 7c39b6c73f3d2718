//! Safe calls into the archive of Rubblewaltz, and what its tests compare them with.
//!
//! `check`, `measure`, `solve`, `rebuild`, `read` and `print` here are the archive's. [`reference`]
//! holds the same calls written from the paper and the requests alone; [`random`] makes the cases,
//! and [`compare`] runs both and looks for a difference.
//!
//! ```
//! use rubblewaltz_host::{solve, Network};
//!
//! let network = Network {
//!     periods: &[60, 60, 60],
//!     tail: &[0, 1, 2],
//!     head: &[1, 2, 0],
//!     lower: &[10, 20, 28],
//!     upper: &[15, 25, 30],
//!     weight: &[3, 1, 2],
//! };
//! let (mut times, mut tensions, mut turns) = ([0; 3], [0; 3], [0; 3]);
//! let answer = solve(&network, &mut times, &mut tensions, &mut turns);
//! assert_eq!((answer.code, answer.cost, times), (0, 4, [0, 10, 30]));
//! assert_eq!((tensions, turns), ([10, 20, 30], [0, 0, 1]));
//! ```

#![deny(unsafe_code)]

pub mod baseline;
#[cfg(bridged)]
mod bridge;
pub mod c_program;
pub mod compare;
pub mod files;
pub mod full;
mod network;
pub mod random;
#[cfg(not(bridged))]
mod raw;
pub mod reference;
pub mod round_trip;
pub mod sat;
pub mod special;
pub mod strength;
pub mod tally;
pub mod timing;
pub mod trials;

pub use network::{Answer, Arc, Filled, Gauge, Network, NetworkMut, Rows};

#[cfg(bridged)]
pub use bridge::{check, gauge, measure, print, read, rebuild, solve};
#[cfg(not(bridged))]
pub use raw::{check, gauge, measure, print, read, rebuild, solve};
