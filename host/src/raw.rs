//! The archives' exports and the only unsafe code of the package.

#![allow(unsafe_code)]

use crate::network::{Answer, Filled, Gauge, Network, NetworkMut};

extern "C" {
    fn rubblewaltz_check(
        periods: *const u32,
        periods_len: usize,
        tail: *const u32,
        tail_len: usize,
        head: *const u32,
        head_len: usize,
        lower: *const i32,
        lower_len: usize,
        upper: *const i32,
        upper_len: usize,
        weight: *const u32,
        weight_len: usize,
        times: *const u32,
        times_len: usize,
    ) -> Answer;

    fn rubblewaltz_measure(
        periods: *const u32,
        periods_len: usize,
        tail: *const u32,
        tail_len: usize,
        head: *const u32,
        head_len: usize,
        lower: *const i32,
        lower_len: usize,
        upper: *const i32,
        upper_len: usize,
        weight: *const u32,
        weight_len: usize,
        times: *const u32,
        times_len: usize,
        tensions: *mut i32,
        tensions_len: usize,
        turns: *mut i32,
        turns_len: usize,
    ) -> Answer;

    fn rubblewaltz_solve(
        periods: *const u32,
        periods_len: usize,
        tail: *const u32,
        tail_len: usize,
        head: *const u32,
        head_len: usize,
        lower: *const i32,
        lower_len: usize,
        upper: *const i32,
        upper_len: usize,
        weight: *const u32,
        weight_len: usize,
        times: *mut u32,
        times_len: usize,
        tensions: *mut i32,
        tensions_len: usize,
        turns: *mut i32,
        turns_len: usize,
    ) -> Answer;

    fn rubblewaltz_rebuild(
        periods: *const u32,
        periods_len: usize,
        tail: *const u32,
        tail_len: usize,
        head: *const u32,
        head_len: usize,
        lower: *const i32,
        lower_len: usize,
        upper: *const i32,
        upper_len: usize,
        weight: *const u32,
        weight_len: usize,
        tensions: *const i32,
        tensions_len: usize,
        times: *mut u32,
        times_len: usize,
    ) -> Answer;

    fn rubblewaltz_read(
        events: *const u8,
        events_len: usize,
        arcs: *const u8,
        arcs_len: usize,
        periods: *mut u32,
        periods_len: usize,
        tail: *mut u32,
        tail_len: usize,
        head: *mut u32,
        head_len: usize,
        lower: *mut i32,
        lower_len: usize,
        upper: *mut i32,
        upper_len: usize,
        weight: *mut u32,
        weight_len: usize,
    ) -> Filled;

    fn rubblewaltz_print(
        periods: *const u32,
        periods_len: usize,
        tail: *const u32,
        tail_len: usize,
        head: *const u32,
        head_len: usize,
        lower: *const i32,
        lower_len: usize,
        upper: *const i32,
        upper_len: usize,
        weight: *const u32,
        weight_len: usize,
        events: *mut u8,
        events_len: usize,
        arcs: *mut u8,
        arcs_len: usize,
    ) -> Filled;

    fn rubblewaltz_gauge(
        periods: *const u32,
        periods_len: usize,
        tail: *const u32,
        tail_len: usize,
        head: *const u32,
        head_len: usize,
        lower: *const i32,
        lower_len: usize,
        upper: *const i32,
        upper_len: usize,
        weight: *const u32,
        weight_len: usize,
        longer: *mut u32,
        longer_len: usize,
    ) -> Gauge;
}

/// Makes the call with the network's six rows, each as pointer and length, and the arguments named.
macro_rules! lend {
    ($call:ident, $network:expr, $($argument:expr),+) => {
        $call(
            $network.periods.as_ptr(),
            $network.periods.len(),
            $network.tail.as_ptr(),
            $network.tail.len(),
            $network.head.as_ptr(),
            $network.head.len(),
            $network.lower.as_ptr(),
            $network.lower.len(),
            $network.upper.as_ptr(),
            $network.upper.len(),
            $network.weight.as_ptr(),
            $network.weight.len(),
            $($argument),+
        )
    };
}

/// Is the timetable right? Codes 1 to 9, 14, 15, 18, or 0 with the cost.
pub fn check(network: &Network, times: &[u32]) -> Answer {
    // SAFETY: each pointer goes with the length of its own slice, and the call keeps none of them.
    unsafe { lend!(rubblewaltz_check, network, times.as_ptr(), times.len()) }
}

/// The timetable's tensions, turns and cost. Codes 1 to 9, 14, 18, or 0 with tensions and turns
/// 0..m written.
pub fn measure(
    network: &Network,
    times: &[u32],
    tensions: &mut [i32],
    turns: &mut [i32],
) -> Answer {
    // SAFETY: as in `check`; each row written is borrowed mutably and so overlaps no other.
    unsafe {
        lend!(
            rubblewaltz_measure,
            network,
            times.as_ptr(),
            times.len(),
            tensions.as_mut_ptr(),
            tensions.len(),
            turns.as_mut_ptr(),
            turns.len()
        )
    }
}

/// The smallest feasible timetable. Codes 1 to 10, 18, or 0 with times 0..n, tensions and turns
/// 0..m written.
pub fn solve(
    network: &Network,
    times: &mut [u32],
    tensions: &mut [i32],
    turns: &mut [i32],
) -> Answer {
    // SAFETY: as in `measure`, of the three rows written.
    unsafe {
        lend!(
            rubblewaltz_solve,
            network,
            times.as_mut_ptr(),
            times.len(),
            tensions.as_mut_ptr(),
            tensions.len(),
            turns.as_mut_ptr(),
            turns.len()
        )
    }
}

/// The timetable of these tensions. Codes 1 to 9, 11 to 13, 18, or 0 with times 0..n written.
pub fn rebuild(network: &Network, tensions: &[i32], times: &mut [u32]) -> Answer {
    // SAFETY: as in `measure`.
    unsafe {
        lend!(
            rubblewaltz_rebuild,
            network,
            tensions.as_ptr(),
            tensions.len(),
            times.as_mut_ptr(),
            times.len()
        )
    }
}

/// The network of two texts. Codes 9, 16, 17, or 0 with periods 0..n and arcs 0..m written.
pub fn read(events: &[u8], arcs: &[u8], network: NetworkMut) -> Filled {
    // SAFETY: as in `measure`, of the six rows written.
    unsafe {
        rubblewaltz_read(
            events.as_ptr(),
            events.len(),
            arcs.as_ptr(),
            arcs.len(),
            network.periods.as_mut_ptr(),
            network.periods.len(),
            network.tail.as_mut_ptr(),
            network.tail.len(),
            network.head.as_mut_ptr(),
            network.head.len(),
            network.lower.as_mut_ptr(),
            network.lower.len(),
            network.upper.as_mut_ptr(),
            network.upper.len(),
            network.weight.as_mut_ptr(),
            network.weight.len(),
        )
    }
}

/// The two texts of a network. Codes 1, 3, 9, or 0 with both texts written.
pub fn print(network: &Network, events: &mut [u8], arcs: &mut [u8]) -> Filled {
    // SAFETY: as in `measure`, of both rows written.
    unsafe {
        lend!(
            rubblewaltz_print,
            network,
            events.as_mut_ptr(),
            events.len(),
            arcs.as_mut_ptr(),
            arcs.len()
        )
    }
}

/// What solve's closure makes of a network. Codes 1 to 9, 18, or 0 with five numbers for each arc
/// written.
pub fn gauge(network: &Network, longer: &mut [u32]) -> Gauge {
    // SAFETY: as in `measure`.
    unsafe {
        lend!(
            rubblewaltz_gauge,
            network,
            longer.as_mut_ptr(),
            longer.len()
        )
    }
}
