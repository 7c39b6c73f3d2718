//! A network as a question for a SAT solver: is any timetable feasible at all? A variable stands
//! for each event and each of its times. Each event has one time at least and not two, and no arc
//! has two times at its ends at which it is not met.

mod solver;

pub use solver::{verdict, Solver, SOLVERS};

use crate::network::Network;
use crate::reference::{arc_period, remainder, working_upper};
use std::io::{self, Write};

pub fn variables(network: &Network) -> u64 {
    network
        .periods
        .iter()
        .map(|&period| u64::from(period))
        .sum()
}

/// Found without writing them.
pub fn clauses(network: &Network) -> u64 {
    let of_event = |&period: &u32| 1 + u64::from(period) * u64::from(period - 1) / 2;
    let of_events: u64 = network.periods.iter().map(of_event).sum();
    let of_arcs: u64 = (0..network.tail.len()).map(|arc| unmet(network, arc)).sum();
    of_events + of_arcs
}

/// At how many pairs of times at its ends is the arc not met?
fn unmet(network: &Network, arc: usize) -> u64 {
    let period = |end: u32| u64::from(network.periods[end as usize]);
    let pairs = period(network.tail[arc]) * period(network.head[arc]);
    let g = u64::from(arc_period(network, arc));
    pairs / g * (g - 1 - width(network, arc) as u64)
}

/// The greatest slack with which the arc is met.
fn width(network: &Network, arc: usize) -> i64 {
    working_upper(network, arc) - i64::from(network.lower[arc])
}

/// Writes the question in the DIMACS form.
pub fn write(network: &Network, out: &mut impl Write) -> io::Result<()> {
    writeln!(out, "p cnf {} {}", variables(network), clauses(network))?;
    let mut firsts = Vec::new();
    let mut next = 1;
    for &period in network.periods {
        write_event(out, next, period)?;
        firsts.push(next);
        next += period;
    }
    for arc in 0..network.tail.len() {
        write_arc(network, arc, &firsts, out)?;
    }
    Ok(())
}

/// The variables of an event have the numbers from `first` on.
fn write_event(out: &mut impl Write, first: u32, period: u32) -> io::Result<()> {
    for variable in first..first + period {
        write!(out, "{variable} ")?;
    }
    writeln!(out, "0")?;
    for one in first..first + period {
        for other in one + 1..first + period {
            writeln!(out, "-{one} -{other} 0")?;
        }
    }
    Ok(())
}

fn write_arc(
    network: &Network,
    arc: usize,
    firsts: &[u32],
    out: &mut impl Write,
) -> io::Result<()> {
    let (tail, head) = (network.tail[arc] as usize, network.head[arc] as usize);
    let (g, width) = (arc_period(network, arc), width(network, arc));
    for from in 0..network.periods[tail] {
        for to in 0..network.periods[head] {
            let number = i64::from(to) - i64::from(from) - i64::from(network.lower[arc]);
            if remainder(number, g) > width {
                writeln!(out, "-{} -{} 0", firsts[tail] + from, firsts[head] + to)?;
            }
        }
    }
    Ok(())
}
