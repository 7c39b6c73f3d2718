//! solve on every network of the folder networks whose answer is known: is it right, how long does
//! it take, and how long do SAT solvers take to tell whether any timetable is feasible? Run with
//! `cargo run --release --example answers`; the solvers are those on the path.

use rubblewaltz_host::compare::Version;
use rubblewaltz_host::files::{self, Known};
use rubblewaltz_host::sat::{self, Solver, SOLVERS};
use rubblewaltz_host::timing::{announce, best, is_emulated, ratio};
use rubblewaltz_host::{baseline, solve, Network};
use std::fs::{self, File};
use std::hint::black_box;
use std::io::{BufWriter, Write};
use std::path::{Path, PathBuf};
use std::time::Duration;
use std::{env, process};

/// Questions with more clauses are not asked.
const MOST_CLAUSES: u64 = 5_000_000;

/// A solver is stopped after that.
const LIMIT: Duration = Duration::from_secs(60);

/// The goal in milliseconds for one solve.
const GOAL: f64 = 500.0;

/// The goal for the archive's time by that of safe Rust.
const RATIO_GOAL: f64 = 1.2;

/// What was measured on one network, in milliseconds for one solve.
struct Measured {
    name: String,
    archive: f64,
    baseline: f64,
}

fn main() {
    announce();
    let solvers: Vec<Solver> = SOLVERS.into_iter().filter(Solver::is_on_path).collect();
    print_head(&solvers);
    let (long, short): (Vec<Known>, Vec<Known>) =
        files::answers().into_iter().partition(Known::is_long);
    let measured: Vec<Measured> = short.iter().map(|known| report(known, &solvers)).collect();
    for known in &long {
        println!(
            "{:<22}not timed: over {} steps",
            known.name,
            baseline::MOST_STEPS
        );
    }
    print_goals(&measured);
}

fn print_head(solvers: &[Solver]) {
    if solvers.is_empty() {
        println!("No SAT solver is on the path.");
    }
    print!("network               answer        steps  archive ms safe Rust ms  ratio");
    for solver in solvers {
        print!("{:>12}", format!("{} ms", solver.name));
    }
    println!();
}

/// A line of the table.
fn report(known: &Known, solvers: &[Solver]) -> Measured {
    let case = known.unsolved();
    let network = case.rows.network();
    let (archive, baseline) = (
        milliseconds(known, solve),
        milliseconds(known, baseline::solve),
    );
    let answer = if known.times.is_some() {
        "feasible"
    } else {
        "infeasible"
    };
    print!(
        "{:<22}{answer:<10}{:>9}{archive:>12.3}{baseline:>13.3}{:>7}",
        known.name,
        baseline::search_size(&network).steps,
        ratio(archive, baseline)
    );
    if !solvers.is_empty() {
        ask(known, &network, solvers);
    }
    println!();
    Measured {
        name: known.name.clone(),
        archive,
        baseline,
    }
}

/// For one call. The first must answer and leave what is known.
fn milliseconds(known: &Known, version: Version) -> f64 {
    let mut case = known.unsolved();
    let answer = case.call(version);
    assert_eq!((answer, case), known.solved(), "{}", known.name);
    let mut case = known.unsolved();
    best(|| black_box(&mut case).call(version)) / 1000.0
}

/// The solvers' times, each checked to have the known answer.
fn ask(known: &Known, network: &Network, solvers: &[Solver]) {
    let clauses = sat::clauses(network);
    if clauses > MOST_CLAUSES {
        print!("  not asked: {clauses} clauses");
        return;
    }
    let file = written(network);
    for solver in solvers {
        match solver.run(&file, LIMIT) {
            None => print!("{:>12}", format!("over {} s", LIMIT.as_secs())),
            Some((answer, time)) => {
                assert_eq!(
                    answer,
                    known.times.is_some(),
                    "{}: {}",
                    solver.name,
                    known.name
                );
                print!("{:>12.3}", time.as_secs_f64() * 1000.0);
            }
        }
    }
    fs::remove_file(&file).expect("the question's file");
}

/// A file with the question whether any timetable is feasible.
fn written(network: &Network) -> PathBuf {
    let path = env::temp_dir().join(format!("rubblewaltz-{}.cnf", process::id()));
    let write = |path: &Path| {
        let mut out = BufWriter::new(File::create(path)?);
        sat::write(network, &mut out)?;
        out.flush()
    };
    write(&path).unwrap_or_else(|error| panic!("{}: {error}", path.display()));
    path
}

/// Which goals hold?
fn print_goals(measured: &[Measured]) {
    let time = |one: &Measured| one.archive;
    print_goal("every solve at most 500 ms", GOAL, measured, time);
    if is_emulated() {
        println!("ratio at most 1.2: not measured on this processor");
    } else {
        let ratio = |one: &Measured| one.archive / one.baseline;
        print_goal("ratio at most 1.2", RATIO_GOAL, measured, ratio);
    }
}

fn print_goal(goal: &str, most: f64, measured: &[Measured], value: impl Fn(&Measured) -> f64) {
    let by_value = |one: &&Measured, other: &&Measured| value(one).total_cmp(&value(other));
    let worst = measured.iter().max_by(by_value);
    let worst = worst.expect("a network");
    let holds = if value(worst) <= most {
        "holds"
    } else {
        "does not hold"
    };
    println!("{goal}: {holds}, {:.2} on {}", value(worst), worst.name);
}
