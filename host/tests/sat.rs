//! The question for SAT solvers against the reference, and how their answers are read.

use rubblewaltz_host::compare::Case;
use rubblewaltz_host::random::{small, Random};
use rubblewaltz_host::reference::{advance, met};
use rubblewaltz_host::sat::{self, verdict, Solver};
use rubblewaltz_host::{Arc, Network, Rows};
use std::path::Path;
use std::time::Duration;

/// Assignments of more variables are not tried.
const MOST_VARIABLES: u64 = 12;

fn arc(tail: u32, head: u32, lower: i32, upper: i32) -> Arc {
    Arc {
        tail,
        head,
        lower,
        upper,
        weight: 1,
    }
}

fn written(network: &Network) -> String {
    let mut text = Vec::new();
    sat::write(network, &mut text).expect("a row takes all");
    String::from_utf8(text).expect("a text")
}

/// The clauses after the header, which tells how many variables and clauses there are.
fn clauses(text: &str) -> Vec<Vec<i64>> {
    let numbers = |line: &str| -> Vec<i64> {
        let words = line.split(' ').map(|word| word.parse().expect("a number"));
        words.collect()
    };
    let lines = text.lines().skip(1).map(numbers);
    lines
        .map(|mut line| {
            assert_eq!(line.pop(), Some(0));
            line
        })
        .collect()
}

/// Variable v is true in an assignment if its bit v - 1 is set.
fn is_true(assignment: u64, literal: i64) -> bool {
    let bit = assignment >> (literal.unsigned_abs() - 1) & 1;
    (bit == 1) == (literal > 0)
}

fn models(clauses: &[Vec<i64>], variables: u64) -> usize {
    let holds = |assignment: u64, clause: &Vec<i64>| {
        let mut literals = clause.iter();
        literals.any(|&literal| is_true(assignment, literal))
    };
    (0..1 << variables)
        .filter(|&assignment| clauses.iter().all(|clause| holds(assignment, clause)))
        .count()
}

fn feasible_timetables(network: &Network) -> usize {
    let n = network.periods.len();
    let mut times = vec![0; n];
    let mut count = 0;
    loop {
        let mut arcs = 0..network.tail.len();
        count += usize::from(arcs.all(|arc| met(network, arc, &times)));
        if !advance(network, &mut times, n) {
            return count;
        }
    }
}

/// The first arc has the period 1 and is always met, the second at two of four pairs of times.
#[test]
fn a_network_by_hand() {
    let rows = Rows::new(&[2, 3, 2], &[arc(0, 1, 0, 0), arc(0, 2, 1, 1)]);
    let text = written(&rows.network());
    let lines: Vec<&str> = text.lines().collect();
    let expected = [
        "p cnf 7 10",
        "1 2 0",
        "-1 -2 0",
        "3 4 5 0",
        "-3 -4 0",
        "-3 -5 0",
        "-4 -5 0",
        "6 7 0",
        "-6 -7 0",
        "-1 -6 0",
        "-2 -7 0",
    ];
    assert_eq!(lines, expected);
    assert_eq!(models(&clauses(&text), 7), 6);
}

#[test]
fn contradicting_arcs_by_hand() {
    let rows = Rows::new(&[3, 3], &[arc(0, 1, 1, 1), arc(1, 0, 1, 1)]);
    let network = rows.network();
    assert_eq!((sat::variables(&network), sat::clauses(&network)), (6, 20));
    let text = written(&network);
    assert_eq!(models(&clauses(&text), 6), 0);
}

/// The whole of 64 events at 3,600, without writing it.
#[test]
fn great_numbers_of_clauses() {
    let rows = Rows::new(&[3600; 64], &[arc(0, 63, 5, 5), arc(63, 0, 0, i32::MAX)]);
    let network = rows.network();
    assert_eq!(sat::variables(&network), 230_400);
    assert_eq!(sat::clauses(&network), 64 * 6_478_201 + 3600 * 3599);
}

/// There is an assignment for each feasible timetable, and no other.
#[test]
fn assignments_are_the_feasible_timetables() {
    let mut random = Random::new(51);
    let (mut satisfiable, mut unsatisfiable) = (0, 0);
    for _ in 0..4000 {
        let Case { rows, .. } = small(&mut random);
        let network = rows.network();
        let variables = sat::variables(&network);
        if variables > MOST_VARIABLES {
            continue;
        }
        let text = written(&network);
        let clauses = clauses(&text);
        let header = format!("p cnf {variables} {}\n", clauses.len());
        assert!(text.starts_with(&header), "{rows:?}: {text}");
        assert_eq!(clauses.len() as u64, sat::clauses(&network), "{rows:?}");
        let models = models(&clauses, variables);
        assert_eq!(models, feasible_timetables(&network), "{rows:?}");
        satisfiable += u32::from(models > 0);
        unsatisfiable += u32::from(models == 0);
    }
    println!("{satisfiable} satisfiable, {unsatisfiable} not");
    assert!(satisfiable > 200 && unsatisfiable > 200);
}

#[test]
fn answers_as_solvers_print_them() {
    assert_eq!(verdict("s SATISFIABLE\n"), Some(true));
    assert_eq!(verdict("c a comment\ns UNSATISFIABLE\n"), Some(false));
    assert_eq!(
        verdict("WARNING: for repeatability\nSATISFIABLE\n"),
        Some(true)
    );
    assert_eq!(verdict("UNSATISFIABLE\n"), Some(false));
    assert_eq!(verdict("INDETERMINATE\n"), None);
    assert_eq!(verdict("c UNSATISFIABLE\n"), None);
    assert_eq!(verdict(""), None);
}

/// The shell stands in for a solver.
#[test]
fn a_solver_is_timed_and_stopped() {
    let run = |words, limit| Solver { name: "sh", words }.run(Path::new("question"), limit);
    let minute = Duration::from_secs(60);
    let answered = run(&["-c", "sleep 0.1; echo s UNSATISFIABLE"], minute);
    let (answer, time) = answered.expect("an answer");
    assert!(!answer && time >= Duration::from_millis(100), "{time:?}");
    let late = run(&["-c", "exec sleep 60"], Duration::from_millis(50));
    assert_eq!(late, None);
}
