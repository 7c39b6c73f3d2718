//! SAT solvers as they are found on the path: run on a file, timed, and their answers read.

use std::io::Read;
use std::path::Path;
use std::process::{Command, Stdio};
use std::sync::mpsc;
use std::time::{Duration, Instant};
use std::{env, thread};

/// A command, and the words before the file's name that make it say its answer alone.
#[derive(Clone, Copy)]
pub struct Solver {
    pub name: &'static str,
    pub words: &'static [&'static str],
}

pub const SOLVERS: [Solver; 2] = [
    Solver {
        name: "cadical",
        words: &["-q", "-n"],
    },
    Solver {
        name: "minisat",
        words: &["-verb=0"],
    },
];

impl Solver {
    pub fn is_on_path(&self) -> bool {
        let path = env::var_os("PATH").unwrap_or_default();
        env::split_paths(&path).any(|folder| folder.join(self.name).is_file())
    }

    /// Is the question in the file satisfiable, and how long did the solver take, from the start of
    /// its process to the end? None if that is later than the limit; it is stopped then.
    pub fn run(&self, file: &Path, limit: Duration) -> Option<(bool, Duration)> {
        let start = Instant::now();
        let mut process = Command::new(self.name)
            .args(self.words)
            .arg(file)
            .stdout(Stdio::piped())
            .stderr(Stdio::null())
            .spawn()
            .unwrap_or_else(|error| panic!("{}: {error}", self.name));
        let mut stdout = process.stdout.take().expect("a pipe");
        let (sender, receiver) = mpsc::channel();
        thread::spawn(move || {
            let mut output = String::new();
            // Nobody waits for what comes after the limit.
            let _ = sender.send(stdout.read_to_string(&mut output).map(|_| output));
        });
        let output = receiver.recv_timeout(limit);
        if output.is_err() {
            process.kill().expect("the solver is stopped");
        }
        process.wait().expect("the solver has ended");
        let time = start.elapsed();
        let output = output.ok()?.expect("a text");
        let answer = verdict(&output);
        let answer = answer.unwrap_or_else(|| panic!("{} says {output:?}", self.name));
        Some((answer, time))
    }
}

/// What a solver's output says, if anything: is the question satisfiable?
pub fn verdict(output: &str) -> Option<bool> {
    output
        .lines()
        .find_map(|line| match line.strip_prefix("s ").unwrap_or(line) {
            "SATISFIABLE" => Some(true),
            "UNSATISFIABLE" => Some(false),
            _ => None,
        })
}
