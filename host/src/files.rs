//! Reads the benchmark networks in the folder networks, and what solve is known to answer on them.

use crate::compare::Case;
use crate::network::{Answer, Rows};
use crate::reference::{measure, network_of};
use crate::strength::Strength;
use std::fs;

const FOLDER: &str = concat!(env!("CARGO_MANIFEST_DIR"), "/networks");

/// A network's name, its smallest timetable, if it has a feasible one, and how strong solve's closure is
/// on it.
pub struct Known {
    pub name: String,
    pub times: Option<Vec<u32>>,
    pub strength: Strength,
}

impl Known {
    /// Does solve take too long to be waited for?
    pub fn is_long(&self) -> bool {
        self.strength.steps.is_none()
    }

    /// The network with rows for solve to write.
    pub fn unsolved(&self) -> Case {
        Case::unwritten(network(&self.name))
    }

    /// What solve must answer and leave.
    pub fn solved(&self) -> (Answer, Case) {
        let mut left = self.unsolved();
        let Some(times) = &self.times else {
            return (Answer::refusal(10, 0), left);
        };
        left.times.clone_from(times);
        let network = left.rows.network();
        let answer = measure(&network, times, &mut left.tensions, &mut left.turns);
        (answer, left)
    }
}

/// The answers were found by other methods; the strengths are those of this closure.
pub fn answers() -> Vec<Known> {
    let answers = records("ANSWERS.csv", "name,solve,solve_times");
    let strengths = records("STRENGTH.csv", "name,rounds,arcs,steps");
    assert_eq!(answers.len(), strengths.len());
    answers.iter().zip(&strengths).map(known).collect()
}

/// The fields of each line below the header.
fn records(file: &str, header: &str) -> Vec<Vec<String>> {
    let text = String::from_utf8(read(file)).expect("a text");
    let mut lines = text.lines();
    assert_eq!(lines.next(), Some(header));
    let fields = |line: &str| line.split(',').map(String::from).collect();
    lines.map(fields).collect()
}

fn known((answer, strength): (&Vec<String>, &Vec<String>)) -> Known {
    assert_eq!(answer[0], strength[0]);
    let number = |field: &str| field.parse().expect("a number");
    let time = |field: &str| number(field) as u32;
    Known {
        name: answer[0].clone(),
        times: (answer[1] == "feasible").then(|| answer[2].split(' ').map(time).collect()),
        strength: Strength {
            rounds: number(&strength[1]),
            arcs: number(&strength[2]),
            steps: (!strength[3].is_empty()).then(|| number(&strength[3])),
        },
    }
}

/// All networks of the folder; solve's answers are known of those without times already promised.
pub fn names() -> Vec<String> {
    let files = fs::read_dir(FOLDER).expect("the folder");
    let mut names: Vec<String> = files
        .map(|file| file.expect("a file").file_name())
        .filter_map(|file| Some(file.to_str()?.strip_suffix(".events.csv")?.into()))
        .collect();
    names.sort();
    names
}

pub fn network(name: &str) -> Rows {
    let (events, arcs) = texts(name);
    let read = network_of(&events, &arcs);
    read.unwrap_or_else(|refused| panic!("{name}: {refused:?}"))
}

/// The events text and the arcs text of a network.
pub fn texts(name: &str) -> (Vec<u8>, Vec<u8>) {
    let text = |kind| read(&format!("{name}.{kind}.csv"));
    (text("events"), text("arcs"))
}

fn read(file: &str) -> Vec<u8> {
    fs::read(format!("{FOLDER}/{file}")).unwrap_or_else(|error| panic!("{file}: {error}"))
}
