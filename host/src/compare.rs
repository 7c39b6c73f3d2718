//! Runs a call of the archive and of the reference on the same case and looks for a difference.

mod text;

pub use text::{TextCall, TextCase, TextVersion, PRINT, READ};

use crate::network::{Answer, Network, Rows};
use crate::reference;

/// What one call is lent: the network's rows, and rows of times, tensions and turns, each read or
/// written as the call has it.
#[derive(Clone, Debug, Default, PartialEq, Eq)]
pub struct Case {
    pub rows: Rows,
    pub times: Vec<u32>,
    pub tensions: Vec<i32>,
    pub turns: Vec<i32>,
}

impl Case {
    /// Rows of the lengths that the network asks for, filled with what no call ever writes.
    pub fn unwritten(rows: Rows) -> Self {
        Case {
            times: vec![9_999_999; rows.periods.len()],
            tensions: vec![9_999_999; rows.tail.len()],
            turns: vec![-9_999_999; rows.tail.len()],
            rows,
        }
    }

    /// Makes the call on the case's own rows.
    pub fn call(&mut self, version: Version) -> Answer {
        version(
            &self.rows.network(),
            &mut self.times,
            &mut self.tensions,
            &mut self.turns,
        )
    }
}

/// Takes the network, and the rows of times, tensions and turns in this order.
pub type Version = fn(&Network, &mut [u32], &mut [i32], &mut [i32]) -> Answer;

/// A call in two versions: the one that is tried, and the reference.
pub struct Call {
    pub name: &'static str,
    pub tried: Version,
    pub reference: Version,
}

pub const CHECK: Call = Call {
    name: "check",
    tried: |network, times, _, _| crate::check(network, times),
    reference: |network, times, _, _| reference::check(network, times),
};

pub const MEASURE: Call = Call {
    name: "measure",
    tried: |network, times, tensions, turns| crate::measure(network, times, tensions, turns),
    reference: |network, times, tensions, turns| {
        reference::measure(network, times, tensions, turns)
    },
};

/// The reference tries all timetables, so it is for small networks alone.
pub const SOLVE: Call = Call {
    name: "solve",
    tried: crate::solve,
    reference: reference::solve,
};

pub const SOLVE_BY_SKIPPING: Call = Call {
    reference: reference::solve_by_skipping,
    ..SOLVE
};

pub const REBUILD: Call = Call {
    name: "rebuild",
    tried: |network, times, tensions, _| crate::rebuild(network, tensions, times),
    reference: |network, times, tensions, _| reference::rebuild(network, tensions, times),
};

/// The reference tries all timetables, so it is for small networks alone.
pub const REBUILD_BY_TRYING: Call = Call {
    reference: |network, times, tensions, _| reference::rebuild_by_trying(network, tensions, times),
    ..REBUILD
};

/// A row is lent from between two fences, so that a write outside it is seen too.
const FENCE: usize = 2;
const UNSIGNED_FENCE: u32 = 0x5afe_0001;
const SIGNED_FENCE: i32 = -0x5afe_0001;

/// An answer and everything that was lent, as it stands after the call.
#[derive(Clone, Debug, PartialEq, Eq)]
struct Outcome {
    answer: Answer,
    rows: Rows,
    fenced_times: Vec<u32>,
    fenced_tensions: Vec<i32>,
    fenced_turns: Vec<i32>,
}

impl Call {
    /// Compares code, place, cost and every entry of every row; gives what both answered and left.
    pub fn compare(&self, case: &Case) -> (Answer, Case) {
        let expected = run(self.reference, case);
        let got = run(self.tried, case);
        assert_eq!(got, expected, "{}: got, expected; {case:?}", self.name);
        let left = Case {
            times: inside(&got.fenced_times).to_vec(),
            tensions: inside(&got.fenced_tensions).to_vec(),
            turns: inside(&got.fenced_turns).to_vec(),
            rows: got.rows,
        };
        assert_form(self.name, case, got.answer, &left);
        (got.answer, left)
    }
}

fn run(version: Version, case: &Case) -> Outcome {
    let rows = case.rows.clone();
    let mut fenced_times = fenced(&case.times, UNSIGNED_FENCE);
    let mut fenced_tensions = fenced(&case.tensions, SIGNED_FENCE);
    let mut fenced_turns = fenced(&case.turns, SIGNED_FENCE);
    let answer = version(
        &rows.network(),
        inside_mut(&mut fenced_times),
        inside_mut(&mut fenced_tensions),
        inside_mut(&mut fenced_turns),
    );
    Outcome {
        answer,
        rows,
        fenced_times,
        fenced_tensions,
        fenced_turns,
    }
}

/// What holds of every answer, whoever gives it.
fn assert_form(name: &str, case: &Case, answer: Answer, left: &Case) {
    assert_eq!(left.rows, case.rows, "{name} changed the network's rows");
    if answer.code == 0 {
        assert_eq!(answer.place, 0, "{name}: place under code 0; {case:?}");
    } else {
        assert_eq!(answer.cost, 0, "{name}: cost of a refusal; {case:?}");
        assert_eq!(left, case, "{name}: row written on a refusal");
    }
}

fn fenced<T: Copy>(row: &[T], fence: T) -> Vec<T> {
    let fence = [fence; FENCE];
    [&fence, row, &fence].concat()
}

fn inside<T>(row: &[T]) -> &[T] {
    &row[FENCE..row.len() - FENCE]
}

fn inside_mut<T>(row: &mut [T]) -> &mut [T] {
    let end = row.len() - FENCE;
    &mut row[FENCE..end]
}
