//! The same for read and print.

use super::{fenced, inside, inside_mut, SIGNED_FENCE, UNSIGNED_FENCE};
use crate::network::{Filled, NetworkMut, Rows};
use crate::reference;

/// What read and print are lent: the network's rows and the two texts. Read writes the rows, print
/// the texts.
#[derive(Clone, Debug, PartialEq, Eq)]
pub struct TextCase {
    pub rows: Rows,
    pub events: Vec<u8>,
    pub arcs: Vec<u8>,
}

pub type TextVersion = fn(NetworkMut, &mut [u8], &mut [u8]) -> Filled;

/// A call in two versions: the one that is tried, and the reference.
pub struct TextCall {
    pub name: &'static str,
    pub tried: TextVersion,
    pub reference: TextVersion,
}

pub const READ: TextCall = TextCall {
    name: "read",
    tried: |network, events, arcs| crate::read(events, arcs, network),
    reference: |network, events, arcs| reference::read(events, arcs, network),
};

pub const PRINT: TextCall = TextCall {
    name: "print",
    tried: |network, events, arcs| crate::print(&network.network(), events, arcs),
    reference: |network, events, arcs| reference::print(&network.network(), events, arcs),
};

const BYTE_FENCE: u8 = 0xfe;

impl TextCall {
    /// Compares code, place, cost, both counts and every entry of every row; gives what both
    /// answered and left.
    pub fn compare(&self, case: &TextCase) -> (Filled, TextCase) {
        let (expected, expected_left) = run(self.reference, case);
        let (answer, left) = run(self.tried, case);
        assert_eq!(answer, expected, "{}: got, expected; {case:?}", self.name);
        assert_eq!(left, expected_left, "{}: left, expected", self.name);
        let left = inside_case(&left);
        assert_form(self.name, case, answer, &left);
        (answer, left)
    }
}

/// The answer, and what was lent as it stands after the call, with its fences.
fn run(version: TextVersion, case: &TextCase) -> (Filled, TextCase) {
    let mut left = fenced_case(case);
    let network = NetworkMut {
        periods: inside_mut(&mut left.rows.periods),
        tail: inside_mut(&mut left.rows.tail),
        head: inside_mut(&mut left.rows.head),
        lower: inside_mut(&mut left.rows.lower),
        upper: inside_mut(&mut left.rows.upper),
        weight: inside_mut(&mut left.rows.weight),
    };
    let answer = version(
        network,
        inside_mut(&mut left.events),
        inside_mut(&mut left.arcs),
    );
    (answer, left)
}

/// What holds of every answer, whoever gives it.
fn assert_form(name: &str, case: &TextCase, answer: Filled, left: &TextCase) {
    assert_eq!(answer.cost, 0, "{name}: cost; {case:?}");
    if answer.code == 0 {
        assert_eq!(answer.place, 0, "{name}: place under code 0; {case:?}");
    } else {
        let counts = (answer.events, answer.arcs);
        assert_eq!(counts, (0, 0), "{name}: counts of a refusal; {case:?}");
        assert_eq!(left, case, "{name}: row written on a refusal");
    }
}

fn fenced_case(case: &TextCase) -> TextCase {
    let rows = &case.rows;
    TextCase {
        rows: Rows {
            periods: fenced(&rows.periods, UNSIGNED_FENCE),
            tail: fenced(&rows.tail, UNSIGNED_FENCE),
            head: fenced(&rows.head, UNSIGNED_FENCE),
            lower: fenced(&rows.lower, SIGNED_FENCE),
            upper: fenced(&rows.upper, SIGNED_FENCE),
            weight: fenced(&rows.weight, UNSIGNED_FENCE),
        },
        events: fenced(&case.events, BYTE_FENCE),
        arcs: fenced(&case.arcs, BYTE_FENCE),
    }
}

fn inside_case(case: &TextCase) -> TextCase {
    let rows = &case.rows;
    TextCase {
        rows: Rows {
            periods: inside(&rows.periods).to_vec(),
            tail: inside(&rows.tail).to_vec(),
            head: inside(&rows.head).to_vec(),
            lower: inside(&rows.lower).to_vec(),
            upper: inside(&rows.upper).to_vec(),
            weight: inside(&rows.weight).to_vec(),
        },
        events: inside(&case.events).to_vec(),
        arcs: inside(&case.arcs).to_vec(),
    }
}
