//! Networks of any values, their texts in all the spellings that read accepts, and rows to lend.

use super::Random;
use crate::compare::TextCase;
use crate::network::{Arc, Rows};

/// One of the two texts of a network in its parts, for a damage to change.
#[derive(Clone, Debug)]
pub struct Draft {
    /// 0 for the events text, 1 for the arcs text: the place of a wrong header.
    pub place: usize,
    /// The header and the records.
    pub lines: Vec<Line>,
}

#[derive(Clone, Debug)]
pub struct Line {
    pub fields: Vec<String>,
    pub end: &'static str,
}

impl Draft {
    pub fn bytes(&self) -> Vec<u8> {
        let written = |line: &Line| line.fields.join(",") + line.end;
        let text: String = self.lines.iter().map(written).collect();
        text.into_bytes()
    }
}

/// Values of any size in up to 64 events and 256 arcs, both numbers often at the limit or near it.
pub fn any_rows(random: &mut Random) -> Rows {
    let (n, m) = (count(random, 64).max(1), count(random, 256));
    rows_of(random, n, m)
}

/// The same with two events and two arcs at least, so that every damage finds a place.
pub fn some_rows(random: &mut Random) -> Rows {
    let (n, m) = (count(random, 64).max(2), count(random, 256).max(2));
    rows_of(random, n, m)
}

fn count(random: &mut Random, most: usize) -> usize {
    match random.below(16) {
        0 => most,
        1 => most - random.below(3),
        2 => random.below(most + 1),
        _ => random.below(9),
    }
}

fn rows_of(random: &mut Random, n: usize, m: usize) -> Rows {
    let periods: Vec<u32> = (0..n).map(|_| unsigned(random)).collect();
    let arcs: Vec<Arc> = (0..m)
        .map(|_| Arc {
            tail: unsigned(random),
            head: unsigned(random),
            lower: signed(random),
            upper: signed(random),
            weight: unsigned(random),
        })
        .collect();
    Rows::new(&periods, &arcs)
}

fn unsigned(random: &mut Random) -> u32 {
    match random.below(4) {
        0 => random.pick(&[0, 1, 1 << 31, u32::MAX - 1, u32::MAX]),
        1 => around_power_of_ten(random),
        _ => any_word(random) >> random.below(32),
    }
}

fn signed(random: &mut Random) -> i32 {
    match random.below(6) {
        0 => random.pick(&[0, 1, -1, i32::MIN, i32::MIN + 1, i32::MAX - 1, i32::MAX]),
        1 => around_power_of_ten(random) as i32,
        2 => -(around_power_of_ten(random) as i32),
        _ => any_word(random) as i32 >> random.below(32),
    }
}

/// The least number of so many digits, or the greatest of one digit fewer.
fn around_power_of_ten(random: &mut Random) -> u32 {
    10_u32.pow(random.below(10) as u32) - random.below(2) as u32
}

fn any_word(random: &mut Random) -> u32 {
    random.below(1 << 32) as u32
}

/// The events text and the arcs text of a network, as read accepts them.
pub fn spelled(random: &mut Random, rows: &Rows) -> [Draft; 2] {
    let mut events = begun(0, &["event", "period"]);
    for (event, &period) in rows.periods.iter().enumerate() {
        let fields = vec![number(random, event as u32), number(random, period)];
        events.lines.push(Line {
            fields,
            end: "\r\n",
        });
    }
    let mut arcs = begun(1, &["arc", "tail", "head", "lower", "upper", "weight"]);
    for arc in 0..rows.tail.len() {
        let fields = vec![
            number(random, arc as u32),
            number(random, rows.tail[arc]),
            number(random, rows.head[arc]),
            signed_number(random, rows.lower[arc]),
            signed_number(random, rows.upper[arc]),
            number(random, rows.weight[arc]),
        ];
        arcs.lines.push(Line {
            fields,
            end: "\r\n",
        });
    }
    let mut drafts = [events, arcs];
    for draft in &mut drafts {
        let last = draft.lines.len() - 1;
        draft.lines[last].end = random.pick(&["\r\n", ""]);
    }
    drafts
}

fn begun(place: usize, header: &[&str]) -> Draft {
    let fields = header.iter().copied().map(String::from).collect();
    let lines = vec![Line {
        fields,
        end: "\r\n",
    }];
    Draft { place, lines }
}

fn number(random: &mut Random, value: u32) -> String {
    let zeros = match random.below(1000) {
        0 => random.below(3000),
        1..=9 => random.below(300),
        10..=200 => random.below(4),
        _ => 0,
    };
    format!("{}{value}", "0".repeat(zeros))
}

/// A minus stands before every number below 0 and some zeros.
fn signed_number(random: &mut Random, value: i32) -> String {
    let minus = value < 0 || (value == 0 && random.one_in(3));
    let sign = if minus { "-" } else { "" };
    sign.to_string() + &number(random, value.unsigned_abs())
}

/// What read is lent: the texts, and rows of random contents up to two entries too long.
pub fn lent(random: &mut Random, [events, arcs]: &[Draft; 2]) -> TextCase {
    TextCase {
        rows: kept_rows(random),
        events: events.bytes(),
        arcs: arcs.bytes(),
    }
}

fn kept_rows(random: &mut Random) -> Rows {
    Rows {
        periods: kept(random, 64),
        tail: kept(random, 256),
        head: kept(random, 256),
        lower: kept_signed(random),
        upper: kept_signed(random),
        weight: kept(random, 256),
    }
}

fn kept(random: &mut Random, least: usize) -> Vec<u32> {
    let length = least + random.below(3);
    (0..length).map(|_| any_word(random)).collect()
}

fn kept_signed(random: &mut Random) -> Vec<i32> {
    let row = kept(random, 256);
    row.iter().map(|&entry| entry as i32).collect()
}
