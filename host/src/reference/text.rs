//! read and print: a network as two texts of comma-separated records (RFC 4180).

use crate::network::{Arc, Filled, Network, NetworkMut, Rows};
use std::ops::RangeInclusive;

/// What the records of a text must be like.
struct Layout {
    header: &'static str,
    header_place: usize,
    records: RangeInclusive<usize>,
    /// The fields behind the record's number, each by the values that it may have.
    fields: &'static [RangeInclusive<i128>],
}

const U32: RangeInclusive<i128> = 0..=u32::MAX as i128;
const I32: RangeInclusive<i128> = i32::MIN as i128..=i32::MAX as i128;

const EVENTS: Layout = Layout {
    header: "event,period",
    header_place: 0,
    records: 1..=64,
    fields: &[U32],
};

const ARCS: Layout = Layout {
    header: "arc,tail,head,lower,upper,weight",
    header_place: 1,
    records: 0..=256,
    fields: &[U32, U32, I32, I32, U32],
};

pub fn read(events: &[u8], arcs: &[u8], network: NetworkMut) -> Filled {
    let arc_rows = [
        network.tail.len(),
        network.head.len(),
        network.lower.len(),
        network.upper.len(),
        network.weight.len(),
    ];
    if network.periods.len() < 64 || arc_rows.iter().any(|&length| length < 256) {
        return Filled::refusal(9, 0);
    }
    match network_of(events, arcs) {
        Err(refused) => refused,
        Ok(rows) => fill(&rows, network),
    }
}

fn fill(rows: &Rows, network: NetworkMut) -> Filled {
    let (n, m) = (rows.periods.len(), rows.tail.len());
    network.periods[..n].copy_from_slice(&rows.periods);
    network.tail[..m].copy_from_slice(&rows.tail);
    network.head[..m].copy_from_slice(&rows.head);
    network.lower[..m].copy_from_slice(&rows.lower);
    network.upper[..m].copy_from_slice(&rows.upper);
    network.weight[..m].copy_from_slice(&rows.weight);
    Filled::success(n, m)
}

/// The rows of the two texts, or why they are refused.
pub fn network_of(events: &[u8], arcs: &[u8]) -> Result<Rows, Filled> {
    let events = records(events, &EVENTS)?;
    let arcs = records(arcs, &ARCS)?;
    let periods: Vec<u32> = events.iter().map(|fields| fields[0] as u32).collect();
    let arcs: Vec<Arc> = arcs
        .iter()
        .map(|fields| Arc {
            tail: fields[0] as u32,
            head: fields[1] as u32,
            lower: fields[2] as i32,
            upper: fields[3] as i32,
            weight: fields[4] as u32,
        })
        .collect();
    Ok(Rows::new(&periods, &arcs))
}

/// The values of each record, without its number.
fn records(text: &[u8], layout: &Layout) -> Result<Vec<Vec<i128>>, Filled> {
    let lines = lines(text);
    if lines[0] != layout.header.as_bytes() {
        return Err(Filled::refusal(16, layout.header_place));
    }
    let mut records = Vec::new();
    for (number, line) in lines[1..].iter().enumerate() {
        let read = values(line, number, layout.fields);
        match read.filter(|_| number < *layout.records.end()) {
            Some(values) => records.push(values),
            None => return Err(Filled::refusal(17, number)),
        }
    }
    if records.len() < *layout.records.start() {
        return Err(Filled::refusal(17, 0));
    }
    Ok(records)
}

/// What stands between the line breaks, of which the last ends the text and begins no line.
fn lines(text: &[u8]) -> Vec<&[u8]> {
    let mut rest = text.strip_suffix(b"\r\n").unwrap_or(text);
    let mut lines = Vec::new();
    while let Some(end) = rest.windows(2).position(|pair| pair == b"\r\n") {
        lines.push(&rest[..end]);
        rest = &rest[end + 2..];
    }
    lines.push(rest);
    lines
}

/// None where the record is bad: a field too few or too many, another number, a value out of range.
fn values(line: &[u8], number: usize, ranges: &[RangeInclusive<i128>]) -> Option<Vec<i128>> {
    let fields: Vec<&[u8]> = line.split(|&byte| byte == b',').collect();
    let number = number as i128;
    let ranges = [&[number..=number], ranges].concat();
    if fields.len() != ranges.len() {
        return None;
    }
    let values: Option<Vec<i128>> = fields
        .iter()
        .zip(&ranges)
        .map(|(field, range)| value(field, range))
        .collect();
    values.map(|values| values[1..].to_vec())
}

/// A minus may stand where a value below 0 may.
fn value(field: &[u8], range: &RangeInclusive<i128>) -> Option<i128> {
    let signed = field.strip_prefix(b"-").filter(|_| *range.start() < 0);
    let digits = std::str::from_utf8(signed.unwrap_or(field)).ok()?;
    if digits.is_empty() || !digits.bytes().all(|byte| byte.is_ascii_digit()) {
        return None;
    }
    let size = match digits.trim_start_matches('0') {
        "" => 0,
        // More than 30 digits are too many for an i128 and for any range.
        digits if digits.len() > 30 => return None,
        digits => digits.parse().ok()?,
    };
    let value: i128 = if signed.is_some() { -size } else { size };
    range.contains(&value).then_some(value)
}

pub fn print(network: &Network, events: &mut [u8], arcs: &mut [u8]) -> Filled {
    let (n, m) = (network.periods.len(), network.tail.len());
    let others = [
        network.head.len(),
        network.lower.len(),
        network.upper.len(),
        network.weight.len(),
    ];
    if n == 0 || n > 64 {
        return Filled::refusal(1, 0);
    }
    if others != [m; 4] || m > 256 {
        return Filled::refusal(3, 0);
    }
    let (event_text, arc_text) = texts_of(network);
    if events.len() < event_text.len() || arcs.len() < arc_text.len() {
        return Filled::refusal(9, 0);
    }
    events[..event_text.len()].copy_from_slice(event_text.as_bytes());
    arcs[..arc_text.len()].copy_from_slice(arc_text.as_bytes());
    Filled::success(event_text.len(), arc_text.len())
}

/// The two texts of a network whose arc rows are equally long.
pub fn texts_of(network: &Network) -> (String, String) {
    let Network {
        periods,
        tail,
        head,
        lower,
        upper,
        weight,
    } = *network;
    let event = |k: usize| format!("{k},{}\r\n", periods[k]);
    let arc = |k: usize| {
        let (tail, head, weight) = (tail[k], head[k], weight[k]);
        format!("{k},{tail},{head},{},{},{weight}\r\n", lower[k], upper[k])
    };
    let events: String = (0..periods.len()).map(event).collect();
    let arcs: String = (0..tail.len()).map(arc).collect();
    let headed = |header, records| format!("{header}\r\n{records}");
    (headed(EVENTS.header, events), headed(ARCS.header, arcs))
}
