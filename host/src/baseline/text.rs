//! read judges both texts in full and then reads them again to fill the rows; print counts the
//! bytes and then writes them.

use crate::network::{Arc, Filled, Network, NetworkMut};
use std::ops::RangeInclusive;

const EVENTS_HEADER: &[u8] = b"event,period";
const ARCS_HEADER: &[u8] = b"arc,tail,head,lower,upper,weight";

pub fn read(events: &[u8], arcs: &[u8], network: NetworkMut) -> Filled {
    if network.periods.len() < 64 || shortest_arc_row(&network.network()) < 256 {
        return Filled::refusal(9, 0);
    }
    let is_event = |line: &[u8], event| event_of(line, event).is_some();
    let n = match judge(events, EVENTS_HEADER, 0, 1..=64, is_event) {
        Ok(n) => n,
        Err(refused) => return refused,
    };
    let is_arc = |line: &[u8], arc| arc_of(line, arc).is_some();
    let m = match judge(arcs, ARCS_HEADER, 1, 0..=256, is_arc) {
        Ok(m) => m,
        Err(refused) => return refused,
    };
    fill_events(events, network.periods);
    fill_arcs(arcs, network);
    Filled::success(n, m)
}

fn shortest_arc_row(network: &Network) -> usize {
    let (tail, head) = (network.tail.len(), network.head.len());
    let bounds = network.lower.len().min(network.upper.len());
    tail.min(head).min(bounds).min(network.weight.len())
}

/// How many records there are, or why the text is refused.
fn judge(
    text: &[u8],
    header: &[u8],
    header_place: usize,
    records: RangeInclusive<usize>,
    is_good: impl Fn(&[u8], usize) -> bool,
) -> Result<usize, Filled> {
    let mut at = match line_at(text, 0) {
        Some((line, after)) if line == header => after,
        _ => return Err(Filled::refusal(16, header_place)),
    };
    let mut number = 0;
    while let Some((line, after)) = line_at(text, at) {
        if number == *records.end() || !is_good(line, number) {
            return Err(Filled::refusal(17, number));
        }
        number += 1;
        at = after;
    }
    if number < *records.start() {
        return Err(Filled::refusal(17, number));
    }
    Ok(number)
}

/// The line at a place of the text, and the place behind its line break.
fn line_at(text: &[u8], at: usize) -> Option<(&[u8], usize)> {
    if at >= text.len() {
        return None;
    }
    for end in at..text.len() {
        if text[end] == b'\r' && text.get(end + 1) == Some(&b'\n') {
            return Some((&text[at..end], end + 2));
        }
    }
    Some((&text[at..], text.len()))
}

/// The field at a place of the line, and the place behind its comma.
fn field_at(line: &[u8], at: usize) -> Option<(&[u8], usize)> {
    let rest = line.get(at..)?;
    let comma = rest.iter().position(|&byte| byte == b',');
    let length = comma.unwrap_or(rest.len());
    Some((&rest[..length], at + length + 1))
}

fn unsigned_at(line: &[u8], at: usize) -> Option<(u32, usize)> {
    let (field, after) = field_at(line, at)?;
    Some((unsigned(field)?, after))
}

fn signed_at(line: &[u8], at: usize) -> Option<(i32, usize)> {
    let (field, after) = field_at(line, at)?;
    Some((signed(field)?, after))
}

/// A value too large is given up as soon as it is seen.
fn unsigned(field: &[u8]) -> Option<u32> {
    if field.is_empty() {
        return None;
    }
    let mut value: u64 = 0;
    for &byte in field {
        if !byte.is_ascii_digit() {
            return None;
        }
        value = value * 10 + u64::from(byte - b'0');
        if value > u64::from(u32::MAX) {
            return None;
        }
    }
    Some(value as u32)
}

fn signed(field: &[u8]) -> Option<i32> {
    match field.strip_prefix(b"-") {
        None => unsigned(field)?.try_into().ok(),
        Some(digits) => (-i64::from(unsigned(digits)?)).try_into().ok(),
    }
}

/// The place behind the record's number, if that is the right one.
fn numbered(line: &[u8], right: usize) -> Option<usize> {
    let (number, after) = unsigned_at(line, 0)?;
    (number as usize == right).then_some(after)
}

fn event_of(line: &[u8], event: usize) -> Option<u32> {
    let (period, end) = unsigned_at(line, numbered(line, event)?)?;
    (end > line.len()).then_some(period)
}

fn arc_of(line: &[u8], arc: usize) -> Option<Arc> {
    let (tail, at) = unsigned_at(line, numbered(line, arc)?)?;
    let (head, at) = unsigned_at(line, at)?;
    let (lower, at) = signed_at(line, at)?;
    let (upper, at) = signed_at(line, at)?;
    let (weight, end) = unsigned_at(line, at)?;
    let arc = Arc {
        tail,
        head,
        lower,
        upper,
        weight,
    };
    (end > line.len()).then_some(arc)
}

fn after_header(text: &[u8]) -> usize {
    line_at(text, 0).map_or(0, |(_, after)| after)
}

fn fill_events(text: &[u8], periods: &mut [u32]) {
    let (mut at, mut event) = (after_header(text), 0);
    while let Some((line, after)) = line_at(text, at) {
        let Some(period) = event_of(line, event) else {
            return;
        };
        periods[event] = period;
        event += 1;
        at = after;
    }
}

fn fill_arcs(text: &[u8], network: NetworkMut) {
    let (mut at, mut arc) = (after_header(text), 0);
    while let Some((line, after)) = line_at(text, at) {
        let Some(read) = arc_of(line, arc) else {
            return;
        };
        network.tail[arc] = read.tail;
        network.head[arc] = read.head;
        network.lower[arc] = read.lower;
        network.upper[arc] = read.upper;
        network.weight[arc] = read.weight;
        arc += 1;
        at = after;
    }
}

pub fn print(network: &Network, events: &mut [u8], arcs: &mut [u8]) -> Filled {
    let (n, m) = (network.periods.len(), network.tail.len());
    if n == 0 || n > 64 {
        return Filled::refusal(1, 0);
    }
    let even = network.head.len() == m
        && network.lower.len() == m
        && network.upper.len() == m
        && network.weight.len() == m;
    if !even || m > 256 {
        return Filled::refusal(3, 0);
    }
    let (event_bytes, arc_bytes) = (count_events(network), count_arcs(network));
    if events.len() < event_bytes || arcs.len() < arc_bytes {
        return Filled::refusal(9, 0);
    }
    write_events(network, events);
    write_arcs(network, arcs);
    Filled::success(event_bytes, arc_bytes)
}

fn digits(mut value: u32) -> usize {
    let mut count = 1;
    while value >= 10 {
        value /= 10;
        count += 1;
    }
    count
}

fn signed_digits(value: i32) -> usize {
    usize::from(value < 0) + digits(value.unsigned_abs())
}

/// Two bytes for each line break, and in a record one for the comma.
fn count_events(network: &Network) -> usize {
    let mut bytes = EVENTS_HEADER.len() + 2;
    for (event, &period) in network.periods.iter().enumerate() {
        bytes += digits(event as u32) + digits(period) + 3;
    }
    bytes
}

/// The same with five commas.
fn count_arcs(network: &Network) -> usize {
    let mut bytes = ARCS_HEADER.len() + 2;
    for arc in 0..network.tail.len() {
        bytes += digits(arc as u32) + digits(network.tail[arc]) + digits(network.head[arc]);
        bytes += signed_digits(network.lower[arc]) + signed_digits(network.upper[arc]);
        bytes += digits(network.weight[arc]) + 7;
    }
    bytes
}

/// A row of bytes that is written up to a place.
struct Writer<'a> {
    row: &'a mut [u8],
    at: usize,
}

impl Writer<'_> {
    fn bytes(&mut self, bytes: &[u8]) {
        for &byte in bytes {
            self.row[self.at] = byte;
            self.at += 1;
        }
    }

    /// The digits before the last, and then the last.
    fn unsigned(&mut self, value: u32) {
        if value >= 10 {
            self.unsigned(value / 10);
        }
        self.bytes(&[b'0' + (value % 10) as u8]);
    }

    fn signed(&mut self, value: i32) {
        if value < 0 {
            self.bytes(b"-");
        }
        self.unsigned(value.unsigned_abs());
    }
}

fn write_events(network: &Network, row: &mut [u8]) {
    let mut text = Writer { row, at: 0 };
    text.bytes(EVENTS_HEADER);
    text.bytes(b"\r\n");
    for (event, &period) in network.periods.iter().enumerate() {
        text.unsigned(event as u32);
        text.bytes(b",");
        text.unsigned(period);
        text.bytes(b"\r\n");
    }
}

fn write_arcs(network: &Network, row: &mut [u8]) {
    let mut text = Writer { row, at: 0 };
    text.bytes(ARCS_HEADER);
    text.bytes(b"\r\n");
    for arc in 0..network.tail.len() {
        text.unsigned(arc as u32);
        for value in [network.tail[arc], network.head[arc]] {
            text.bytes(b",");
            text.unsigned(value);
        }
        for value in [network.lower[arc], network.upper[arc]] {
            text.bytes(b",");
            text.signed(value);
        }
        text.bytes(b",");
        text.unsigned(network.weight[arc]);
        text.bytes(b"\r\n");
    }
}
