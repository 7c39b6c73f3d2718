//! The words of the request for texts, each in a text of its own.

use rubblewaltz_host::compare::{TextCase, PRINT, READ};
use rubblewaltz_host::{Filled, Rows};

const EVENTS: &str = "event,period\r\n0,60\r\n1,20\r\n";
const ARCS: &str = "arc,tail,head,lower,upper,weight\r\n0,0,1,-5,7,3\r\n";

/// Rows of so many entries, filled with what no text here holds.
fn kept(events: usize, arcs: usize) -> Rows {
    Rows {
        periods: vec![9_999_999; events],
        tail: vec![9_999_999; arcs],
        head: vec![9_999_999; arcs],
        lower: vec![9_999_999; arcs],
        upper: vec![9_999_999; arcs],
        weight: vec![9_999_999; arcs],
    }
}

fn lent(events: &str, arcs: &str) -> TextCase {
    TextCase {
        rows: kept(64, 256),
        events: events.into(),
        arcs: arcs.into(),
    }
}

fn assert_read(events: &str, arcs: &str, answer: Filled) -> Rows {
    let (got, left) = READ.compare(&lent(events, arcs));
    assert_eq!(got, answer, "{events:?} {arcs:?}");
    left.rows
}

fn assert_events(cases: &[(&str, u32, usize)]) {
    for &(events, code, place) in cases {
        assert_read(events, ARCS, Filled::refusal(code, place));
    }
}

/// The arcs text of one record.
fn one_arc(record: &str) -> String {
    format!("arc,tail,head,lower,upper,weight\r\n{record}\r\n")
}

/// The header and so many right records.
fn events_text(count: usize) -> String {
    let records: String = (0..count).map(|k| format!("{k},60\r\n")).collect();
    format!("event,period\r\n{records}")
}

fn arcs_text(count: usize) -> String {
    let records: String = (0..count).map(|k| format!("{k},0,1,2,3,4\r\n")).collect();
    format!("arc,tail,head,lower,upper,weight\r\n{records}")
}

#[test]
fn plain_texts() {
    for events in [EVENTS, EVENTS.trim_end()] {
        for arcs in [ARCS, ARCS.trim_end()] {
            let rows = assert_read(events, arcs, Filled::success(2, 1));
            assert_eq!(rows.periods[..3], [60, 20, 9_999_999]);
            assert_eq!(rows.tail[..2], [0, 9_999_999]);
            assert_eq!(rows.head[..2], [1, 9_999_999]);
            assert_eq!(rows.lower[..2], [-5, 9_999_999]);
            assert_eq!(rows.upper[..2], [7, 9_999_999]);
            assert_eq!(rows.weight[..2], [3, 9_999_999]);
        }
    }
}

#[test]
fn wrong_headers() {
    assert_events(&[
        ("", 16, 0),
        ("\r\n", 16, 0),
        ("event,period\r", 16, 0),
        ("event,period\n", 16, 0),
        ("event,period\n0,60\n", 16, 0),
        ("event,period\r\r\n0,60\r\n", 16, 0),
        ("Event,period\r\n0,60\r\n", 16, 0),
        ("\"event\",\"period\"\r\n0,60\r\n", 16, 0),
        ("event, period\r\n0,60\r\n", 16, 0),
        ("\u{feff}event,period\r\n0,60\r\n", 16, 0),
        ("0,60\r\n", 16, 0),
    ]);
    for arcs in ["", "arc,tail,head,lower,upper\r\n", "arc", EVENTS] {
        assert_read(EVENTS, arcs, Filled::refusal(16, 1));
    }
}

#[test]
fn texts_without_records() {
    assert_events(&[("event,period", 17, 0), ("event,period\r\n", 17, 0)]);
    for arcs in [arcs_text(0).as_str(), arcs_text(0).trim_end()] {
        assert_read(EVENTS, arcs, Filled::success(2, 0));
    }
}

#[test]
fn wrong_line_breaks() {
    assert_events(&[
        ("event,period\r\n\r\n", 17, 0),
        ("event,period\r\n0,60\r\n\r\n", 17, 1),
        ("event,period\r\n0,60\r\n\r\n1,60", 17, 1),
        ("event,period\r\n0,60\n1,60\r\n", 17, 0),
        ("event,period\r\n0,60\r", 17, 0),
        ("event,period\r\n0,60\n", 17, 0),
        ("event,period\r\n0,60\r\r\n", 17, 0),
        ("event,period\r\n0,60\r\n\n", 17, 1),
    ]);
}

#[test]
fn wrong_fields() {
    for field in ["+5", " 5", "5 ", "", "-", "--5", "\"5\"", "-0", "-5", "5.0"] {
        assert_read(
            &format!("event,period\r\n0,{field}"),
            ARCS,
            Filled::refusal(17, 0),
        );
        assert_read(
            &format!("event,period\r\n{field},5"),
            ARCS,
            Filled::refusal(17, 0),
        );
    }
    for record in [
        "0,0,1,2,3",
        "0,0,1,2,3,4,",
        "0,0,1,+2,3,4",
        "0,0,1,2,-,4",
        "0,-0,1,2,3,4",
    ] {
        assert_read(EVENTS, &one_arc(record), Filled::refusal(17, 0));
    }
}

#[test]
fn numbers_in_rising_order() {
    assert_events(&[
        ("event,period\r\n1,60", 17, 0),
        ("event,period\r\n0,60\r\n2,60", 17, 1),
        ("event,period\r\n0,60\r\n0,60", 17, 1),
        ("event,period\r\n4294967296,60", 17, 0),
        ("event,period\r\n0,60\r\n18446744073709551617,60", 17, 1),
    ]);
    assert_read(
        "event,period\r\n00,60\r\n01,60",
        ARCS,
        Filled::success(2, 1),
    );
}

#[test]
fn values_at_their_limits() {
    let zeros = "0".repeat(5000);
    let greatest = format!("event,period\r\n{zeros},{zeros}4294967295");
    let rows = assert_read(&greatest, ARCS, Filled::success(1, 1));
    assert_eq!(rows.periods[0], u32::MAX);
    assert_events(&[("event,period\r\n0,4294967296", 17, 0)]);
    let most = one_arc("0,4294967295,4294967295,-2147483648,2147483647,4294967295");
    let rows = assert_read(EVENTS, &most, Filled::success(2, 1));
    assert_eq!((rows.lower[0], rows.upper[0]), (i32::MIN, i32::MAX));
    let rows = assert_read(EVENTS, &one_arc("0,0,0,-0,-00,0"), Filled::success(2, 1));
    assert_eq!((rows.lower[0], rows.upper[0]), (0, 0));
    for beyond in [
        "0,4294967296,0,0,0,0",
        "0,0,4294967296,0,0,0",
        "0,0,0,-2147483649,0,0",
        "0,0,0,2147483648,0,0",
        "0,0,0,0,-2147483649,0",
        "0,0,0,0,2147483648,0",
        "0,0,0,0,0,4294967296",
    ] {
        assert_read(EVENTS, &one_arc(beyond), Filled::refusal(17, 0));
    }
}

#[test]
fn greatest_numbers_of_records() {
    assert_read(&events_text(64), &arcs_text(256), Filled::success(64, 256));
    assert_read(&events_text(65), &arcs_text(257), Filled::refusal(17, 64));
    assert_read(&events_text(64), &arcs_text(257), Filled::refusal(17, 256));
    let nonsense = events_text(64) + "x";
    assert_read(&nonsense, ARCS, Filled::refusal(17, 64));
    let earlier = events_text(70).replace("\r\n7,", "\r\n8,");
    assert_read(&earlier, ARCS, Filled::refusal(17, 7));
}

#[test]
fn refusals_in_their_order() {
    assert_read("event,period\r\n0,x", "", Filled::refusal(17, 0));
    assert_read("", "", Filled::refusal(16, 0));
    for (events, arcs) in [(63, 256), (64, 255), (0, 0)] {
        let case = TextCase {
            rows: kept(events, arcs),
            ..lent("", "")
        };
        assert_eq!(READ.compare(&case).0, Filled::refusal(9, 0));
    }
}

#[test]
fn printed_texts() {
    let mut rows = assert_read(EVENTS, ARCS, Filled::success(2, 1));
    rows.resize(2, 1);
    let case = TextCase {
        rows,
        events: vec![b'#'; EVENTS.len() + 1],
        arcs: vec![b'#'; ARCS.len()],
    };
    let (answer, left) = PRINT.compare(&case);
    assert_eq!(answer, Filled::success(EVENTS.len(), ARCS.len()));
    assert_eq!(left.events, format!("{EVENTS}#").into_bytes());
    assert_eq!(left.arcs, ARCS.as_bytes());
}
