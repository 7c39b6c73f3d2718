//! A network through the archive's read and print, from rows to texts and from texts to rows.

use crate::network::Rows;

/// No network has longer texts.
const EVENTS_SPACE: usize = 1000;
const ARCS_SPACE: usize = 16_000;

/// The texts of a network whose numbers of events and arcs are in order.
pub fn printed(rows: &Rows) -> (Vec<u8>, Vec<u8>) {
    let (mut events, mut arcs) = (vec![b'#'; EVENTS_SPACE], vec![b'#'; ARCS_SPACE]);
    let answer = crate::print(&rows.network(), &mut events, &mut arcs);
    assert_eq!(answer.code, 0, "print: {rows:?}");
    events.truncate(answer.events);
    arcs.truncate(answer.arcs);
    (events, arcs)
}

/// The rows of two texts that read accepts.
pub fn read_rows(events: &[u8], arcs: &[u8]) -> Rows {
    let mut rows = Rows {
        periods: vec![9_999_999; 64],
        tail: vec![9_999_999; 256],
        head: vec![9_999_999; 256],
        lower: vec![9_999_999; 256],
        upper: vec![9_999_999; 256],
        weight: vec![9_999_999; 256],
    };
    let answer = crate::read(events, arcs, rows.network_mut());
    assert_eq!(answer.code, 0, "read: {:?}", [events, arcs]);
    rows.resize(answer.events, answer.arcs);
    rows
}
