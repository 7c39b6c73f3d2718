//! print against the reference.

use rubblewaltz_host::compare::PRINT;
use rubblewaltz_host::round_trip::read_rows;
use rubblewaltz_host::trials::text;
use rubblewaltz_host::{print, Arc, Filled, Rows};

fn assert_read_back(rows: &Rows, events: &[u8], arcs: &[u8]) {
    assert_eq!(read_rows(events, arcs), *rows);
}

#[test]
fn any_networks() {
    text::networks(&PRINT, 10_000, assert_read_back).require(2000, &[0, 9]);
}

#[test]
fn damaged_networks() {
    text::damaged_networks(&PRINT, 5000).require(1000, &[1, 3]);
}

/// Rows of 964 and 15,796 bytes are enough for every network.
#[test]
fn longest_texts() {
    let arc = Arc {
        tail: u32::MAX,
        head: u32::MAX,
        lower: i32::MIN,
        upper: i32::MIN,
        weight: u32::MAX,
    };
    let rows = Rows::new(&[u32::MAX; 64], &[arc; 256]);
    let (mut events, mut arcs) = ([0; 964], [0; 15_796]);
    let answer = print(&rows.network(), &mut events, &mut arcs);
    assert_eq!(answer, Filled::success(964, 15_796));
}
