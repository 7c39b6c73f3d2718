//! read against the reference.

use rubblewaltz_host::compare::READ;
use rubblewaltz_host::round_trip::{printed, read_rows};
use rubblewaltz_host::trials::text;
use rubblewaltz_host::Rows;

/// All random cases of read, divided over the tests below.
const CASES: usize = 100_000;

const ACCEPTED: usize = CASES * 3 / 10;
const ONE_DAMAGE: usize = CASES * 3 / 10;
const TWO_RECORDS: usize = CASES / 10;
const BOTH_TEXTS: usize = CASES / 10;
const SCRATCHES: usize = CASES - ACCEPTED - ONE_DAMAGE - TWO_RECORDS - BOTH_TEXTS;

/// Printed again and read back, the rows are the same.
fn assert_round_trip(rows: &Rows) {
    let (events, arcs) = printed(rows);
    assert_eq!(read_rows(&events, &arcs), *rows);
}

#[test]
fn accepted_texts() {
    text::accepted(&READ, ACCEPTED, assert_round_trip).require(ACCEPTED as u64, &[0]);
}

#[test]
fn one_damage() {
    text::one_damage(&READ, ONE_DAMAGE).require(5000, &[16, 17]);
}

#[test]
fn two_bad_records() {
    text::two_records(&READ, TWO_RECORDS).require(5000, &[17]);
}

#[test]
fn both_texts_damaged() {
    text::both_texts(&READ, BOTH_TEXTS).require(1000, &[9, 16, 17]);
}

#[test]
fn scratched_texts() {
    text::scratches(&READ, SCRATCHES).require(500, &[0, 9, 16, 17]);
}
