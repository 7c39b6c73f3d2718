//! The trials of read and print: accepted texts, damages of known refusal, scratches, any networks.

use crate::compare::{TextCall, TextCase};
use crate::network::{Filled, Rows};
use crate::random::text_damage::{
    scratch, short_row, TextDamage, HEADER, NO_EVENT, ONE_RECORD, RECORDS,
};
use crate::random::{any_rows, damaged_print, lent, printable, some_rows, spelled, Draft, Random};
use crate::reference::texts_of;
use crate::tally::Tally;

fn event_damages() -> Vec<TextDamage> {
    [&HEADER[..], &RECORDS, &[NO_EVENT]].concat()
}

fn arc_damages() -> Vec<TextDamage> {
    [&HEADER[..], &RECORDS].concat()
}

/// The rows get the very values that were spelled; then `visit` has them.
pub fn accepted(call: &TextCall, rounds: usize, visit: impl Fn(&Rows)) -> Tally {
    let mut random = Random::new(61);
    let mut tally = Tally::new(format!("{}, accepted texts", call.name));
    for _ in 0..rounds {
        let rows = any_rows(&mut random);
        let drafts = spelled(&mut random, &rows);
        let (n, m) = (rows.periods.len(), rows.tail.len());
        let (answer, mut left) = call.compare(&lent(&mut random, &drafts));
        assert_eq!(answer, Filled::success(n, m), "{}: {drafts:?}", call.name);
        left.rows.resize(n, m);
        assert_eq!(left.rows, rows, "{}: {drafts:?}", call.name);
        visit(&rows);
        tally.add(answer);
    }
    tally
}

/// Compares, and asks for the answer that is known.
fn expect(call: &TextCall, case: &TextCase, known: Filled, tally: &mut Tally) {
    let (answer, _) = call.compare(case);
    assert_eq!(answer, known, "{}: {case:?}", call.name);
    tally.add(answer);
}

fn some_drafts(random: &mut Random) -> [Draft; 2] {
    let rows = some_rows(random);
    spelled(random, &rows)
}

/// Each damage in turn, to either text; both must have had a wrong header.
pub fn one_damage(call: &TextCall, rounds: usize) -> Tally {
    let mut random = Random::new(62);
    let mut tally = Tally::new(format!("{}, one damage", call.name));
    let damages = [event_damages(), arc_damages()];
    let mut headers = [0; 2];
    for round in 0..rounds {
        let (text, turn) = (round % 2, round / 2);
        let mut drafts = some_drafts(&mut random);
        let damage = damages[text][turn % damages[text].len()];
        let known = damage(&mut random, &mut drafts[text]);
        expect(call, &lent(&mut random, &drafts), known, &mut tally);
        headers[text] += usize::from(known == Filled::refusal(16, text));
    }
    let fewest = headers[0].min(headers[1]);
    assert!(fewest > rounds / 10, "{}: headers {headers:?}", call.name);
    tally
}

/// Two bad records in one text: the first is the one told.
pub fn two_records(call: &TextCall, rounds: usize) -> Tally {
    let mut random = Random::new(63);
    let mut tally = Tally::new(format!("{}, two bad records", call.name));
    for round in 0..rounds {
        let mut drafts = some_drafts(&mut random);
        let known = damage_two(&mut random, &mut drafts[round % 2]);
        expect(call, &lent(&mut random, &drafts), known, &mut tally);
    }
    tally
}

/// A second damage to the same record is drawn anew.
fn damage_two(random: &mut Random, draft: &mut Draft) -> Filled {
    let one = random.pick(&ONE_RECORD)(random, draft);
    loop {
        let mut both = draft.clone();
        let other = random.pick(&ONE_RECORD)(random, &mut both);
        if other.place != one.place {
            *draft = both;
            return Filled::refusal(17, one.place.min(other.place) as usize);
        }
    }
}

/// Each damage to the events text with each to the arcs text: the first text is the one told, but
/// before it a row that is too short.
pub fn both_texts(call: &TextCall, rounds: usize) -> Tally {
    let mut random = Random::new(64);
    let mut tally = Tally::new(format!("{}, both texts damaged", call.name));
    let (events, arcs) = (event_damages(), arc_damages());
    for round in 0..rounds {
        let mut drafts = some_drafts(&mut random);
        let mut known = events[round % events.len()](&mut random, &mut drafts[0]);
        arcs[round / events.len() % arcs.len()](&mut random, &mut drafts[1]);
        let mut case = lent(&mut random, &drafts);
        if random.one_in(4) {
            short_row(&mut random, &mut case.rows);
            known = Filled::refusal(9, 0);
        }
        expect(call, &case, known, &mut tally);
    }
    tally
}

/// One to three bytes of either text changed, deleted or inserted; now and then a row too short.
pub fn scratches(call: &TextCall, rounds: usize) -> Tally {
    let mut random = Random::new(65);
    let mut tally = Tally::new(format!("{}, scratched texts", call.name));
    for _ in 0..rounds {
        let rows = any_rows(&mut random);
        let drafts = spelled(&mut random, &rows);
        let mut case = lent(&mut random, &drafts);
        for _ in 0..1 + random.below(3) {
            let texts = [&mut case.events, &mut case.arcs];
            let text = random.below(2);
            scratch(&mut random, texts[text]);
        }
        if random.one_in(20) {
            short_row(&mut random, &mut case.rows);
        }
        tally.add(call.compare(&case).0);
    }
    tally
}

/// Print is done if and only if both rows are long enough; then `visit` has rows and texts.
pub fn networks(call: &TextCall, rounds: usize, visit: impl Fn(&Rows, &[u8], &[u8])) -> Tally {
    let mut random = Random::new(66);
    let mut tally = Tally::new(format!("{}, any networks", call.name));
    for _ in 0..rounds {
        let case = printable(&mut random);
        let (events, arcs) = texts_of(&case.rows.network());
        let enough = case.events.len() >= events.len() && case.arcs.len() >= arcs.len();
        let (answer, left) = call.compare(&case);
        assert_eq!(answer.code, if enough { 0 } else { 9 }, "{case:?}");
        if enough {
            visit(
                &left.rows,
                &left.events[..answer.events],
                &left.arcs[..answer.arcs],
            );
        }
        tally.add(answer);
    }
    tally
}

pub fn damaged_networks(call: &TextCall, rounds: usize) -> Tally {
    let mut random = Random::new(67);
    let mut tally = Tally::new(format!("{}, damaged networks", call.name));
    for _ in 0..rounds {
        let (code, case) = damaged_print(&mut random);
        expect(call, &case, Filled::refusal(code, 0), &mut tally);
    }
    tally
}
