//! The paper's own cases, "Junctions and their answers". Where it gives no weight, 1 is taken. It
//! knows no turns: they are worked out by hand from the request.

use rubblewaltz_host::compare::{Call, Case, CHECK, MEASURE, REBUILD, SOLVE_BY_SKIPPING};
use rubblewaltz_host::{full, Answer, Arc, Rows};

/// A network with a timetable, its tensions, its turns and its cost.
struct Timetable {
    name: &'static str,
    rows: Rows,
    times: Vec<u32>,
    tensions: Vec<i32>,
    turns: Vec<i32>,
    cost: u64,
}

fn arc(tail: u32, head: u32, lower: i32, upper: i32, weight: u32) -> Arc {
    Arc {
        tail,
        head,
        lower,
        upper,
        weight,
    }
}

/// Network A, with these bounds on its three arcs.
fn network_a(bounds: [(i32, i32); 3]) -> Rows {
    let [(l0, u0), (l1, u1), (l2, u2)] = bounds;
    let arcs = [
        arc(0, 1, l0, u0, 3),
        arc(1, 2, l1, u1, 1),
        arc(2, 0, l2, u2, 2),
    ];
    Rows::new(&[60, 60, 60], &arcs)
}

const A: [(i32, i32); 3] = [(10, 15), (20, 25), (28, 30)];

fn timetable(
    name: &'static str,
    rows: Rows,
    times: &[u32],
    tensions: &[i32],
    turns: &[i32],
    cost: u64,
) -> Timetable {
    Timetable {
        name,
        rows,
        times: times.to_vec(),
        tensions: tensions.to_vec(),
        turns: turns.to_vec(),
        cost,
    }
}

/// Two events and one arc of weight 1.
fn one_arc(periods: [u32; 2], ends: (u32, u32), bounds: (i32, i32)) -> Rows {
    Rows::new(&periods, &[arc(ends.0, ends.1, bounds.0, bounds.1, 1)])
}

/// The smallest timetables of their networks.
fn smallest() -> Vec<Timetable> {
    let a = network_a(A);
    let a20 = network_a([(20, 20); 3]);
    let p4 = one_arc([60, 20], (0, 1), (25, 30));
    let p5 = one_arc([60, 20], (1, 0), (25, 30));
    let p6 = Rows::new(&[60, 60], &[arc(0, 1, 10, 15, 1), arc(0, 1, 14, 20, 1)]);
    let p10 = one_arc([1, 1], (0, 1), (7, 7));
    let p11 = one_arc([60, 60], (0, 1), (0, 59));
    let wide = one_arc([60, 60], (0, 1), (0, 60));
    let any = one_arc([60, 20], (0, 1), (0, 59));
    let many = full::parallel();
    let low = one_arc([60, 60], (0, 1), (-7200, -7200));
    vec![
        timetable("P1", a, &[0, 10, 30], &[10, 20, 30], &[0, 0, 1], 4),
        timetable("P3", a20, &[0, 20, 40], &[20, 20, 20], &[0, 0, 1], 0),
        timetable("P4", p4, &[0, 5], &[25], &[1], 0),
        timetable("P5", p5, &[0, 10], &[30], &[2], 5),
        timetable("P6", p6, &[0, 14], &[14, 14], &[0, 0], 4),
        timetable("P10", p10, &[0, 0], &[7], &[7], 0),
        timetable("P11", p11, &[0, 0], &[0], &[0], 0),
        timetable("P11, [0,60]", wide, &[0, 0], &[0], &[0], 0),
        timetable("any time will do", any, &[0, 0], &[0], &[0], 0),
        timetable("n 1, m 0", Rows::new(&[60], &[]), &[0], &[], &[], 0),
        timetable("m 256", many, &[0, 0], &[0; 256], &[0; 256], 32_640),
        timetable("lower -7,200", low, &[0, 0], &[-7200], &[-120], 0),
    ]
}

/// What rebuild gives from the tensions.
fn rebuilt() -> Vec<Timetable> {
    let a = network_a(A);
    let joined = Rows::new(&[60; 4], &[arc(3, 1, 5, 9, 1)]);
    vec![
        timetable("P7", a, &[0, 12, 32], &[12, 20, 28], &[0, 0, 1], 6),
        timetable("P9", joined, &[0, 0, 0, 55], &[5], &[1], 0),
    ]
}

/// Networks that every call refuses, with code and place.
fn refused() -> Vec<(&'static str, Rows, u32, usize)> {
    let back = one_arc([60, 60], (0, 1), (0, -1));
    let twice = one_arc([60, 0], (0, 0), (0, 0));
    let equal = Rows::new(&[60, 60], &[arc(0, 1, 0, 59, 1); 256]);
    let many = Rows::new(&[60, 60], &[arc(0, 1, 0, 59, 1); 257]);
    let low = one_arc([60, 60], (0, 1), (-7201, -7201));
    vec![
        ("period 0 and equal ends", twice, 2, 1),
        ("m 257", many, 3, 0),
        ("lower -7,201", low, 6, 0),
        ("upper below lower", back, 7, 0),
        ("m 256, all equal", equal, 18, 1),
    ]
}

/// Compares with the reference and with what the paper says.
fn expect(call: &Call, name: &str, lent: &Case, answer: Answer, left: &Case) {
    let got = call.compare(lent);
    assert_eq!((got.0, &got.1), (answer, left), "{} {name}", call.name);
}

#[test]
fn timetables_are_checked_and_measured() {
    for case in smallest().into_iter().chain(rebuilt()) {
        let answer = Answer::success(case.cost);
        let lent = Case {
            times: case.times,
            ..Case::unwritten(case.rows)
        };
        expect(&CHECK, case.name, &lent, answer, &lent);
        let left = Case {
            tensions: case.tensions,
            turns: case.turns,
            ..lent.clone()
        };
        expect(&MEASURE, case.name, &lent, answer, &left);
    }
}

#[test]
fn smallest_timetables_are_found() {
    for case in smallest() {
        let lent = Case::unwritten(case.rows.clone());
        let left = Case {
            times: case.times,
            tensions: case.tensions,
            turns: case.turns,
            rows: case.rows,
        };
        let answer = Answer::success(case.cost);
        expect(&SOLVE_BY_SKIPPING, case.name, &lent, answer, &left);
    }
}

#[test]
fn networks_without_a_feasible_timetable() {
    let cases = [
        ("P2", [(10, 12); 3]),
        ("P3, arc 0 at [19,19]", [(19, 19), (20, 20), (20, 20)]),
    ];
    for (name, bounds) in cases {
        let lent = Case::unwritten(network_a(bounds));
        expect(
            &SOLVE_BY_SKIPPING,
            name,
            &lent,
            Answer::refusal(10, 0),
            &lent,
        );
    }
}

#[test]
fn timetables_are_rebuilt() {
    let common = |case: &Timetable| case.rows.periods.iter().all(|&p| p == case.rows.periods[0]);
    for case in smallest().into_iter().filter(common).chain(rebuilt()) {
        let lent = Case {
            tensions: case.tensions,
            ..Case::unwritten(case.rows)
        };
        let left = Case {
            times: case.times,
            ..lent.clone()
        };
        expect(
            &REBUILD,
            case.name,
            &lent,
            Answer::success(case.cost),
            &left,
        );
    }
}

#[test]
fn tensions_are_refused() {
    let mixed = one_arc([60, 20], (0, 1), (25, 30));
    let wide = one_arc([60, 60], (0, 1), (0, 60));
    let cases = [
        ("P8, sum 61", network_a(A), vec![10, 21, 30], 13, 2),
        ("P8, outside", network_a(A), vec![10, 25, 25], 12, 2),
        ("P4's network", mixed, vec![25], 11, 1),
        ("P11's [0,60], at 60", wide, vec![60], 12, 0),
    ];
    for (name, rows, tensions, code, place) in cases {
        let lent = Case {
            tensions,
            ..Case::unwritten(rows)
        };
        expect(&REBUILD, name, &lent, Answer::refusal(code, place), &lent);
    }
}

#[test]
fn networks_are_refused() {
    for (name, rows, code, place) in refused() {
        let lent = Case::unwritten(rows);
        let answer = Answer::refusal(code, place);
        for call in [CHECK, MEASURE, SOLVE_BY_SKIPPING, REBUILD] {
            expect(&call, name, &lent, answer, &lent);
        }
    }
}

#[test]
fn arcs_that_are_not_met() {
    let cases = [([0, 16, 36], 0), ([0, 15, 41], 1), ([0, 10, 33], 2)];
    for (times, place) in cases {
        let lent = Case {
            times: times.to_vec(),
            ..Case::unwritten(network_a(A))
        };
        expect(&CHECK, "A", &lent, Answer::refusal(15, place), &lent);
    }
}
