//! The words of the request for repeats, "the same rule entered twice", each in a network of its
//! own.

use rubblewaltz_host::compare::{Call, Case, CHECK, MEASURE, REBUILD, SOLVE_BY_SKIPPING};
use rubblewaltz_host::random::{heavy, Random};
use rubblewaltz_host::reference::{met, repeats, slack};
use rubblewaltz_host::tally::Tally;
use rubblewaltz_host::{full, Answer, Arc, Rows};

/// Tail, head and both bounds.
type Line = (u32, u32, i32, i32);

fn arc((tail, head, lower, upper): Line, weight: u32) -> Arc {
    Arc {
        tail,
        head,
        lower,
        upper,
        weight,
    }
}

/// No two arcs have the same weight.
fn network(periods: &[u32], lines: &[Line]) -> Rows {
    let weighed = lines.iter().zip(1..);
    let arcs: Vec<Arc> = weighed.map(|(&line, weight)| arc(line, weight)).collect();
    Rows::new(periods, &arcs)
}

/// Code and place that check, measure, solve and rebuild answer, each compared with the reference:
/// on times that are all 0, and on what measure leaves as their tensions.
fn answers(rows: &Rows) -> [(u32, u32); 4] {
    let lent = Case {
        times: vec![0; rows.periods.len()],
        ..Case::unwritten(rows.clone())
    };
    let (measured, left) = MEASURE.compare(&lent);
    let (checked, _) = CHECK.compare(&lent);
    let (solved, _) = SOLVE_BY_SKIPPING.compare(&lent);
    let (rebuilt, _) = REBUILD.compare(&left);
    [checked, measured, solved, rebuilt].map(|answer| (answer.code, answer.place))
}

fn assert_repeat(rows: &Rows, place: u32) {
    assert_eq!(answers(rows), [(18, place); 4], "{rows:?}");
}

/// The times that are all 0 meet every arc.
fn assert_accepted(rows: &Rows) {
    assert_eq!(answers(rows), [(0, 0); 4], "{rows:?}");
}

/// Two arcs with the same ends, in either order and either direction.
fn both_ways(one: (i32, i32), other: (i32, i32)) -> [[Line; 2]; 4] {
    let forward = |(lower, upper)| (0, 1, lower, upper);
    let backward = |(lower, upper)| (1, 0, lower, upper);
    [
        [forward(one), forward(other)],
        [forward(other), forward(one)],
        [backward(one), backward(other)],
        [backward(other), backward(one)],
    ]
}

#[test]
fn bounds_that_repeat() {
    let cases = [
        ("equal", [60, 60], (10, 15), (10, 15)),
        ("one period later", [60, 60], (10, 15), (70, 75)),
        ("several periods later", [60, 60], (10, 15), (310, 315)),
        ("from below 0", [60, 60], (-50, -45), (10, 15)),
        (
            "lower at its limits",
            [60, 60],
            (-7200, -7199),
            (7200, 7201),
        ),
        ("by 20", [60, 20], (25, 30), (45, 50)),
        ("by 20, from below 0", [40, 60], (-1, 3), (19, 23)),
        ("[0,59] and [20,39] by 20", [60, 20], (0, 59), (20, 39)),
        ("wide by one tick", [20, 20], (0, 19), (0, 20)),
        ("wide without end", [60, 60], (0, 59), (0, i32::MAX)),
        ("wide, a period later", [60, 60], (-5, i32::MAX), (55, 200)),
        ("period 1", [1, 3600], (-7200, 7200), (7, 7)),
        ("no common divisor", [7, 9], (0, 0), (5, 8)),
    ];
    for (name, periods, one, other) in cases {
        for lines in both_ways(one, other) {
            let rows = network(&periods, &lines);
            assert_eq!(answers(&rows), [(18, 1); 4], "{name}: {lines:?}");
        }
    }
}

#[test]
fn weights_play_no_part() {
    for weights in [[3, 3], [3, 4], [0, 10_000]] {
        let rows = Rows {
            weight: weights.to_vec(),
            ..network(&[60, 60], &[(0, 1, 10, 15); 2])
        };
        assert_repeat(&rows, 1);
    }
}

#[test]
fn bounds_that_do_not_repeat() {
    let cases = [
        ("remainders one apart", [60, 60], (0, 10), (-1, 9)),
        ("a tick short of a period", [60, 60], (0, 10), (59, 69)),
        ("widths one apart", [60, 60], (0, 10), (0, 11)),
        ("a tick short of wide", [60, 60], (0, 58), (0, 59)),
        ("always met, other remainders", [20, 20], (0, 19), (5, 24)),
        ("equal by 60, not by 120", [120, 120], (0, 70), (60, 130)),
    ];
    for (name, periods, one, other) in cases {
        for lines in both_ways(one, other) {
            let rows = network(&periods, &lines);
            assert_eq!(answers(&rows), [(0, 0); 4], "{name}: {lines:?}");
        }
    }
}

#[test]
fn ends_that_do_not_repeat() {
    let cases = [
        ("opposite directions", [(0, 1), (1, 0)]),
        ("another head", [(0, 1), (0, 2)]),
        ("another tail", [(0, 2), (1, 2)]),
        ("one behind the other", [(0, 1), (1, 2)]),
    ];
    for (name, ends) in cases {
        let lines = ends.map(|(tail, head)| (tail, head, 0, 10));
        let rows = network(&[60; 3], &lines);
        assert_eq!(answers(&rows), [(0, 0); 4], "{name}");
    }
    // By 20 and by 60: where arc periods differ, so do ends.
    let rows = network(&[60, 20, 60], &[(0, 1, 0, 30), (0, 2, 0, 30)]);
    assert_eq!(answers(&rows), [(0, 0), (0, 0), (0, 0), (11, 1)]);
}

/// What the arc of a letter is like, at its place in a word: a letter's own are its width, its
/// remainder or its ends, and its place takes it some periods away from the same letter elsewhere.
const ALPHABETS: [fn(u32, i32) -> Line; 3] = [
    |letter, place| (0, 1, 60 * place, 60 * place + letter as i32),
    |letter, place| {
        let lower = 60 * place - letter as i32;
        (0, 1, lower, lower + 10)
    },
    |letter, place| (letter, (letter + 1) % 3, 60 * place, 60 * place),
];

/// The word in each alphabet.
fn written(word: &str) -> [Rows; 3] {
    ALPHABETS.map(|line| {
        let letters = word.bytes().map(|letter| u32::from(letter - b'x'));
        let lines: Vec<Line> = letters
            .zip(0..)
            .map(|(letter, place)| line(letter, place))
            .collect();
        network(&[60; 3], &lines)
    })
}

/// Of all pairs, the one whose second arc has the lowest number.
#[test]
fn place_is_the_first_second_arc() {
    let words = [
        ("xx", 1),
        ("xxx", 1),
        ("xyx", 2),
        ("xyyx", 2),
        ("xyxy", 2),
        ("xyyzz", 2),
        ("xyzx", 3),
        ("xyzyx", 3),
        ("xyzxyz", 3),
    ];
    for (word, place) in words {
        for rows in written(word) {
            assert_repeat(&rows, place);
        }
    }
    for rows in ["", "x", "xy", "xyz", "zyx"].map(written).iter().flatten() {
        assert_accepted(rows);
    }
}

/// A code and its place, and what brings it about.
type Edit = (u32, u32, fn(&mut Rows));

/// Wherever they apply; here mostly at an arc after the repeat.
#[test]
fn codes_up_to_8_come_before() {
    let edits: [Edit; 8] = [
        (1, 0, |rows| rows.periods.clear()),
        (2, 2, |rows| rows.periods[2] = 0),
        (3, 0, |rows| rows.weight.push(0)),
        (4, 2, |rows| rows.head[2] = 3),
        (5, 2, |rows| rows.head[2] = rows.tail[2]),
        (6, 2, |rows| rows.lower[2] = -7201),
        (7, 2, |rows| rows.upper[2] = rows.lower[2] - 1),
        (8, 2, |rows| rows.weight[2] = 10_001),
    ];
    for (code, place, edit) in edits {
        for mut rows in written("xxy") {
            edit(&mut rows);
            assert_eq!(answers(&rows), [(code, place); 4], "{rows:?}");
        }
    }
}

/// The arc's tension is its lower bound.
fn add(case: &mut Case, line: Line) {
    case.rows.push(arc(line, 1));
    case.tensions.push(line.2);
    case.turns.push(0);
}

/// Two arcs, a right timetable and its tensions.
fn right_case() -> Case {
    let mut case = Case {
        times: vec![0, 10, 30],
        ..Case::unwritten(network(&[60; 3], &[]))
    };
    add(&mut case, (0, 1, 10, 10));
    add(&mut case, (1, 2, 20, 20));
    case
}

/// What is answered without the repeat, and why.
type Trouble = (Call, u32, fn(&mut Case));

#[test]
fn codes_from_9_on_come_after() {
    let troubles: [Trouble; 16] = [
        (CHECK, 0, |_| ()),
        (MEASURE, 0, |_| ()),
        (SOLVE_BY_SKIPPING, 0, |_| ()),
        (REBUILD, 0, |_| ()),
        (CHECK, 9, |case| case.times.push(0)),
        (MEASURE, 9, |case| case.times.truncate(2)),
        (MEASURE, 9, |case| case.tensions.clear()),
        (SOLVE_BY_SKIPPING, 9, |case| case.turns.clear()),
        (REBUILD, 9, |case| case.times.truncate(2)),
        (SOLVE_BY_SKIPPING, 10, |case| add(case, (0, 1, 11, 11))),
        (REBUILD, 11, |case| case.rows.periods[2] = 30),
        (REBUILD, 12, |case| case.tensions[0] = 11),
        (REBUILD, 13, |case| add(case, (0, 2, 31, 31))),
        (CHECK, 14, |case| case.times[2] = 60),
        (MEASURE, 14, |case| case.times[2] = 60),
        (CHECK, 15, |case| case.times[1] = 11),
    ];
    for (call, code, edit) in troubles {
        let mut case = right_case();
        edit(&mut case);
        let (answer, _) = call.compare(&case);
        assert_eq!(answer.code, code, "{}", call.name);
        let place = case.rows.tail.len();
        add(&mut case, (0, 1, 70, 70));
        let (answer, _) = call.compare(&case);
        assert_eq!(answer, Answer::refusal(18, place), "{} {code}", call.name);
    }
}

/// Rebuild's tensions are an arc row, so their length is judged with code 3.
#[test]
fn tension_row_comes_before() {
    for length in [2, 4] {
        let mut case = right_case();
        add(&mut case, (0, 1, 10, 10));
        case.tensions.resize(length, 0);
        let (answer, _) = REBUILD.compare(&case);
        assert_eq!(answer, Answer::refusal(3, 0), "{length}");
    }
}

/// The arc becomes a repeat of the model, a period of 3,600 later.
fn enter_again(rows: &mut Rows, model: usize, arc: usize) {
    rows.tail[arc] = rows.tail[model];
    rows.head[arc] = rows.head[model];
    rows.lower[arc] = rows.lower[model] + 3600;
    rows.upper[arc] = rows.upper[model].saturating_add(3600);
}

#[test]
fn first_of_256_arcs_again() {
    for rows in [full::parallel(), full::apart()] {
        assert_accepted(&rows);
        for place in [1, 128, 255] {
            let mut rows = rows.clone();
            enter_again(&mut rows, 0, place);
            assert_repeat(&rows, place as u32);
        }
    }
}

/// Between up to 64 events, whichever of the two has the lower number.
#[test]
fn any_of_256_arcs_again() {
    let mut random = Random::new(71);
    for _ in 0..1000 {
        let mut case = heavy(&mut random);
        let model = random.below(256);
        let arc = (model + 1 + random.below(255)) % 256;
        enter_again(&mut case.rows, model, arc);
        let (answer, _) = CHECK.compare(&case);
        assert_eq!(answer, Answer::refusal(18, model.max(arc)), "{case:?}");
    }
}

/// Periods with every arc period up to 4, and 6.
const PERIODS: [[u32; 2]; 8] = [
    [1, 6],
    [2, 2],
    [2, 3],
    [3, 3],
    [4, 6],
    [6, 4],
    [4, 4],
    [6, 6],
];

/// All choices of `count` arcs between two events, out of those with a lower bound of at most so
/// many ticks either way and up to so many ticks wide.
fn each_choice(count: u32, ticks: i32, widest: i32, mut visit: impl FnMut(&[Line])) {
    let mut lines = Vec::new();
    for lower in -ticks..=ticks {
        for upper in lower..=lower + widest {
            lines.extend([(0, 1, lower, upper), (1, 0, lower, upper)]);
        }
    }
    for number in 0..lines.len().pow(count) {
        let digit = |k: u32| number / lines.len().pow(k) % lines.len();
        let choice: Vec<Line> = (0..count).map(|k| lines[digit(k)]).collect();
        visit(&choice);
    }
}

#[test]
fn all_small_networks() {
    let mut tally = Tally::new("check, all small networks of two and three arcs");
    for periods in PERIODS {
        let mut compare = |lines: &[Line]| {
            let case = Case {
                times: vec![0, 0],
                rows: network(&periods, lines),
                ..Case::default()
            };
            tally.add(CHECK.compare(&case).0);
        };
        each_choice(2, 4, 4, &mut compare);
        each_choice(3, 1, 2, &mut compare);
    }
    tally.require(10_000, &[0, 15, 18]);
}

/// What to repeat means: no times tell the two arcs apart, by their slacks or by whether they are
/// met.
#[test]
fn repeats_are_the_same_rule() {
    for periods in PERIODS {
        each_choice(2, 4, 6, |lines| {
            let rows = network(&periods, lines);
            let network = rows.network();
            let rule = |arc: usize, times: &[u32]| {
                (slack(&network, arc, times), met(&network, arc, times))
            };
            let mut tails = 0..periods[0];
            let alike = tails.all(|tail| {
                let mut heads = 0..periods[1];
                heads.all(|head| rule(0, &[tail, head]) == rule(1, &[tail, head]))
            });
            let same = lines[0].0 == lines[1].0 && alike;
            assert_eq!(repeats(&network, 0, 1), same, "{periods:?} {lines:?}");
        });
    }
}
