//! The damages to the records: code 17.

use super::TextDamage;
use crate::network::Filled;
use crate::random::texts::{Draft, Line};
use crate::random::Random;

pub const RECORDS: [TextDamage; 16] = [
    spelling,
    minus,
    beyond_limit,
    many_digits,
    other_number,
    record_missing,
    record_repeated,
    records_swapped,
    field_missing,
    field_added,
    record_end,
    records_joined,
    behind_line,
    lone_break_at_end,
    empty_line_at_end,
    one_too_many,
];

/// Those that leave every other record as it is, so that another may be damaged too.
pub const ONE_RECORD: [TextDamage; 6] = [
    spelling,
    minus,
    many_digits,
    other_number,
    field_missing,
    field_added,
];

/// A damage to the events text alone: an arcs text may be without records.
pub const NO_EVENT: TextDamage = |random, draft| {
    draft.lines.truncate(1);
    draft.lines[0].end = random.pick(&["\r\n", ""]);
    Filled::refusal(17, 0)
};

fn bad_record(record: usize) -> Filled {
    Filled::refusal(17, record)
}

fn record_count(draft: &Draft) -> usize {
    draft.lines.len() - 1
}

fn any_record(random: &mut Random, draft: &Draft) -> usize {
    random.below(record_count(draft))
}

/// Record 0 stands behind the header.
fn fields(draft: &mut Draft, record: usize) -> &mut Vec<String> {
    &mut draft.lines[record + 1].fields
}

/// Lower and upper, which the arcs text has alone.
fn is_signed(column: usize) -> bool {
    column == 3 || column == 4
}

/// F stands for the field.
const SPELLINGS: [&str; 36] = [
    "",
    "\"F\"",
    "\"F",
    "F\"",
    "\"\"",
    " F",
    "F ",
    "\tF",
    "F\t",
    "+F",
    "F+",
    "-",
    "--F",
    "+-F",
    "-+F",
    "F-",
    "F.",
    "F.0",
    "Fe0",
    "F_0",
    "F'0",
    "0xF",
    "/F",
    "F/",
    ":F",
    "F:",
    "F;",
    "\0F",
    "F\0",
    "F\u{660}",
    "\u{feff}F",
    "F\u{a0}",
    "\rF",
    "F\r",
    "\nF",
    "F\n",
];

fn spelling(random: &mut Random, draft: &mut Draft) -> Filled {
    let record = any_record(random, draft);
    let fields = fields(draft, record);
    let column = random.below(fields.len());
    fields[column] = random.pick(&SPELLINGS).replace('F', &fields[column]);
    bad_record(record)
}

/// Before a number that may have none, also before 0.
fn minus(random: &mut Random, draft: &mut Draft) -> Filled {
    let record = any_record(random, draft);
    let fields = fields(draft, record);
    let mut column = random.below(fields.len());
    while is_signed(column) {
        column = random.below(fields.len());
    }
    fields[column] = match random.below(3) {
        0 => "-0".into(),
        _ => format!("-{}", fields[column]),
    };
    bad_record(record)
}

/// Just past what the row can hold, and far past with the last 32 or 64 bits as they should be.
fn beyond_limit(random: &mut Random, draft: &mut Draft) -> Filled {
    let record = any_record(random, draft);
    let fields = fields(draft, record);
    let column = 1 + random.below(fields.len() - 1);
    let right: i128 = fields[column].parse().expect("a value of 32 bits");
    let (least, greatest) = if is_signed(column) {
        (i128::from(i32::MIN), i128::from(i32::MAX))
    } else {
        (0, i128::from(u32::MAX))
    };
    let power = random.pick(&[32, 33, 40, 63, 64, 65, 96]);
    let value = match random.below(7) {
        0 => greatest + 1,
        1 => greatest + 1 + random.below(10) as i128,
        2 => greatest * 10 + random.below(10) as i128,
        3 if least < 0 => least - 1,
        4 if least < 0 => least - 1 - random.below(10) as i128,
        5 if least < 0 => -(1 << power) + right.min(-1),
        _ => (1 << power) + right.max(0),
    };
    fields[column] = with_zeros(random, value);
    bad_record(record)
}

fn with_zeros(random: &mut Random, value: i128) -> String {
    let zeros = "0".repeat(random.pick(&[0, 0, 0, 1, 12, 200]));
    let sign = if value < 0 { "-" } else { "" };
    format!("{sign}{zeros}{}", value.unsigned_abs())
}

fn many_digits(random: &mut Random, draft: &mut Draft) -> Filled {
    let record = any_record(random, draft);
    let fields = fields(draft, record);
    let column = random.below(fields.len());
    let first = random.pick(&["1", "4", "9", "0001"]);
    let behind = "0".repeat(random.between(10, 400) as usize);
    fields[column] = match random.below(3) {
        0 => format!("{first}{behind}{}", fields[column].trim_matches('-')),
        1 => format!("{first}{behind}"),
        _ => "9".repeat(behind.len()),
    };
    bad_record(record)
}

/// One more or less than it should be, far more with the same last bits, or any other.
fn other_number(random: &mut Random, draft: &mut Draft) -> Filled {
    let record = any_record(random, draft);
    let right = record as i128;
    let power = random.pick(&[8, 16, 32, 64]);
    let number = match random.below(5) {
        0 => right + 1,
        1 if record > 0 => right - 1,
        2 => right * 10 + 1,
        3 => right + 1 + random.below(1000) as i128,
        _ => right + (1 << power),
    };
    fields(draft, record)[0] = with_zeros(random, number);
    bad_record(record)
}

/// Not the last, which no other would follow.
fn record_missing(random: &mut Random, draft: &mut Draft) -> Filled {
    let record = random.below(record_count(draft) - 1);
    draft.lines.remove(record + 1);
    bad_record(record)
}

fn record_repeated(random: &mut Random, draft: &mut Draft) -> Filled {
    let record = any_record(random, draft);
    let again = Line {
        fields: fields(draft, record).clone(),
        end: "\r\n",
    };
    draft.lines.insert(record + 1, again);
    bad_record(record + 1)
}

fn records_swapped(random: &mut Random, draft: &mut Draft) -> Filled {
    let record = random.below(record_count(draft) - 1);
    let first = std::mem::take(fields(draft, record));
    let second = std::mem::replace(fields(draft, record + 1), first);
    *fields(draft, record) = second;
    bad_record(record)
}

fn field_missing(random: &mut Random, draft: &mut Draft) -> Filled {
    let record = any_record(random, draft);
    let fields = fields(draft, record);
    fields.remove(random.below(fields.len()));
    bad_record(record)
}

fn field_added(random: &mut Random, draft: &mut Draft) -> Filled {
    let record = any_record(random, draft);
    let fields = fields(draft, record);
    let place = random.below(fields.len() + 1);
    let field = random.pick(&["", "0", "7", " "]);
    fields.insert(place, field.into());
    bad_record(record)
}

fn record_end(random: &mut Random, draft: &mut Draft) -> Filled {
    let record = any_record(random, draft);
    let ends = [
        "\n", "\r", "\n\r", "\r\r\n", "\n\r\n", "\r \n", " \r\n", ",\r\n",
    ];
    draft.lines[record + 1].end = random.pick(&ends);
    bad_record(record)
}

/// No line break between two records.
fn records_joined(random: &mut Random, draft: &mut Draft) -> Filled {
    let record = random.below(record_count(draft) - 1);
    draft.lines[record + 1].end = "";
    bad_record(record)
}

/// More behind a line break, the header's too: an empty line or the beginning of a wrong one.
fn behind_line(random: &mut Random, draft: &mut Draft) -> Filled {
    let line = random.below(draft.lines.len());
    let ends = [
        "\r\n\r\n",
        "\r\n\r\n\r\n",
        "\r\n\n",
        "\r\n\r",
        "\r\n ",
        "\r\n,",
        "\r\n\0",
    ];
    draft.lines[line].end = random.pick(&ends);
    bad_record(line)
}

fn lone_break_at_end(random: &mut Random, draft: &mut Draft) -> Filled {
    let last = record_count(draft);
    draft.lines[last].end = random.pick(&["\r", "\n"]);
    bad_record(last - 1)
}

fn empty_line_at_end(random: &mut Random, draft: &mut Draft) -> Filled {
    let last = record_count(draft);
    draft.lines[last].end = random.pick(&["\r\n\r\n", "\r\n\r\n\r\n"]);
    bad_record(last)
}

/// Up to the limit and past it, where a record is bad whatever it holds.
fn one_too_many(random: &mut Random, draft: &mut Draft) -> Filled {
    let limit = [64, 256][draft.place];
    let further = 1 + random.below(3);
    let last = record_count(draft);
    let columns = draft.lines[last].fields.len();
    draft.lines[last].end = "\r\n";
    for number in last..limit + further {
        let mut fields = vec!["7".to_string(); columns];
        fields[0] = number.to_string();
        draft.lines.push(Line {
            fields,
            end: "\r\n",
        });
    }
    if random.one_in(3) {
        let any = random.pick(&["", "0", "x", "\""]);
        *fields(draft, limit) = vec![any.into()];
    }
    bad_record(limit)
}
