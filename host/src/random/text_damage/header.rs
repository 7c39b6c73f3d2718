//! The damages to a header: code 16.

use super::TextDamage;
use crate::network::Filled;
use crate::random::texts::{Draft, Line};
use crate::random::Random;

pub const HEADER: [TextDamage; 7] = [
    header_spelling,
    other_header,
    header_end,
    header_missing,
    header_cut,
    line_before_header,
    empty_text,
];

fn wrong_header(draft: &Draft) -> Filled {
    Filled::refusal(16, draft.place)
}

/// H stands for the header.
const HEADER_SPELLINGS: [&str; 13] = [
    "\u{feff}H",
    "\"H\"",
    " H",
    "H ",
    "H,",
    ",H",
    "H;",
    "H\0",
    "\nH",
    "\rH",
    "H\r",
    "hH",
    "",
];

fn header_spelling(random: &mut Random, draft: &mut Draft) -> Filled {
    let fields = &mut draft.lines[0].fields;
    let column = random.below(fields.len());
    let field = &mut fields[column];
    match random.below(8) {
        0 => *field = field.to_uppercase(),
        1 => field.replace_range(..1, &field[..1].to_uppercase()),
        2 => *field = format!("\"{field}\""),
        3 => *field = random.pick(&[" F", "F "]).replace('F', field),
        4 => drop(fields.remove(column)),
        5 => fields.reverse(),
        _ => {
            let spelling = random.pick(&HEADER_SPELLINGS);
            *fields = vec![spelling.replace('H', &fields.join(","))];
        }
    }
    wrong_header(draft)
}

/// The header of the other text.
fn other_header(_: &mut Random, draft: &mut Draft) -> Filled {
    let other = ["arc,tail,head,lower,upper,weight", "event,period"][draft.place];
    draft.lines[0].fields = vec![other.into()];
    wrong_header(draft)
}

fn header_end(random: &mut Random, draft: &mut Draft) -> Filled {
    draft.lines[0].end = random.pick(&["\n", "\r", "\n\r", "\r\r\n", " \r\n", ",\r\n", ""]);
    wrong_header(draft)
}

fn header_missing(_: &mut Random, draft: &mut Draft) -> Filled {
    draft.lines.remove(0);
    wrong_header(draft)
}

/// The text ends before its header does, or in a line break that is not whole.
fn header_cut(random: &mut Random, draft: &mut Draft) -> Filled {
    draft.lines.truncate(1);
    let header = &mut draft.lines[0];
    let text = header.fields.join(",");
    let length = 1 + random.below(text.len());
    header.end = if length < text.len() {
        ""
    } else {
        random.pick(&["\r", "\n"])
    };
    header.fields = vec![text[..length].to_string()];
    wrong_header(draft)
}

fn line_before_header(random: &mut Random, draft: &mut Draft) -> Filled {
    let before = Line {
        fields: vec![String::new()],
        end: random.pick(&["\r\n", "\n", "\r"]),
    };
    draft.lines.insert(0, before);
    wrong_header(draft)
}

fn empty_text(random: &mut Random, draft: &mut Draft) -> Filled {
    draft.lines.truncate(1);
    draft.lines[0] = Line {
        fields: vec![String::new()],
        end: random.pick(&["", "", "\r\n"]),
    };
    wrong_header(draft)
}
