//! Looking up: fields found by their names among 500 values.

use super::inputs::Asked;
use super::lists::{asked, asked_by_a_case, asked_through_calls};
use super::lists::{first, list, short_names, shuffled};
use super::lists::{Bytes, List, Shape, ALL_ASKED, ALL_CALLED, LONGEST, MANY, SHAPES};
use super::ours::{Lent, Words};
use super::table::{Group, Row};
use super::validating::{runs_row, validating_row};
use super::{inputs, Head};

pub const HEADS: [Head; 12] = [
    ("length_of, 500 names, one asked", "field"),
    ("length_of, 500 names, all asked", "field"),
    (
        "length_of, 500 names of one length, some asked at random",
        "field",
    ),
    (
        "length_of, 500 names of many lengths, some asked at random",
        "field",
    ),
    ("length_of, 500 names, asked through calls", "field"),
    ("length_of, 512 short names, beside the 500 names", "field"),
    (
        "length_of, 500 names and fewer, three asked by a switch of 64 cases",
        "field",
    ),
    ("validate, 500 names, all asked", "field"),
    (
        "validate, 500 names of one length, some asked at random",
        "field",
    ),
    ("validate, 500 names, asked through calls", "field"),
    (
        "validate, 500 names and fewer, three asked by a switch of 64 cases",
        "field",
    ),
    (
        "validate_runs, beside the 500 names, times per run",
        "field",
    ),
];

/// The table at a place among the heads.
pub fn table(lent: Lent, place: usize, head: Head) -> Result<Group, String> {
    let (own, lent_words) = (Words::Own, Words::Lent(lent));
    let rows = match place {
        0 => one_asked(own),
        1 => all_asked(own),
        2 => some_asked(own, Shape::Prefix),
        3 => some_asked(own, Shape::Spread),
        4 => through_calls(own),
        5 => few_of_short(own),
        6 => by_a_case(own),
        7 => all_asked(lent_words),
        8 => some_asked(lent_words, Shape::Prefix),
        9 => through_calls(lent_words),
        10 => by_a_case(lent_words),
        _ => runs(lent),
    };
    Ok(Group { head, rows: rows? })
}

/// A row that is not held against the one above it.
fn row(words: Words, what: String, asked: &Asked) -> Result<Row, String> {
    let row = validating_row(words, what, 0, asked)?;
    Ok(Row { size: None, ..row })
}

/// What a list is, with the bytes of its names.
fn label(shape: Shape, bytes: &Bytes) -> String {
    match shape {
        Shape::Spread => format!("{}, 1 to {} bytes", shape.what(), bytes.top),
        _ => format!("{}, {} bytes", shape.what(), bytes.one),
    }
}

fn one_asked(words: Words) -> Result<Vec<Row>, String> {
    let mut rows = Vec::new();
    for shape in SHAPES {
        let list = list(shape, &LONGEST);
        let places = [
            ("found first", &list.names[0]),
            ("found last", &list.names[MANY - 1]),
            ("not there", &list.absent),
        ];
        for (place, name) in places {
            let what = format!("{}, {place}", label(shape, &LONGEST));
            rows.push(row(words, what, &asked(&list, &[name.clone()]))?);
        }
    }
    Ok(rows)
}

fn all_asked(words: Words) -> Result<Vec<Row>, String> {
    let mut rows = Vec::new();
    for shape in SHAPES {
        let list = list(shape, &ALL_ASKED);
        let reversed = list.names.iter().rev().cloned().collect();
        let orders = [
            ("in order", list.names.clone()),
            ("in reverse", reversed),
            ("shuffled", shuffled(&list.names)),
        ];
        for (order, fields) in orders {
            let what = format!("{}, {order}", label(shape, &ALL_ASKED));
            rows.push(row(words, what, &asked(&list, &fields))?);
        }
    }
    Ok(rows)
}

/// From how many fields on it pays to remember what was seen.
fn some_asked(words: Words, shape: Shape) -> Result<Vec<Row>, String> {
    let list = list(shape, &LONGEST);
    let fields = shuffled(&list.names);
    let mut rows = Vec::new();
    for many in [1, 2, 4, 8, 16, 32] {
        let some = if many == 1 { "" } else { "s" };
        let what = format!("{many} field{some}");
        let asked = asked(&list, &fields[..many]);
        rows.push(validating_row(words, what, many, &asked)?);
    }
    Ok(rows)
}

fn through_calls(words: Words) -> Result<Vec<Row>, String> {
    let mut rows = Vec::new();
    let lists = SHAPES.map(|shape| (shape, ALL_ASKED));
    for (shape, bytes) in lists.into_iter().chain([(Shape::Prefix, ALL_CALLED)]) {
        let list = list(shape, &bytes);
        let (many, asked) = asked_through_calls(&list, &shuffled(&list.names));
        let what = format!("{}, {many} fields", label(shape, &bytes));
        rows.push(row(words, what, &asked)?);
    }
    Ok(rows)
}

fn few_of_short(words: Words) -> Result<Vec<Row>, String> {
    let list = short_names();
    let asked = asked(&list, &shuffled(&list.names)[..64]);
    Ok(vec![row(words, "64 fields, shuffled".to_string(), &asked)?])
}

/// Long trees of which little is evaluated: an index of the values would not
/// pay.
fn by_a_case(words: Words) -> Result<Vec<Row>, String> {
    let lists = [
        (
            "many lengths, 1 to 240 bytes",
            list(Shape::Spread, &LONGEST),
        ),
        (
            "common prefix, 121 bytes",
            list(Shape::Prefix, &LONGEST),
        ),
        ("512 short names", short_names()),
        ("256 short names", first(256, short_names())),
        ("130 short names", first(130, short_names())),
    ];
    let mut rows = Vec::new();
    for (what, list) in lists {
        let asked = asked_by_a_case(&list, &shuffled(&list.names));
        rows.push(row(words, what.to_string(), &asked)?);
    }
    Ok(rows)
}

/// Short lists: each run has its own, and nothing that was seen in one holds for
/// the next.
fn runs(lent: Lent) -> Result<Vec<Row>, String> {
    let twenty = |list: List| {
        let list = first(20, list);
        asked(&list, &shuffled(&list.names))
    };
    let asked = [
        ("20 names of 4 bytes, 20 fields", twenty(short_names())),
        (
            "20 names of 121 bytes, common prefix, 20 fields",
            twenty(list(Shape::Prefix, &LONGEST)),
        ),
        ("the worked example", inputs::trip()),
    ];
    let mut rows = Vec::new();
    for (what, asked) in asked {
        rows.push(runs_row(lent, format!("64 runs, {what}"), 64, &asked)?);
    }
    Ok(rows)
}
