//! Ours beside the Rust: the same bytes, one process, rounds in turn. Before
//! a row is measured, both must give the same answer.

mod building;
mod clock;
mod inputs;
mod lean;
mod lean_sets;
mod lists;
mod long;
mod looking_up;
mod measure;
mod ours;
mod table;
mod validating;
mod words;

use crate::data::*;
use crate::gen::grown;
use crate::rules::read;
use building::{build_parts, building, by_bytes, by_parameters};
use measure::{medians_beside, work};
use ours::{archives, Lent, Words};
use std::cell::Cell;
use std::hint::black_box;
use table::{Aim, Group, Parts, Row};
use validating::{looking, spellings, validate_parts, validating, validating_runs};

/// What ours answers where it accepts, with this last word.
fn accepted(value: u64) -> ours::Answer {
    [0, u64::from(NO_PLACE), 0, value]
}

/// What ours answers where it refuses.
fn refused(no: No) -> ours::Answer {
    [
        u64::from(no.number),
        u64::from(no.place),
        u64::from(no.offset),
        no.value,
    ]
}

/// All tables, or those whose title contains a text; aims and parts are told
/// only with all of them.
pub fn bench(markdown: bool, only: Option<&str>) -> Result<(), String> {
    let lent = &vec![Cell::new(0); WORDS as usize];
    let Some(only) = only else {
        let (groups, parts) = (tables(lent, "")?, all_parts(lent)?);
        let aims = aims(&groups, &parts);
        table::print(&groups, &parts, &aims, markdown);
        return Ok(());
    };
    let groups = tables(lent, only)?;
    if groups.is_empty() {
        return Err(format!("no table has {only} in its title: {}", titles()));
    }
    table::print(&groups, &[], &[], markdown);
    Ok(())
}

/// The tables whose title contains a text, in order.
fn tables(lent: Lent, text: &str) -> Result<Vec<Group>, String> {
    let mut groups = Vec::new();
    for (place, head) in heads().into_iter().enumerate() {
        if head.0.contains(text) {
            groups.push(table_at(lent, place, head)?);
        }
    }
    Ok(groups)
}

fn heads() -> Vec<Head> {
    let rest = [
        RUNS,
        RUNS_CALLS,
        WORDS_ALONE,
        LONG_BUILDS,
        LONG_SETS,
        LONG_LAYOUTS,
        LONG_NAMES,
        ACCENTED_NAMES,
    ];
    let lookups = &looking_up::HEADS[..];
    [&[READ], &OWN[..], &LENT[..], &rest[..], lookups].concat()
}

fn titles() -> String {
    let titles: Vec<&str> = heads().iter().map(|head| head.0).collect();
    titles.join("; ")
}

/// The table at a place among the heads.
fn table_at(lent: Lent, place: usize, head: Head) -> Result<Group, String> {
    let (trip, nested) = (inputs::trip, || inputs::nested(15));
    match place {
        0 => reading(lent),
        1..=5 => table_of(Words::Own, place - 1, head),
        6..=10 => table_of(Words::Lent(lent), place - 6, head),
        11 => validating_runs(lent, head, &[1, 16, 256, 1024], &trip()),
        12 => validating_runs(lent, head, &[1, 16, 256], &nested()),
        13 => looking(head, &trip()),
        14 => long::building(head),
        15 => long::reading_sets(lent, head),
        16 => long::reading_layouts(lent, head),
        17 => spellings(head, &inputs::SPELLINGS[..1]),
        18 => spellings(head, &inputs::SPELLINGS[1..]),
        _ => looking_up::table(lent, place - 19, head),
    }
}

/// One of the five tables that both ways to have working words have.
fn table_of(words: Words, place: usize, head: Head) -> Result<Group, String> {
    match place {
        0 => building(words, head, &by_bytes()),
        1 => building(words, head, &by_parameters()),
        2 => validating(words, head, [1, 16, 128, 512], inputs::with_values),
        3 => validating(words, head, [1, 4, 8, 15], inputs::nested),
        _ => validating(words, head, [1, 16, 64, 256], inputs::among),
    }
}

fn all_parts(lent: Lent) -> Result<Vec<Parts>, String> {
    let sets = by_bytes();
    let (trip, nested) = (inputs::trip(), inputs::nested(15));
    let mut parts = Vec::new();
    for own in [true, false] {
        let (words, build, count) = match own {
            true => (Words::Own, "layout_of", "length_of"),
            false => (Words::Lent(lent), "build_set", "validate"),
        };
        parts.push(build_parts(words, build, &sets[0])?);
        parts.push(build_parts(words, build, &sets[4])?);
        parts.push(validate_parts(words, &format!("{count}, 1 value"), &trip)?);
        parts.push(validate_parts(
            words,
            &format!("{count}, 15 calls"),
            &nested,
        )?);
    }
    Ok(parts)
}

/// A group's title, and what its rows differ in.
type Head = (&'static str, &'static str);

const READ: Head = ("read a layout", "byte");
/// The calls with working words of their own, and those that are lent them.
const OWN: [Head; 5] = [
    ("layout_of, by bytes", "byte of the set"),
    ("layout_of, by parameters of a type", "parameter"),
    ("length_of, by values", "value"),
    ("length_of, by calls", "call"),
    ("length_of, by types", "type"),
];
const LENT: [Head; 5] = [
    ("build_set, by bytes", "byte of the set"),
    ("build_set, by parameters of a type", "parameter"),
    ("validate, by values", "value"),
    ("validate, by calls", "call"),
    ("validate, by types", "type"),
];
const RUNS: Head = ("validate_runs, the worked example, times per run", "run");
const WORDS_ALONE: Head = ("the working words alone, beside the worked example", "word");
const RUNS_CALLS: Head = ("validate_runs, 15 calls, times per run", "run");
const LONG_BUILDS: Head = ("layout_of, inputs that take long", "byte");
const LONG_SETS: Head = ("read a set, inputs that take long", "byte");
const LONG_LAYOUTS: Head = ("read a layout, inputs that take long", "byte");
const LONG_NAMES: Head = ("length_of, 512 long names in ASCII", "value");
const ACCENTED_NAMES: Head = ("length_of, 512 long names beyond ASCII", "value");

/// What is aimed at, beside what was measured.
fn aims(groups: &[Group], parts: &[Parts]) -> Vec<Aim> {
    let row = |group: usize, row: usize| &groups[group].rows[row];
    let mut out = vec![Aim::whole(
        "read_layout, 48 KB, beside decode",
        8.0,
        row(0, 3),
        None,
    )];
    for (own, build, count) in [
        (true, "layout_of", "length_of"),
        (false, "build_set", "validate"),
    ] {
        let (group, part) = match own {
            true => (1, 0),
            false => (6, 4),
        };
        let rust = "beside decode + build_type + encode";
        let [trip, all] = [row(group, 0), row(group, 4)];
        out.push(Aim::whole(
            &format!("{build}, Trip, {rust}"),
            5.0,
            trip,
            Some(&parts[part]),
        ));
        out.push(Aim::whole(
            &format!("{build}, 48 types, {rust}"),
            5.0,
            all,
            Some(&parts[part + 1]),
        ));
        let rust = "beside decode + validate";
        let [trip, nested] = [row(group + 2, 0), row(group + 3, 3)];
        out.push(Aim::whole(
            &format!("{count}, Trip, {rust}"),
            5.0,
            trip,
            Some(&parts[part + 2]),
        ));
        out.push(Aim::whole(
            &format!("{count}, 15 calls, {rust}"),
            5.0,
            nested,
            Some(&parts[part + 3]),
        ));
        let rust = "beside validate alone";
        out.push(Aim::alone(&format!("{count}, Trip, {rust}"), trip));
        out.push(Aim::alone(&format!("{count}, 15 calls, {rust}"), nested));
    }
    let (trip_runs, nested_runs) = (row(11, 2), row(12, 2));
    out.push(Aim::alone(
        "validate_runs, 256 Trips, beside validate alone",
        trip_runs,
    ));
    out.push(Aim::alone(
        "validate_runs, 256 of 15 calls, beside validate alone",
        nested_runs,
    ));
    // Beside the Rust of one validation, as in the row of 1 value, where the
    // layout too is decoded each time.
    out.push(Aim {
        what: "validate_runs, 256 Trips, beside decode + validate each time".to_string(),
        wanted: 5.0,
        got: row(8, 0).whole / trip_runs.ours,
        bare: Some(parts[6].bare() / trip_runs.ours),
    });
    out
}

fn reading(words: Lent) -> Result<Group, String> {
    let sizes = [6, 12, 24, 48].map(grown::layout);
    let mut rows = Vec::new();
    for layout in sizes {
        rows.push(reading_row(words, "", &layout)?);
    }
    let long = grown::long_names();
    rows.push(Row {
        size: None,
        ..reading_row(words, ", long names", &long)?
    });
    Ok(Group { head: READ, rows })
}

fn reading_row(words: Lent, note: &str, layout: &[u8]) -> Result<Row, String> {
    let types = read::layout(layout).map_err(|no| format!("reading: {no:?}"))?;
    for (whose, archive) in archives() {
        let answer = archive.read_layout(words, layout);
        if answer != accepted(0) {
            let bytes = layout.len();
            return Err(format!("reading {bytes} bytes: {whose} {answer:?}"));
        }
    }
    if lean::layout(layout).is_none() || !lean::is_layout(layout) {
        return Err(format!(
            "reading {} bytes: the lean readers refuse",
            layout.len()
        ));
    }
    let (ours, before, [whole, lean, checks]) = medians_beside(
        |archive| work(|| archive.read_layout(words, black_box(layout))),
        [
            work(|| read::layout(black_box(layout))),
            work(|| lean::layout(black_box(layout))),
            work(|| lean::is_layout(black_box(layout))),
        ],
    );
    Ok(Row {
        what: format!("{} bytes, {} types{note}", layout.len(), types.len()),
        size: Some(layout.len()),
        ours,
        before,
        whole,
        lean: Some(lean),
        checks: Some(checks),
        alone: None,
    })
}
