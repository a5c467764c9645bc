//! Inputs on which a call takes long for their bytes (`slow.rs`).

use super::building::rust_builds;
use super::measure::{medians_beside, work};
use super::ours::{archives, Answer, Archive, Lent, Words};
use super::table::{Group, Row};
use super::{lean, lean_sets, Head};
use crate::data::*;
use crate::rules::read;
use crate::rust;
use crate::slow::{self, Call, Slow};
use std::hint::black_box;

fn what(slow: &Slow) -> String {
    let refused = match slow.number {
        0 => String::new(),
        n => format!(", refused with {n}"),
    };
    format!("{}, {} bytes{refused}", slow.name, slow.bytes.len())
}

/// A row for each input that is put to this call.
fn rows(
    head: Head,
    call: Call,
    mut row: impl FnMut(&Slow) -> Result<Row, String>,
) -> Result<Group, String> {
    let inputs = slow::all(slow::FULL);
    let put = inputs.iter().filter(|slow| slow.call == call);
    let rows: Result<Vec<Row>, String> = put
        .map(|slow| row(slow).map_err(|e| format!("{}: {e}", what(slow))))
        .collect();
    Ok(Group { head, rows: rows? })
}

fn same_number(
    slow: &Slow,
    (whose, answer): (&str, Answer),
    theirs: Option<u8>,
) -> Result<(), String> {
    let number = u64::from(slow.number);
    match answer[0] == number && theirs == Some(slow.number) {
        true => Ok(()),
        false => Err(format!(
            "{number} expected: {whose} {answer:?}, Rust {theirs:?}"
        )),
    }
}

pub fn building(head: Head) -> Result<Group, String> {
    rows(head, Call::Build, building_row)
}

/// Where ours refuses with 18, the Rust builds more than fits.
fn building_row(slow: &Slow) -> Result<Row, String> {
    let theirs = rust_builds(&slow.bytes);
    let number = theirs.as_ref().map(|t| match t.len() > LIMIT {
        true => 18,
        false => 0,
    });
    for (whose, archive) in archives() {
        let out = &mut vec![0; LIMIT];
        let answer = archive.build(Words::Own, &slow.bytes, out);
        same_number(slow, (whose, answer), number)?;
        if slow.number == 0 && theirs.as_deref() != Some(&out[..answer[3] as usize]) {
            return Err(format!("the Rust builds another layout than {whose}"));
        }
    }
    let set = read::set(&slow.bytes).map_err(|no| format!("{no:?}"))?;
    let types = rust::Types::new(&set);
    let (ours, before, [whole, alone]) = medians_beside(
        |archive| {
            let mut out = vec![0; LIMIT];
            work(move || archive.build(Words::Own, black_box(&slow.bytes), &mut out))
        },
        [
            work(|| rust_builds(black_box(&slow.bytes))),
            work(|| black_box(&types).build(usize::MAX)),
        ],
    );
    Ok(Row {
        what: what(slow),
        size: None,
        ours,
        before,
        whole,
        lean: None,
        checks: None,
        alone: Some(alone),
    })
}

/// A Rust reader beside ours gives its number, or whether it accepts.
struct Readers<T, U> {
    ours: fn(&Archive, Lent, &[u8]) -> Answer,
    judge: fn(&[u8]) -> Result<T, No>,
    lean: fn(&[u8]) -> Option<U>,
    checks: fn(&[u8]) -> bool,
}

pub fn reading_sets(words: Lent, head: Head) -> Result<Group, String> {
    let readers = Readers {
        ours: Archive::read_set,
        judge: read::set,
        lean: lean_sets::set,
        checks: lean_sets::is_set,
    };
    rows(head, Call::ReadSet, |slow| readers.row(words, slow))
}

pub fn reading_layouts(words: Lent, head: Head) -> Result<Group, String> {
    let readers = Readers {
        ours: Archive::read_layout,
        judge: read::layout,
        lean: lean::layout,
        checks: lean::is_layout,
    };
    rows(head, Call::ReadLayout, |slow| readers.row(words, slow))
}

impl<T, U> Readers<T, U> {
    fn row(&self, words: Lent, slow: &Slow) -> Result<Row, String> {
        let bytes = &slow.bytes;
        let number = (self.judge)(bytes).map_or_else(|no| no.number, |_| 0);
        for (whose, archive) in archives() {
            let answer = (self.ours)(archive, words, bytes);
            same_number(slow, (whose, answer), Some(number))?;
        }
        let good = slow.number == 0;
        if (self.lean)(bytes).is_some() != good || (self.checks)(bytes) != good {
            return Err("the lean readers say otherwise".to_string());
        }
        let (ours, before, [whole, lean, checks]) = medians_beside(
            |archive| work(|| (self.ours)(archive, words, black_box(bytes))),
            [
                work(|| (self.judge)(black_box(bytes))),
                work(|| (self.lean)(black_box(bytes))),
                work(|| (self.checks)(black_box(bytes))),
            ],
        );
        Ok(Row {
            what: what(slow),
            size: None,
            ours,
            before,
            whole,
            lean: Some(lean),
            checks: Some(checks),
            alone: None,
        })
    }
}
