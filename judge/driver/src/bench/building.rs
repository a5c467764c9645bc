//! Building: from a set's bytes to a layout's.

use super::measure::{medians, medians_beside, work};
use super::ours::{archives, Words, NOW};
use super::table::{Group, Parts, Row};
use super::{accepted, Head};
use crate::data::*;
use crate::gen::grown;
use crate::rules::read;
use crate::{rust, slow, trip, write};
use std::hint::black_box;

/// A set with its bytes and the layout that the Rust builds.
pub struct Source {
    what: String,
    size: Option<usize>,
    set: Set,
    bytes: Vec<u8>,
    layout: Vec<u8>,
}

impl Source {
    fn new(what: String, size: Option<usize>, set: Set) -> Source {
        let bytes = write::set(&set);
        let layout = grown::layout_of(&set).expect("a measured set builds");
        Source {
            what: format!("{what}, {} bytes to {}", bytes.len(), layout.len()),
            size,
            set,
            bytes,
            layout,
        }
    }
}

/// The worked example, and generated types of 300 bytes or more, of which the
/// first 6, 12, 24 and all 48 are taken.
pub fn by_bytes() -> Vec<Source> {
    let all = grown::types();
    let mut out = vec![Source::new("Trip".to_string(), None, trip::set())];
    for n in [6, 12, 24, 48] {
        let set = all[..n].to_vec();
        let bytes = write::set(&set).len();
        out.push(Source::new(format!("{n} types"), Some(bytes), set));
    }
    out
}

pub fn by_parameters() -> Vec<Source> {
    let source = |n| Source::new(format!("{n} parameters"), Some(n), slow::called(n, 64));
    [64, 128, 256, 512].map(source).into()
}

pub fn building(words: Words, head: Head, sets: &[Source]) -> Result<Group, String> {
    let mut rows = Vec::new();
    for source in sets {
        rows.push(building_row(words, source)?);
    }
    Ok(Group { head, rows })
}

/// Decoding, `build_type` for each type and encoding.
pub fn rust_builds(set: &[u8]) -> Option<Vec<u8>> {
    let types = read::set(set).ok()?;
    let trees = rust::build(&types, types.len()).ok()?;
    Some(write::layout(&trees))
}

/// All must give the layout, byte for byte.
fn same_layouts(words: Words, source: &Source) -> Result<(), String> {
    let n = source.layout.len();
    for (whose, archive) in archives() {
        let out = &mut vec![0; LIMIT];
        let answer = archive.build(words, &source.bytes, out);
        if answer != accepted(n as u64) || out[..n] != source.layout {
            return Err(format!("{}: {whose} {answer:?}", source.what));
        }
    }
    match rust_builds(&source.bytes) == Some(source.layout.clone()) {
        true => Ok(()),
        false => Err(format!("{}: the Rust builds another layout", source.what)),
    }
}

fn building_row(words: Words, source: &Source) -> Result<Row, String> {
    same_layouts(words, source)?;
    let types = rust::Types::new(&source.set);
    let (ours, before, [whole, alone]) = medians_beside(
        |archive| {
            let mut out = vec![0; LIMIT];
            work(move || archive.build(words, black_box(&source.bytes), &mut out))
        },
        [
            work(|| rust_builds(black_box(&source.bytes))),
            work(|| black_box(&types).build(usize::MAX)),
        ],
    );
    Ok(Row {
        what: source.what.clone(),
        size: source.size,
        ours,
        before,
        whole,
        lean: None,
        checks: None,
        alone: Some(alone),
    })
}

pub fn build_parts(words: Words, name: &str, source: &Source) -> Result<Parts, String> {
    let out = &mut vec![0; LIMIT];
    same_layouts(words, source)?;
    let types = rust::Types::new(&source.set);
    let built = types.build(usize::MAX);
    let built = built.map_err(|e| format!("{}: {e:?}", source.what))?;
    let trees = rust::trees(&built);
    let [ours, decode, convert, call, convert_back, encode] = medians([
        work(|| NOW.build(words, black_box(&source.bytes), out)),
        work(|| read::set(black_box(&source.bytes))),
        work(|| rust::Types::new(black_box(&source.set))),
        work(|| black_box(&types).build(usize::MAX)),
        work(|| rust::trees(black_box(&built))),
        work(|| write::layout(black_box(&trees))),
    ]);
    Ok(Parts {
        what: format!("{name}, {}", source.what),
        ours,
        decode,
        convert,
        call,
        convert_back,
        encode,
    })
}
