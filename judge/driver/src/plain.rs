//! The program `lengths` as one would write it over the unchanged Rust: all
//! of the input read at once, the layout kept decoded, the output buffered.
//! And the inputs on which it is measured beside ours.

#[allow(dead_code)]
#[path = "bench/lean.rs"]
mod lean;

use crate::data::*;
use crate::gen::{runs, sets};
use crate::prng::Rng;
use crate::rules::{build, eval, lengths, read};
use crate::rust::Judge;
use crate::{rust, trip, write};
use std::io::{BufWriter, Read, Write};

fn next(input: &[u8]) -> Result<(&[u8], &[u8]), u8> {
    let field = input.get(..4).ok_or(2)?;
    let length = 4 + u32::from_le_bytes(field.try_into().unwrap()) as usize;
    match length > LIMIT {
        true => Err(1),
        false => input.split_at_checked(length).ok_or(2),
    }
}

/// The lines of the input. Refusals of reading are the judge's.
pub fn program() -> Result<(), String> {
    let mut input = Vec::new();
    let told = |e: std::io::Error| e.to_string();
    std::io::stdin().read_to_end(&mut input).map_err(told)?;
    let mut out = BufWriter::with_capacity(1 << 16, std::io::stdout().lock());
    if let Err(number) = lines(&input, &mut out).map_err(told)? {
        writeln!(out, "S {number}").map_err(told)?;
    }
    out.flush().map_err(told)
}

fn lines(input: &[u8], out: &mut impl Write) -> std::io::Result<Result<(), u8>> {
    let (judge, mut rest) = match start(input) {
        Ok(begun) => begun,
        Err(number) => return Ok(Err(number)),
    };
    for i in 0u64.. {
        if rest.is_empty() {
            break;
        }
        let (block, after) = match next(rest) {
            Ok(cut) => cut,
            Err(number) => return Ok(Err(number)),
        };
        rest = after;
        let Some((name, length, values)) = lean::run(block) else {
            return Ok(Err(read::run(block).err().map_or(2, |no| no.number)));
        };
        match judge.validate_wide(name.as_bytes(), length, &values) {
            Some(Ok(n)) => writeln!(out, "{i} 0 {n} {}", lengths::fill(n as u64, length))?,
            Some(Err(no)) => writeln!(out, "{i} {} {} 0", no.number, no.value)?,
            None => writeln!(out, "{i} 20 0 0")?,
        }
    }
    Ok(Ok(()))
}

fn start(input: &[u8]) -> Result<(Judge, &[u8]), u8> {
    let (set, rest) = next(input)?;
    let set = read::set(set).map_err(|no| no.number)?;
    let built = rust::build(&set, set.len()).map_err(|no| no.0)?;
    Ok((Judge::new(&built), rest))
}

/// A set and so many runs, to standard output: of the worked example, or of a
/// set whose layout has some 48 KB, its types in turn as far as they have a
/// count.
pub fn inputs(what: &str, many: u64) -> Result<(), String> {
    let (set, asked) = match what {
        "trip" => (trip::set(), trip::runs()),
        "large" => large(),
        _ => return Err("trip or large".to_string()),
    };
    let mut bytes = write::set(&set);
    let blocks: Vec<Vec<u8>> = asked.iter().map(write::run).collect();
    for block in blocks.iter().cycle().take(many as usize) {
        bytes.extend(block);
    }
    let done = std::io::stdout().write_all(&bytes);
    done.map_err(|e| e.to_string())
}

fn large() -> (Set, Vec<Run>) {
    let r = &mut Rng::new(48, 0);
    let mut set = Set::new();
    let mut layout = Layout::new();
    for i in 0..10_000 {
        set.push(sets::another(r, &set, &format!("T{i}"), false));
        match built(&set) {
            Some((trees, length)) if length <= 48 << 10 => {
                layout = trees;
                if length > 47 << 10 {
                    break;
                }
            }
            _ => drop(set.pop()),
        }
    }
    let asked = layout.iter().map(|t| {
        let own = runs::names(&vec![t.clone()]);
        let values = own
            .iter()
            .map(|(name, tags)| (name.clone(), tags.first().copied().unwrap_or(2)));
        Run {
            name: t.name.clone(),
            length: 1 << 16,
            values: values.collect(),
        }
    });
    // The Rust does not end where 27 is given, and has no 26.
    let good =
        |run: &Run| eval::required(&layout, run.name.as_bytes(), run.length, &run.values).is_ok();
    let asked = asked.filter(good).collect();
    (set, asked)
}

fn built(set: &Set) -> Option<(Layout, usize)> {
    let trees = build::build_set(set).ok()?;
    let bytes = write::layout(&trees);
    let same = rust::build(set, set.len()).is_ok_and(|t| t == trees);
    let good = same
        && write::set(set).len() <= LIMIT
        && bytes.len() <= LIMIT
        && read::layout(&bytes).is_ok();
    good.then_some((trees, bytes.len()))
}
