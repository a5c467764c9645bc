//! The program `lengths`: a type set and then runs, to lines.

use super::{build, eval, read};
use crate::data::*;
use std::cmp::Ordering;

enum Cut<'a> {
    Block(&'a [u8], &'a [u8]),
    End,
    No(u8),
}

/// The next block of the input, as long as its length field says.
fn next(input: &[u8]) -> Cut<'_> {
    if input.is_empty() {
        return Cut::End;
    }
    if input.len() < 4 {
        return Cut::No(2);
    }
    let length = u32::from_le_bytes(input[..4].try_into().unwrap()) as usize;
    if length + 4 > LIMIT {
        return Cut::No(1);
    }
    if length + 4 > input.len() {
        return Cut::No(2);
    }
    let (block, rest) = input.split_at(length + 4);
    Cut::Block(block, rest)
}

/// The set and the runs, if every block is whole and of a size to be read.
pub fn blocks(input: &[u8]) -> Option<(&[u8], Vec<&[u8]>)> {
    let Cut::Block(set, mut rest) = next(input) else {
        return None;
    };
    let mut runs = Vec::new();
    loop {
        match next(rest) {
            Cut::Block(run, after) => {
                runs.push(run);
                rest = after;
            }
            Cut::End => return Some((set, runs)),
            Cut::No(_) => return None,
        }
    }
}

pub fn lengths(input: &[u8]) -> String {
    let mut out = String::new();
    if let Err(number) = lines(input, &mut out) {
        out += &format!("S {number}\n");
    }
    out
}

fn lines(input: &[u8], out: &mut String) -> Result<(), u8> {
    let (set, mut rest) = match next(input) {
        Cut::Block(set, rest) => (set, rest),
        Cut::End => return Err(2),
        Cut::No(number) => return Err(number),
    };
    let layout = build::build(set, WORDS, LIMIT as u64).map_err(|no| no.number)?;
    let trees = read::layout(&layout).map_err(|no| no.number)?;
    for i in 0.. {
        let run = match next(rest) {
            Cut::Block(run, after) => {
                rest = after;
                run
            }
            Cut::End => return Ok(()),
            Cut::No(number) => return Err(number),
        };
        let run = read::run(run).map_err(|no| no.number)?;
        *out += &line(i, &trees, &run);
    }
    Ok(())
}

fn line(i: usize, trees: &Layout, run: &Run) -> String {
    match eval::required(trees, run.name.as_bytes(), run.length, &run.values) {
        Ok(count) => format!("{i} 0 {count} {}\n", fill(count, run.length)),
        Err(no) => format!("{i} {} {} 0\n", no.number, no.value),
    }
}

/// 100 × count / length to the nearest whole number, an exact half to the even neighbour.
pub fn fill(count: u64, length: u64) -> u64 {
    if length == 0 {
        return 0;
    }
    let (hundred, length) = (100 * count as u128, length as u128);
    let (whole, rest) = (hundred / length, hundred % length);
    let up = match (2 * rest).cmp(&length) {
        Ordering::Less => 0,
        Ordering::Equal => whole % 2,
        Ordering::Greater => 1,
    };
    (whole + up) as u64
}
