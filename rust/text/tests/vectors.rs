//! The law of the round trip on the stored list of the judge (judge/vectors, made by `judge/run
//! vectors` and answered by the rules and the unchanged Rust): for every accepted block b,
//! blocks(show(b)) = b, and show gives the one form of its text. What is refused is refused here
//! with the number and offset that the proved reader gives.

mod common;

use ciztarmo::{Refusal, Work};
use ciztarmo_text::commands;
use ciztarmo_text::decode::decode;
use ciztarmo_text::encode::encode;
use common::{blocks, cut, read, show};
use std::collections::BTreeSet;

/// One record's blocks, by the calls that they were made for.
#[derive(Default)]
struct Blocks {
    sets: Vec<Vec<u8>>,
    layouts: Vec<Vec<u8>>,
    values: Vec<Vec<u8>>,
    runs: Vec<Vec<u8>>,
    inputs: Vec<Vec<u8>>,
}

/// Takes bytes off the front.
fn take<'a>(rest: &mut &'a [u8], count: usize) -> &'a [u8] {
    let (front, behind) = rest.split_at(count);
    *rest = behind;
    front
}

fn part(rest: &mut &[u8]) -> Vec<u8> {
    let length = u32::from_le_bytes(take(rest, 4).try_into().unwrap());
    take(rest, length as usize).to_vec()
}

/// The stored list, in the form that judge/vectors/README.md describes.
fn stored() -> Blocks {
    let file = read("judge/vectors/answers.bin");
    let mut rest = &file[..];
    let mut all = Blocks::default();
    while !rest.is_empty() {
        let kind = take(&mut rest, 2)[0];
        let record = part(&mut rest);
        let mut record = &record[..];
        match kind {
            1 => {
                take(&mut record, 8);
                all.sets.push(part(&mut record));
                take(&mut record, 15);
                all.layouts.push(part(&mut record));
            }
            2 => {
                take(&mut record, 12);
                all.layouts.push(part(&mut record));
                part(&mut record);
                all.values.push(part(&mut record));
            }
            3 => all.inputs.push(part(&mut record)),
            4 => {
                take(&mut record, 4);
                all.layouts.push(part(&mut record));
                all.runs.push(part(&mut record));
            }
            other => panic!("a record of kind {other}"),
        }
    }
    // A refused build has no layout.
    all.layouts.retain(|layout| !layout.is_empty());
    all
}

/// What was met in a list: accepted blocks, refused blocks, and of these the ones whose message was
/// compared.
#[derive(Debug, Default, PartialEq)]
struct Met {
    accepted: usize,
    refused: usize,
    compared: usize,
}

/// Of each accepted block the law is asked. What is said of a refused one begins with where and
/// with which number.
fn law(list: &[Vec<u8>], reader: fn(&mut Work, &[u8]) -> Result<(), Refusal>, wanted: u16) -> Met {
    let mut work = Work::new();
    let mut met = Met::default();
    for block in list {
        match reader(&mut work, block) {
            Ok(()) => {
                met.accepted += 1;
                round_trip(block);
            }
            Err(refusal) => {
                met.refused += 1;
                met.compared += usize::from(told(block, &refusal, wanted));
            }
        }
    }
    met
}

fn round_trip(block: &[u8]) {
    let text = show(block);
    assert_eq!(blocks(&text), block, "{text}");
    // The text is its own one form, whatever stands around its words.
    assert_eq!(show(&blocks(&dressed(&text))), text);
}

/// The same text with comments, empty lines, more spaces and other line ends.
fn dressed(text: &str) -> String {
    let dress = |line: &str| match line.contains('"') {
        true => format!("{line}  # \"\r\n\r\n"),
        false => {
            let words = line.trim_start();
            let indent = &line[..line.len() - words.len()];
            format!("# \n{indent}{}#\r\n", words.replace(' ', "   "))
        }
    };
    let mut out: String = text.lines().map(dress).collect();
    out.truncate(out.len() - 2);
    out
}

/// Whether the message could be compared: a block of another kind is asked of another reader, and
/// a block with bytes behind it is two.
fn told(block: &[u8], refusal: &Refusal, wanted: u16) -> bool {
    let message = match commands::show("b", block, false) {
        Err(message) => message,
        Ok(_) => panic!("shown, though it is refused with {refusal}"),
    };
    let kind = block.get(4..6).map(|k| u16::from_le_bytes([k[0], k[1]]));
    if kind != Some(wanted) || cut(block).map(|pieces| pieces.len()) != Some(1) {
        return false;
    }
    let (offset, number) = (refusal.offset(), refusal.number().code());
    let start = format!("b: byte {offset}: refused {number}: ");
    assert!(message.starts_with(&start), "{message}, not {start}");
    true
}

fn met(accepted: usize, refused: usize, compared: usize) -> Met {
    Met {
        accepted,
        refused,
        compared,
    }
}

#[test]
fn sets() {
    let counted = law(&stored().sets, |w, b| w.read_set(b), 36);
    assert_eq!(counted, met(1699, 551, 490));
}

#[test]
fn layouts() {
    let counted = law(&stored().layouts, |w, b| w.read_layout(b), 160);
    assert_eq!(counted, met(3801, 577, 507));
}

#[test]
fn values() {
    let counted = law(&stored().values, |w, b| w.read_values(b), 192);
    assert_eq!(counted, met(1621, 406, 338));
}

#[test]
fn runs() {
    let counted = law(&stored().runs, |w, b| w.read_run(b), 193);
    assert_eq!(counted, met(1489, 388, 348));
}

/// The inputs of `lengths`: a set and runs in one file.
#[test]
fn inputs_of_lengths() {
    let mut work = Work::new();
    let mut accepted = 0;
    let mut runs = 0;
    for input in stored().inputs {
        let Some(pieces) = cut(&input) else { continue };
        let Some((set, behind)) = pieces.split_first() else {
            continue;
        };
        let read = behind.iter().all(|run| work.read_run(run).is_ok());
        if work.read_set(set).is_ok() && read {
            round_trip(&input);
            accepted += 1;
            runs += behind.len();
        }
    }
    assert_eq!((accepted, runs), (216, 159));
}

/// The accepted blocks hold every kind of block that there is.
#[test]
fn every_kind_is_met() {
    let all = stored();
    let mut work = Work::new();
    let mut kinds = BTreeSet::new();
    let mut meet = |block: &[u8]| {
        let values = decode(block).unwrap();
        kinds.extend(encode(&values).unwrap().marks.iter().map(|m| m.kind));
    };
    for block in all.sets.iter().filter(|b| work.read_set(b).is_ok()) {
        meet(block);
    }
    let mut work = Work::new();
    for block in all.layouts.iter().filter(|b| work.read_layout(b).is_ok()) {
        meet(block);
    }
    let mut work = Work::new();
    for block in all.runs.iter().filter(|b| work.read_run(b).is_ok()) {
        meet(block);
    }
    let every = (1..=7).chain(32..=37).chain(64..=91).chain(128..=144);
    let every: BTreeSet<u16> = every.chain(160..=164).chain(192..=193).collect();
    assert_eq!(kinds, every);
}
