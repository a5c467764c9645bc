//! The stored list: made here, and read again by the check.

use crate::call::{judge, Answer, Call};
use crate::cases::{make, small_case};
use crate::compare::{asks_index, beyond_ascii, call_name, kinds_met};
use crate::data::*;
use crate::rules::build;
use crate::{fills, findings, long_lists, names, trip, write};
use std::collections::BTreeMap;
use std::path::Path;

pub const SEED: u64 = 2026;
const FILE: &str = "answers.bin";
const COUNTS: &str = "counts.txt";
/// Room for the whole list, and for one record that is not hand-picked: small
/// ones first, then larger ones of what is still wanted.
const MOST_BYTES: usize = 2_100_000;
const SMALL: usize = 400;
const LARGER: usize = 900;
const ALWAYS: usize = usize::MAX;
/// How many records each answer and each kind should have at least.
const PER_NUMBER: u64 = 110;
const PER_KIND: u64 = 50;
const PER_SPELLING: u64 = 30;
const CASES: u64 = 60_000;

struct List {
    bytes: Vec<u8>,
    records: u64,
    met: BTreeMap<String, u64>,
}

/// Everything that a record is an example of, with how many are wanted.
fn features(call: &Call, answer: &Answer, confirmed: bool) -> Vec<(String, u64)> {
    let name = call_name(call);
    let mark = if confirmed {
        "confirmed by the Rust"
    } else {
        "rules only"
    };
    let mut out = vec![(
        format!("{name} answer {:>3} {mark}", answer.number()),
        PER_NUMBER,
    )];
    for kind in kinds_met(call, answer) {
        out.push((format!("kind {kind:>3}"), PER_KIND));
        out.push((
            format!("kind {kind:>3} in {name} accepted {}", answer.number() == 0),
            PER_KIND / 4,
        ));
    }
    if beyond_ascii(call) {
        out.push((
            format!("beyond ASCII {name} answer {:>3}", answer.number()),
            PER_SPELLING,
        ));
    }
    // Told, but not looked for: those that are picked are enough.
    if asks_index(call) {
        out.push((format!("long list {name} answer {:>3}", answer.number()), 0));
    }
    if let Answer::Lines(lines) = answer {
        let refused = lines.lines().find(|l| l.starts_with('S'));
        out.push((
            format!("lengths {}", refused.unwrap_or("without S")),
            PER_NUMBER / 8,
        ));
    }
    out
}

impl List {
    /// Takes the call if something in it is still wanted and the record has
    /// room in `most` bytes.
    fn offer(&mut self, call: &Call, most: usize) -> Result<(), String> {
        let v = judge(call);
        if let Some(text) = &v.differs {
            return Err(format!("the rules and the Rust differ: {text}"));
        }
        if v.stopped() {
            return Ok(());
        }
        let record = record(call, &v.answer, v.confirmed);
        let features = features(call, &v.answer, v.confirmed);
        let count = |f: &String| self.met.get(f).copied().unwrap_or(0);
        let wanted = features.iter().any(|(f, many)| count(f) < *many);
        // A large record only while there is none of its answer.
        let small = record.len() <= most || (count(&features[0].0) == 0 && record.len() < 140_000);
        let room = self.bytes.len() + record.len() <= MOST_BYTES;
        if most != ALWAYS && !(wanted && small && room) {
            return Ok(());
        }
        for (f, _) in features {
            *self.met.entry(f).or_default() += 1;
        }
        self.bytes.extend(record);
        self.records += 1;
        Ok(())
    }
}

fn part(out: &mut Vec<u8>, bytes: &[u8]) {
    out.extend((bytes.len() as u32).to_le_bytes());
    out.extend(bytes);
}

fn answer_part(out: &mut Vec<u8>, answer: &Answer) {
    let no = match answer {
        Answer::No(no) => *no,
        // What is accepted has no place and no offset; its value is the count.
        Answer::Count(count) => No {
            value: *count,
            ..No::plain(0)
        },
        Answer::Layout(_) | Answer::Lines(_) => No::plain(0),
    };
    out.push(no.number);
    out.extend(no.place.to_le_bytes());
    out.extend(no.offset.to_le_bytes());
    out.extend(no.value.to_le_bytes());
}

pub fn record(call: &Call, answer: &Answer, confirmed: bool) -> Vec<u8> {
    let mut body = Vec::new();
    let kind = match call {
        Call::Build { words, room, set } => {
            body.extend((*words as u32).to_le_bytes());
            body.extend((*room as u32).to_le_bytes());
            part(&mut body, set);
            answer_part(&mut body, answer);
            part(
                &mut body,
                if let Answer::Layout(b) = answer {
                    b
                } else {
                    &[]
                },
            );
            1
        }
        Call::Validate {
            words,
            length,
            layout,
            name,
            values,
        } => {
            body.extend((*words as u32).to_le_bytes());
            body.extend(length.to_le_bytes());
            part(&mut body, layout);
            part(&mut body, name);
            part(&mut body, values);
            answer_part(&mut body, answer);
            2
        }
        Call::Run { words, layout, run } => {
            body.extend((*words as u32).to_le_bytes());
            part(&mut body, layout);
            part(&mut body, run);
            answer_part(&mut body, answer);
            4
        }
        Call::Lengths(input) => {
            part(&mut body, input);
            part(&mut body, lines_of(answer).as_bytes());
            3
        }
    };
    let mut out = vec![kind, confirmed as u8];
    part(&mut out, &body);
    out
}

pub fn lines_of(answer: &Answer) -> &str {
    match answer {
        Answer::Lines(lines) => lines,
        _ => "",
    }
}

pub fn write_list(folder: &str) -> Result<(), String> {
    let mut list = List {
        bytes: Vec::new(),
        records: 0,
        met: BTreeMap::new(),
    };
    for call in picked() {
        list.offer(&call, ALWAYS)?;
    }
    for index in 0..2 * CASES {
        let most = if index < CASES { SMALL } else { LARGER };
        for call in &small_case(SEED, index).calls {
            list.offer(call, most)?;
        }
        for call in &make(SEED, index).calls {
            list.offer(call, most)?;
        }
    }
    let folder = Path::new(folder);
    save(folder, FILE, &list.bytes)?;
    save(folder, COUNTS, counts(&list).as_bytes())?;
    println!("{} records, {} bytes", list.records, list.bytes.len());
    Ok(())
}

fn save(folder: &Path, name: &str, bytes: &[u8]) -> Result<(), String> {
    let path = folder.join(name);
    std::fs::write(&path, bytes).map_err(|e| format!("{}: {e}", path.display()))
}

fn counts(list: &List) -> String {
    let mut out = format!("{} records, {} bytes\n", list.records, list.bytes.len());
    for (feature, n) in &list.met {
        if !feature.contains(" in ") {
            out += &format!("{n:>6}  {feature}\n");
        }
    }
    out
}

/// The worked example, the inputs of docs/DIFFERENCES.md, names beyond ASCII,
/// long lists, and limits that a random case seldom meets.
fn picked() -> Vec<Call> {
    let set = write::set(&trip::set());
    let mut out = vec![build_call(WORDS, LIMIT as u64, &set)];
    out.push(Call::Lengths(trip::input()));
    out.push(Call::Lengths(fills::table_input()));
    out.extend(trip_runs(&set));
    for f in findings::all() {
        out.extend(f.calls());
    }
    out.extend(names::calls());
    out.extend(long_lists::calls());
    for (words, room) in [
        (8191, 65_536),
        (0, 0),
        (8192, 218),
        (8192, 217),
        (8192, 0),
        (8193, 219),
    ] {
        out.push(build_call(words, room, &set));
    }
    out.push(build_call(WORDS, LIMIT as u64, &vec![0; LIMIT + 1]));
    out.push(Call::Lengths(Vec::new()));
    for n in 1..4 {
        out.push(Call::Lengths(vec![0; n]));
    }
    // 65,533 in the length field makes 65,537 bytes in all; 65,532 is cut off.
    out.push(Call::Lengths(vec![0xFD, 0xFF, 0, 0]));
    out.push(Call::Lengths(vec![0xFC, 0xFF, 0, 0]));
    out
}

/// The runs of the worked example, with enough words and with one less.
fn trip_runs(set: &[u8]) -> Vec<Call> {
    let layout = build::build(set, WORDS, LIMIT as u64).unwrap_or_default();
    let call = |words, run| Call::Run {
        words,
        layout: layout.clone(),
        run: write::run(run),
    };
    let runs = trip::runs();
    let short = runs.iter().map(|r| call(WORDS - 1, r));
    runs.iter().map(|r| call(WORDS, r)).chain(short).collect()
}

fn build_call(words: u64, room: u64, set: &[u8]) -> Call {
    Call::Build {
        words,
        room,
        set: set.to_vec(),
    }
}

/// Reads the list and answers every record again.
pub fn check_list(folder: &str) -> Result<(), String> {
    let path = Path::new(folder).join(FILE);
    let bytes = std::fs::read(&path).map_err(|e| format!("{}: {e}", path.display()))?;
    let mut at = 0;
    let mut records = 0;
    while at < bytes.len() {
        let call = parse(&bytes, at).ok_or(format!("{FILE}: cut off or damaged at byte {at}"))?;
        let v = judge(&call);
        let again = record(&call, &v.answer, v.confirmed);
        if !bytes[at..].starts_with(&again) || v.differs.is_some() {
            return Err(format!("record {records} at byte {at} gets another answer"));
        }
        at += again.len();
        records += 1;
    }
    println!("{records} records, all answered the same");
    Ok(())
}

struct Cursor<'a>(&'a [u8]);

impl<'a> Cursor<'a> {
    fn take(&mut self, n: usize) -> Option<&'a [u8]> {
        let (head, rest) = (self.0.get(..n)?, self.0.get(n..)?);
        self.0 = rest;
        Some(head)
    }

    fn small(&mut self) -> Option<u64> {
        Some(u32::from_le_bytes(self.take(4)?.try_into().ok()?) as u64)
    }

    fn large(&mut self) -> Option<u64> {
        Some(u64::from_le_bytes(self.take(8)?.try_into().ok()?))
    }

    fn part(&mut self) -> Option<Vec<u8>> {
        let n = self.small()?;
        Some(self.take(n as usize)?.to_vec())
    }
}

/// The call of the record at a place; its answer is made again by the caller.
fn parse(bytes: &[u8], at: usize) -> Option<Call> {
    let mut c = Cursor(&bytes[at..]);
    let kind = c.take(2)?[0];
    let length = c.small()? as usize;
    let mut c = Cursor(c.take(length)?);
    match kind {
        1 => Some(Call::Build {
            words: c.small()?,
            room: c.small()?,
            set: c.part()?,
        }),
        2 => Some(Call::Validate {
            words: c.small()?,
            length: c.large()?,
            layout: c.part()?,
            name: c.part()?,
            values: c.part()?,
        }),
        3 => Some(Call::Lengths(c.part()?)),
        4 => Some(Call::Run {
            words: c.small()?,
            layout: c.part()?,
            run: c.part()?,
        }),
        _ => None,
    }
}
