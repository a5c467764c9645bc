//! Records of the stored list's form on standard output: the comparison at
//! scale for a program that replays the list. Each call is held against the
//! unchanged Rust before its record is written.

use crate::call::{judge, Answer, Call};
use crate::cases::{make, set_call};
use crate::compare::{asks_index, Met, INDEXED};
use crate::vectors::record;
use std::collections::hash_map::DefaultHasher;
use std::collections::{BTreeMap, HashSet};
use std::fs::File;
use std::hash::{Hash, Hasher};
use std::io::{BufWriter, Write};
use std::os::fd::AsFd;

/// Standard output without a flush at each byte that is a line's end.
struct Records(BufWriter<File>);

fn told(e: std::io::Error) -> String {
    format!("standard output: {e}")
}

impl Records {
    fn open() -> Result<Records, String> {
        let out = std::io::stdout().as_fd().try_clone_to_owned();
        let file = File::from(out.map_err(told)?);
        Ok(Records(BufWriter::with_capacity(1 << 16, file)))
    }

    fn put(&mut self, bytes: &[u8]) -> Result<(), String> {
        self.0.write_all(bytes).map_err(told)
    }

    fn close(mut self) -> Result<(), String> {
        self.0.flush().map_err(told)
    }
}

/// Every call of the cases; on standard error how many ask so much of a list
/// that it gets an index.
pub fn all(cases: u64, seed: u64) -> Result<(), String> {
    let mut out = Records::open()?;
    let mut indexed = Met::default();
    for index in 0..cases {
        let before = indexed;
        for call in &make(seed, index).calls {
            let v = judge(call);
            if let Some(text) = &v.differs {
                return Err(format!("seed {seed} index {index}: {text}"));
            }
            if v.stopped() {
                continue;
            }
            out.put(&record(call, &v.answer, v.confirmed))?;
            if asks_index(call) {
                indexed.call(v.confirmed);
            }
        }
        indexed.case(before);
    }
    out.close()?;
    eprintln!("{}", indexed.lines(INDEXED));
    Ok(())
}

/// Builds of sets only, and what was streamed on standard error.
pub fn sets(cases: u64, seed: u64) -> Result<(), String> {
    let mut out = Records::open()?;
    let mut tally = Tally::default();
    for index in 0..cases {
        let call = set_call(seed, index);
        let v = judge(&call);
        if let Some(text) = &v.differs {
            return Err(format!("seed {seed} index {index}: {text}"));
        }
        out.put(&record(&call, &v.answer, v.confirmed))?;
        tally.add(&call, &v.answer, v.confirmed);
    }
    out.close()?;
    tally.tell();
    Ok(())
}

/// Bytes of sets, or of layouts.
#[derive(Default)]
struct Sizes {
    many: u64,
    bytes: u64,
    largest: usize,
}

impl Sizes {
    fn add(&mut self, n: usize) {
        self.many += 1;
        self.bytes += n as u64;
        self.largest = self.largest.max(n);
    }

    fn tell(&self, what: &str) {
        let mean = self.bytes as f64 / self.many.max(1) as f64;
        let Sizes {
            many,
            bytes,
            largest,
        } = self;
        eprintln!("{what}: {many}, {bytes} bytes, mean {mean:.1}, largest {largest}");
    }
}

#[derive(Default)]
struct Tally {
    sets: Sizes,
    layouts: Sizes,
    /// Sets are told apart by a hash of 64 bits.
    distinct: HashSet<u64>,
    /// All answers of a number, and those that the Rust gave too.
    numbers: BTreeMap<u8, (u64, u64)>,
}

impl Tally {
    fn add(&mut self, call: &Call, answer: &Answer, confirmed: bool) {
        let Call::Build { set, .. } = call else {
            return;
        };
        self.sets.add(set.len());
        let mut hash = DefaultHasher::new();
        set.hash(&mut hash);
        self.distinct.insert(hash.finish());
        if let Answer::Layout(layout) = answer {
            self.layouts.add(layout.len());
        }
        let counts = self.numbers.entry(answer.number()).or_default();
        counts.0 += 1;
        counts.1 += u64::from(confirmed);
    }

    fn tell(&self) {
        self.sets.tell("sets");
        self.layouts.tell("layouts");
        eprintln!("distinct sets: {}", self.distinct.len());
        eprintln!("answers by number (0: built): all, share, given by the Rust too");
        for (number, (all, confirmed)) in &self.numbers {
            let share = 100.0 * *all as f64 / self.sets.many as f64;
            eprintln!("{number:>4}{all:>10}{share:>8.3} %{confirmed:>10}");
        }
    }
}
