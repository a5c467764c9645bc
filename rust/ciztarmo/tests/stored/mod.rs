//! The stored list judge/vectors/answers.bin: calls with the answers of document 01's rules, held
//! against the Rust. judge/vectors/README.md says how it was made and what a record is.

use ciztarmo::Refusal;
use std::collections::BTreeMap;

/// What a record answers: number 0 if accepted.
#[derive(Clone, Copy, Debug, PartialEq, Eq)]
pub struct Answer {
    pub number: u8,
    pub place: u16,
    pub offset: u32,
    pub value: u64,
}

impl Answer {
    /// What a call through this crate answered, in the list's form.
    pub fn of(result: Result<u64, Refusal>) -> Answer {
        match result {
            Ok(value) => Answer {
                number: 0,
                place: 65_535,
                offset: 0,
                value,
            },
            Err(refusal) => Answer {
                number: refusal.number().code(),
                place: refusal.place().unwrap_or(65_535),
                offset: refusal.offset().try_into().expect("an offset in an input"),
                value: refusal.value(),
            },
        }
    }

    /// Whether an input was refused before anything was built or counted.
    #[allow(dead_code)] // not every test asks
    pub fn of_reading(&self) -> bool {
        (1..=6).contains(&self.number) || self.number == 19
    }
}

#[allow(dead_code)] // not every test asks for every part
pub enum Call {
    Build {
        words: usize,
        room: usize,
        set: Vec<u8>,
        layout: Vec<u8>,
    },
    Validate {
        words: usize,
        length: u64,
        layout: Vec<u8>,
        name: Vec<u8>,
        values: Vec<u8>,
    },
    Run {
        words: usize,
        layout: Vec<u8>,
        run: Vec<u8>,
    },
    /// A run of the program `lengths`, which is no call of this crate.
    Lengths,
}

pub struct Record {
    pub call: Call,
    pub answer: Answer,
    /// Where it stands in the file.
    pub at: usize,
}

const FOLDER: &str = concat!(env!("CARGO_MANIFEST_DIR"), "/../../judge/vectors");

/// Every record of the list, in order.
pub fn records() -> Vec<Record> {
    let path = format!("{FOLDER}/answers.bin");
    let bytes = std::fs::read(&path).unwrap_or_else(|e| panic!("{path}: {e}"));
    let mut rest = Cursor { bytes: &bytes };
    let mut out = Vec::new();
    while !rest.bytes.is_empty() {
        let at = bytes.len() - rest.bytes.len();
        let kind = rest.take(2)[0];
        let mut body = Cursor { bytes: rest.part() };
        let (call, answer) = body.record(kind);
        assert!(body.bytes.is_empty(), "{path}: byte {at}: bytes left over");
        out.push(Record { call, answer, at });
    }
    out
}

/// How many records counts.txt tells for each call and number, and how many in all.
#[allow(dead_code)] // not every test asks
pub fn counted() -> (usize, BTreeMap<(String, u8), usize>) {
    let path = format!("{FOLDER}/counts.txt");
    let text = std::fs::read_to_string(&path).unwrap_or_else(|e| panic!("{path}: {e}"));
    let total = text
        .split_whitespace()
        .next()
        .expect("the number of records");
    let mut counts = BTreeMap::new();
    for line in text.lines() {
        let words: Vec<&str> = line.split_whitespace().collect();
        if let [count, call, "answer", number, ..] = words[..] {
            let number = number.parse().expect("a number");
            let count: usize = count.parse().expect("a count");
            *counts.entry((call.to_string(), number)).or_default() += count;
        }
    }
    (total.parse().expect("the number of records"), counts)
}

struct Cursor<'a> {
    bytes: &'a [u8],
}

impl<'a> Cursor<'a> {
    fn take(&mut self, count: usize) -> &'a [u8] {
        let (head, rest) = self.bytes.split_at(count);
        self.bytes = rest;
        head
    }

    fn number(&mut self, size: usize) -> u64 {
        let bytes = self.take(size).iter().rev();
        bytes.fold(0, |n, byte| n << 8 | u64::from(*byte))
    }

    fn part(&mut self) -> &'a [u8] {
        let length = self.number(4) as usize;
        self.take(length)
    }

    fn answer(&mut self) -> Answer {
        Answer {
            number: self.number(1) as u8,
            place: self.number(2) as u16,
            offset: self.number(4) as u32,
            value: self.number(8),
        }
    }

    fn record(&mut self, kind: u8) -> (Call, Answer) {
        match kind {
            1 => self.build(),
            2 => self.validate(),
            3 => {
                self.part();
                self.part();
                (Call::Lengths, Answer::of(Ok(0)))
            }
            4 => self.run(),
            _ => panic!("answers.bin: a record of kind {kind}"),
        }
    }

    fn build(&mut self) -> (Call, Answer) {
        let (words, room) = (self.number(4) as usize, self.number(4) as usize);
        let set = self.part().to_vec();
        let answer = self.answer();
        let layout = self.part().to_vec();
        let call = Call::Build {
            words,
            room,
            set,
            layout,
        };
        (call, answer)
    }

    fn validate(&mut self) -> (Call, Answer) {
        let call = Call::Validate {
            words: self.number(4) as usize,
            length: self.number(8),
            layout: self.part().to_vec(),
            name: self.part().to_vec(),
            values: self.part().to_vec(),
        };
        (call, self.answer())
    }

    fn run(&mut self) -> (Call, Answer) {
        let call = Call::Run {
            words: self.number(4) as usize,
            layout: self.part().to_vec(),
            run: self.part().to_vec(),
        };
        (call, self.answer())
    }
}
