//! Validating: from the bytes of a layout and of values to a count.

use super::inputs::Asked;
use super::measure::{medians, medians_beside, work};
use super::ours::{archives, Answer, Archive, Lent, Words, NOW};
use super::table::{Group, Parts, Row};
use super::words::widest;
use super::{accepted, inputs, lean, refused, Head};
use crate::data::*;
use crate::rules::eval::{self, Ask};
use crate::rules::read;
use crate::{rust, write};
use abi_reflect::ir::interpreter::ParamMap;
use std::hint::black_box;

pub fn validating(
    words: Words,
    head: Head,
    sizes: [usize; 4],
    asked: fn(usize) -> Asked,
) -> Result<Group, String> {
    let mut rows = Vec::new();
    for size in sizes {
        let asked = asked(size);
        let what = label(size, head, &asked);
        rows.push(validating_row(words, what, size, &asked)?);
    }
    Ok(Group { head, rows })
}

/// Names of one length in bytes, in some spellings: what reading them takes.
pub fn spellings(head: Head, spellings: &[(&str, &str)]) -> Result<Group, String> {
    let mut rows = Vec::new();
    for (what, text) in spellings {
        let asked = inputs::with_long_names(text);
        let row = validating_row(Words::Own, what.to_string(), 512, &asked)?;
        rows.push(Row { size: None, ..row });
    }
    Ok(Group { head, rows })
}

fn label(size: usize, head: Head, asked: &Asked) -> String {
    let many = if size == 1 { "" } else { "s" };
    format!("{size} {}{many}, {} bytes", head.1, asked.layout.len())
}

/// What a validation is asked on each side, with the answer and the count that
/// the Rust gives where it accepts.
struct Question<'a> {
    asked: &'a Asked,
    values: Vec<u8>,
    judge: rust::Judge,
    place: usize,
    params: ParamMap,
    answer: Answer,
    count: Option<u128>,
}

impl<'a> Question<'a> {
    fn new(asked: &'a Asked) -> Result<Question<'a>, String> {
        let trees = read::layout(&asked.layout).map_err(|no| format!("{no:?}"))?;
        let named = |t: &Tree| t.name == asked.name;
        let mut question = Question {
            asked,
            values: write::values(&asked.values),
            judge: rust::Judge::new(&trees),
            place: trees
                .iter()
                .position(named)
                .ok_or("the type is not there")?,
            params: params(&asked.values),
            answer: accepted(0),
            count: None,
        };
        (question.answer, question.count) = question.answers()?;
        let counts = [question.alone(), question.whole(), question.lean()];
        match counts.iter().all(|count| *count == question.count) {
            true => Ok(question),
            false => Err(format!("{}: Rust {counts:?}", asked.name)),
        }
    }

    /// The rules' answer, whose number, place and count must be the Rust's.
    fn answers(&self) -> Result<(Answer, Option<u128>), String> {
        let ask = Ask {
            words: WORDS,
            layout: &self.asked.layout,
            name: self.asked.name.as_bytes(),
            length: self.asked.length,
            values: &self.values,
        };
        let judge = &self.judge;
        let theirs = judge.validate_wide(ask.name, ask.length, &self.params);
        match (eval::validate(&ask), theirs) {
            (Ok(count), Some(Ok(wide))) if u128::from(count) == wide => {
                Ok((accepted(count), Some(wide)))
            }
            (Err(no), Some(Err(their)))
                if no.number == their.number && their.place == Some(no.place) =>
            {
                Ok((refused(no), None))
            }
            (rules, theirs) => Err(format!("rules {rules:?}, Rust {theirs:?}")),
        }
    }

    fn ours(&self, archive: &Archive, words: Words) -> Answer {
        let Asked { layout, name, .. } = self.asked;
        let (layout, values) = (black_box(layout), black_box(&self.values));
        archive.count(words, layout, name.as_bytes(), values, self.asked.length)
    }

    /// The Rust, from bytes: decoding layout and values, then `validate`.
    fn whole(&self) -> Option<u128> {
        let trees = read::layout(black_box(&self.asked.layout)).ok()?;
        let values = read::values(black_box(&self.values)).ok()?;
        let judge = rust::Judge::new(&trees);
        judge.count(self.place, self.asked.length, &params(&values))
    }

    /// The same with the lean decoders.
    fn lean(&self) -> Option<u128> {
        let judge = rust::Judge::decoded(lean::layout(black_box(&self.asked.layout))?);
        let values = lean::values(black_box(&self.values))?;
        judge.count(self.place, self.asked.length, &values)
    }

    /// `validate` alone.
    fn alone(&self) -> Option<u128> {
        let judge = black_box(&self.judge);
        judge.count(self.place, self.asked.length, black_box(&self.params))
    }

    fn same(&self, words: Words) -> Result<(), String> {
        for (whose, archive) in archives() {
            let answer = self.ours(archive, words);
            if answer != self.answer {
                return Err(format!("{whose} {answer:?}, Rust {:?}", self.answer));
            }
        }
        Ok(())
    }
}

fn params(values: &Values) -> ParamMap {
    let wide = values.iter().map(|(k, n)| (k.clone(), u128::from(*n)));
    wide.collect()
}

pub fn validating_row(
    words: Words,
    what: String,
    size: usize,
    asked: &Asked,
) -> Result<Row, String> {
    let question = Question::new(asked).map_err(|e| format!("{what}: {e}"))?;
    question.same(words).map_err(|e| format!("{what}: {e}"))?;
    let question = &question;
    let (ours, before, [whole, lean, alone]) = medians_beside(
        |archive| work(move || question.ours(archive, words)),
        [
            work(|| question.whole()),
            work(|| question.lean()),
            work(|| question.alone()),
        ],
    );
    Ok(Row {
        what,
        size: Some(size),
        ours,
        before,
        whole,
        lean: Some(lean),
        checks: None,
        alone: Some(alone),
    })
}

/// Only to look at the working words, or to write zeros into them, beside the
/// Rust on one question: a call that is lent them has no better ratio.
pub fn looking(head: Head, asked: &Asked) -> Result<Group, String> {
    let question = Question::new(asked)?;
    let words = &vec![0; WORDS as usize];
    let (wide, any) = widest();
    let mut written = words.to_vec();
    let [read, write, whole, lean, alone] = medians([
        work(|| any(black_box(words))),
        work(|| black_box(&mut written).fill(0)),
        work(|| question.whole()),
        work(|| question.lean()),
        work(|| question.alone()),
    ]);
    let row = |what: String, ours| Row {
        what,
        size: None,
        ours,
        before: None,
        whole,
        lean: Some(lean),
        checks: None,
        alone: Some(alone),
    };
    let many = words.len();
    let rows = vec![
        row(format!("{many} words read, {wide}"), read),
        row(format!("{many} words written"), write),
    ];
    Ok(Group { head, rows })
}

/// A question as so many runs, one behind the other, and what the Rust is
/// asked for each.
struct Runs<'a> {
    question: Question<'a>,
    many: usize,
    bytes: Vec<u8>,
    decoded: Vec<(u64, ParamMap)>,
}

impl<'a> Runs<'a> {
    fn new(asked: &'a Asked, many: usize) -> Result<Runs<'a>, String> {
        let run = Run {
            name: asked.name.clone(),
            length: asked.length,
            values: asked.values.clone(),
        };
        Ok(Runs {
            question: Question::new(asked)?,
            many,
            bytes: write::run(&run).repeat(many),
            decoded: vec![(asked.length, params(&asked.values)); many],
        })
    }

    fn ours(&self, archive: &Archive, words: Lent, answers: &mut [Answer]) -> usize {
        let layout = black_box(&self.question.asked.layout);
        archive.validate_runs(words, layout, black_box(&self.bytes), answers)
    }

    /// The Rust, from bytes: decoding the layout once, then each run, and
    /// `validate`.
    fn whole(&self, counts: &mut [Option<u128>]) -> Option<()> {
        let trees = read::layout(black_box(&self.question.asked.layout)).ok()?;
        let judge = rust::Judge::new(&trees);
        let runs = black_box(&self.bytes).chunks(self.bytes.len() / self.many);
        for (run, count) in runs.zip(counts) {
            let run = read::run(run).ok()?;
            *count = judge.count(self.question.place, run.length, &params(&run.values));
        }
        Some(())
    }

    /// The same with the lean decoders.
    fn lean(&self, counts: &mut [Option<u128>]) -> Option<()> {
        let judge = rust::Judge::decoded(lean::layout(black_box(&self.question.asked.layout))?);
        let runs = black_box(&self.bytes).chunks(self.bytes.len() / self.many);
        for (run, count) in runs.zip(counts) {
            let (_, length, values) = lean::run(run)?;
            *count = judge.count(self.question.place, length, &values);
        }
        Some(())
    }

    /// `validate` alone, for each run.
    fn alone(&self, counts: &mut [Option<u128>]) {
        let judge = black_box(&self.question.judge);
        for ((length, params), count) in black_box(&self.decoded).iter().zip(counts) {
            *count = judge.count(self.question.place, *length, params);
        }
    }

    /// Every run has the question's answer on each side.
    fn same(&self, words: Lent) -> Result<(), String> {
        let Question { answer, count, .. } = self.question;
        for (whose, archive) in archives() {
            let mut answers = vec![[0; 4]; self.many];
            let given = self.ours(archive, words, &mut answers);
            let other = answers.iter().find(|a| **a != answer);
            if given != self.many || other.is_some() {
                return Err(format!("{whose} {given} runs, {other:?}, Rust {answer:?}"));
            }
        }
        let [mut whole, mut lean, mut alone] = [(); 3].map(|_| vec![None; self.many]);
        self.whole(&mut whole);
        self.lean(&mut lean);
        self.alone(&mut alone);
        let counts = &mut whole.iter().chain(&lean).chain(&alone);
        match counts.find(|c| **c != count) {
            None => Ok(()),
            Some(other) => Err(format!("Rust {count:?} and {other:?}")),
        }
    }
}

/// One question as several runs: times for each run.
pub fn validating_runs(
    words: Lent,
    head: Head,
    sizes: &[usize],
    asked: &Asked,
) -> Result<Group, String> {
    let mut rows = Vec::new();
    for &many in sizes {
        let what = label(many, head, asked);
        rows.push(runs_row(words, what, many, asked)?);
    }
    Ok(Group { head, rows })
}

pub fn runs_row(words: Lent, what: String, many: usize, asked: &Asked) -> Result<Row, String> {
    let runs = Runs::new(asked, many).map_err(|e| format!("{what}: {e}"))?;
    runs.same(words).map_err(|e| format!("{what}: {e}"))?;
    let runs = &runs;
    let [mut whole, mut lean, mut alone] = [(); 3].map(|_| vec![None; many]);
    let (ours, before, beside) = medians_beside(
        |archive| {
            let mut answers = vec![[0; 4]; many];
            work(move || runs.ours(archive, words, black_box(&mut answers)))
        },
        [
            work(|| runs.whole(black_box(&mut whole))),
            work(|| runs.lean(black_box(&mut lean))),
            work(|| runs.alone(black_box(&mut alone))),
        ],
    );
    let each = |ns: f64| ns / many as f64;
    let [whole, lean, alone] = beside.map(each);
    Ok(Row {
        what,
        size: None,
        ours: each(ours),
        before: before.map(each),
        whole,
        lean: Some(lean),
        checks: None,
        alone: Some(alone),
    })
}

pub fn validate_parts(words: Words, what: &str, asked: &Asked) -> Result<Parts, String> {
    let question = Question::new(asked).map_err(|e| format!("{what}: {e}"))?;
    question.same(words).map_err(|e| format!("{what}: {e}"))?;
    let trees = read::layout(&asked.layout).map_err(|no| format!("{no:?}"))?;
    let [ours, decode, convert, alone] = medians([
        work(|| question.ours(&NOW, words)),
        work(|| {
            let layout = read::layout(black_box(&asked.layout));
            (layout, read::values(black_box(&question.values)))
        }),
        work(|| {
            let judge = rust::Judge::new(black_box(&trees));
            (judge, params(black_box(&asked.values)))
        }),
        work(|| question.alone()),
    ]);
    Ok(Parts {
        what: what.to_string(),
        ours,
        decode,
        convert,
        call: alone,
        convert_back: 0.0,
        encode: 0.0,
    })
}
