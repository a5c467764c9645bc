//! One call with its inputs, and how the two answers are held together.

use crate::data::*;
use crate::rules::eval::{Ask, STOPPED};
use crate::rules::{build, eval, lengths, read};
use crate::{rust, write};

#[derive(Debug, Clone, PartialEq)]
pub enum Call {
    Build {
        words: u64,
        room: u64,
        set: Vec<u8>,
    },
    Validate {
        words: u64,
        length: u64,
        layout: Vec<u8>,
        name: Vec<u8>,
        values: Vec<u8>,
    },
    /// The same with name, length and values in one block 193.
    Run {
        words: u64,
        layout: Vec<u8>,
        run: Vec<u8>,
    },
    Lengths(Vec<u8>),
}

#[derive(Debug, Clone, PartialEq)]
pub enum Answer {
    Layout(Vec<u8>),
    Count(u64),
    Lines(String),
    No(No),
}

impl Answer {
    pub fn number(&self) -> u8 {
        match self {
            Answer::No(no) => no.number,
            _ => 0,
        }
    }
}

/// The rules' answer; whether the unchanged Rust gave the same; and in what
/// the two differ where they should not.
pub struct Verdict {
    pub answer: Answer,
    pub confirmed: bool,
    pub differs: Option<String>,
}

impl Verdict {
    fn rules_only(answer: Answer) -> Verdict {
        Verdict {
            answer,
            confirmed: false,
            differs: None,
        }
    }

    fn held(answer: Answer, theirs: String, same: bool) -> Verdict {
        let differs = (!same).then(|| format!("rules {answer:?}, Rust {theirs}"));
        Verdict {
            answer,
            confirmed: same,
            differs,
        }
    }

    /// An evaluation that the judge itself ended: not compared.
    pub fn stopped(&self) -> bool {
        self.answer.number() == STOPPED
    }
}

pub fn judge(call: &Call) -> Verdict {
    match call {
        Call::Build { words, room, set } => judge_build(*words, *room, set),
        Call::Validate {
            words,
            length,
            layout,
            name,
            values,
        } => judge_validate(&Ask {
            words: *words,
            layout,
            name,
            length: *length,
            values,
        }),
        Call::Run { words, layout, run } => judge_run(*words, layout, run),
        Call::Lengths(input) => judge_lengths(input),
    }
}

/// Confirmed if the Rust confirms the build and every line.
fn judge_lengths(input: &[u8]) -> Verdict {
    let answer = Answer::Lines(lengths::lengths(input));
    let Some((set, runs)) = lengths::blocks(input) else {
        return Verdict::rules_only(answer);
    };
    let built = judge_build(WORDS, LIMIT as u64, set);
    let mut confirmed = built.confirmed;
    if let Answer::Layout(layout) = &built.answer {
        for bytes in runs {
            let Ok(run) = read::run(bytes) else {
                return Verdict::rules_only(answer);
            };
            confirmed &= judge_validate(&Ask {
                words: WORDS,
                layout,
                name: run.name.as_bytes(),
                length: run.length,
                values: &write::values(&run.values),
            })
            .confirmed;
        }
    }
    Verdict {
        answer,
        confirmed,
        differs: None,
    }
}

fn judge_build(words: u64, room: u64, set: &[u8]) -> Verdict {
    let types = match build::types(set, words) {
        Ok(types) => types,
        Err(no) => return Verdict::rules_only(Answer::No(no)),
    };
    let no = match build::written(&types, room) {
        Ok(bytes) => return judge_layout(&types, bytes),
        Err(no) => no,
    };
    let answer = Answer::No(no);
    match no.number {
        16 | 17 => judge_before(answer, &types, no.place as usize),
        18 => judge_unfit(answer, &types),
        _ => {
            let theirs = rust::build(&types, usize::MAX);
            let same = matches!(theirs, Err(e) if e == (no.number, no.place));
            Verdict::held(answer, format!("{:?}", theirs.err()), same)
        }
    }
}

fn judge_layout(types: &Set, bytes: Vec<u8>) -> Verdict {
    let theirs = rust::build(types, usize::MAX);
    let (same, text) = match &theirs {
        Ok(trees) => (write::layout(trees) == bytes, "another layout".to_string()),
        Err(e) => (false, format!("{e:?}")),
    };
    Verdict::held(Answer::Layout(bytes), text, same)
}

/// An added refusal inside a type: the types before it must have built.
fn judge_before(answer: Answer, types: &Set, place: usize) -> Verdict {
    let theirs = rust::build(types, place);
    let mut v = Verdict::rules_only(answer);
    v.differs = theirs
        .err()
        .map(|e| format!("the Rust refuses before: {e:?}"));
    v
}

/// 18: every type must have built, to the same trees.
fn judge_unfit(answer: Answer, types: &Set) -> Verdict {
    let same = rust::build(types, usize::MAX).ok() == build::build_set(types).ok();
    let mut v = Verdict::rules_only(answer);
    v.differs = (!same).then(|| "18, but the trees differ".to_string());
    v
}

fn judge_validate(ask: &Ask) -> Verdict {
    let ours = eval::validate(ask);
    if rules_alone(&ours) {
        return Verdict::rules_only(answer_of(ours));
    }
    let values = read::values(ask.values).unwrap();
    judge_count(ours, ask.layout, ask.name, ask.length, &values)
}

fn judge_run(words: u64, layout: &[u8], run: &[u8]) -> Verdict {
    let ours = eval::validate_run(words, layout, run);
    if rules_alone(&ours) {
        return Verdict::rules_only(answer_of(ours));
    }
    let run = read::run(run).unwrap();
    judge_count(ours, layout, run.name.as_bytes(), run.length, &run.values)
}

fn rules_alone(ours: &Result<u64, No>) -> bool {
    ours.is_err_and(|no| no.added() || no.number == STOPPED)
}

fn answer_of(ours: Result<u64, No>) -> Answer {
    match ours {
        Ok(count) => Answer::Count(count),
        Err(no) => Answer::No(no),
    }
}

/// The rules' answer on inputs that are read, beside the Rust's.
fn judge_count(
    ours: Result<u64, No>,
    layout: &[u8],
    name: &[u8],
    length: u64,
    values: &Values,
) -> Verdict {
    let answer = answer_of(ours);
    let layout = read::layout(layout).unwrap();
    let Some(theirs) = rust::Judge::new(&layout).validate(name, length, values) else {
        // 20 for the asked name is added; the Rust is handed a type.
        let mut v = Verdict::rules_only(answer);
        v.differs = (v.answer.number() != 20).then(|| "the asked type is not there".to_string());
        return v;
    };
    let same = match (&ours, &theirs) {
        (Ok(a), Ok(b)) => *a as u128 == *b,
        (Err(a), Err(b)) => same_no(a, b),
        _ => false,
    };
    Verdict::held(answer, format!("{theirs:?}"), same)
}

fn same_no(ours: &No, theirs: &rust::RunNo) -> bool {
    let place = theirs.place.is_none_or(|p| p == ours.place);
    ours.number == theirs.number && place && ours.value as u128 == theirs.value
}
