//! The judge for a program in C: the answers that a call must give, by the
//! rules of document 01, held against the unchanged Rust by the judge's own
//! function. A panic here ends the process, which the attack tells as a crash.

// The judge is a program and no library, so its files are compiled here too.
#[allow(dead_code)]
#[path = "../../../judge/driver/src/call.rs"]
mod call;
#[allow(dead_code)]
#[path = "../../../judge/driver/src/data.rs"]
mod data;
#[allow(dead_code)]
#[path = "../../../judge/driver/src/rules/mod.rs"]
mod rules;
#[allow(dead_code)]
#[path = "../../../judge/driver/src/rust.rs"]
mod rust;
#[allow(dead_code)]
#[path = "../../../judge/driver/src/write.rs"]
mod write;

use call::{judge, Answer, Call};
use data::{No, WORDS};
use rules::read;
use std::cell::RefCell;

/// As `struct attack_call` in attack.h: `what` is one of its ATTACK_ numbers.
#[repr(C)]
pub struct AttackCall {
    what: u32,
    words: u64,
    room: u64,
    length: u64,
    first: Bytes,
    name: Bytes,
    second: Bytes,
}

#[repr(C)]
struct Bytes {
    at: *const u8,
    len: usize,
}

impl Bytes {
    fn slice(&self) -> &[u8] {
        // attack.c hands over addresses that are valid for `len` bytes.
        match self.len {
            0 => &[],
            _ => unsafe { std::slice::from_raw_parts(self.at, self.len) },
        }
    }
}

/// As `struct attack_expected` in attack.h.
#[repr(C)]
pub struct AttackExpected {
    answers: *const u64,
    many: usize,
    layout: *const u8,
    layout_len: usize,
    verdict: u32,
}

const RULES_ONLY: u32 = 0;
const CONFIRMED: u32 = 1;
const STOPPED: u32 = 2;
const DIFFERS: u32 = 3;

const READ_SET: u32 = 0;
const READ_LAYOUT: u32 = 1;
const READ_VALUES: u32 = 2;
const READ_RUN: u32 = 3;
const BUILD_SET: u32 = 4;
const VALIDATE: u32 = 5;
const VALIDATE_RUN: u32 = 6;
const VALIDATE_RUNS: u32 = 7;
const LENGTH_OF: u32 = 8;
const LENGTH_OF_RUN: u32 = 9;

/// What is expected of a call: four words for each answer, a layout where one
/// is built, and how the rules came to it.
struct Expected {
    answers: Vec<[u64; 4]>,
    layout: Vec<u8>,
    verdict: u32,
}

thread_local! {
    /// What was last expected; it stays until the next call.
    static KEPT: RefCell<Option<Expected>> = const { RefCell::new(None) };
}

/// # Safety
/// Both addresses are valid, and the call's for the lengths beside them.
#[no_mangle]
pub unsafe extern "C" fn attack_expect(call: *const AttackCall, out: *mut AttackExpected) {
    let call = &*call;
    let expected = match call.what {
        READ_SET..=READ_RUN => reading(call),
        VALIDATE_RUNS => runs(call),
        _ => judged(&as_call(call)),
    };
    KEPT.with_borrow_mut(|kept| {
        let kept = kept.insert(expected);
        *out = AttackExpected {
            answers: kept.answers.as_ptr().cast(),
            many: kept.answers.len(),
            layout: kept.layout.as_ptr(),
            layout_len: kept.layout.len(),
            verdict: kept.verdict,
        };
    });
}

fn words_of(no: &No) -> [u64; 4] {
    let (number, place) = (u64::from(no.number), u64::from(no.place));
    [number, place, u64::from(no.offset), no.value]
}

/// What is accepted has no place and no offset.
fn accepted(value: u64) -> [u64; 4] {
    [0, u64::from(data::NO_PLACE), 0, value]
}

/// The rules alone: 19, 1, and the reading.
fn reading(call: &AttackCall) -> Expected {
    let bytes = call.first.slice();
    let answer = match call.words < WORDS {
        true => Err(No::plain(19)),
        false => read::sizes(&[bytes]).and_then(|()| match call.what {
            READ_SET => read::set(bytes).map(drop),
            READ_LAYOUT => read::layout(bytes).map(drop),
            READ_VALUES => read::values(bytes).map(drop),
            _ => read::run(bytes).map(drop),
        }),
    };
    let answer = answer.map_or_else(|no| words_of(&no), |()| accepted(0));
    one(answer, RULES_ONLY, Vec::new())
}

/// The runs that stand one behind the other: each is as long as its length
/// field says, or as much of it as is there.
fn split(mut rest: &[u8]) -> Vec<&[u8]> {
    let mut runs = Vec::new();
    while !rest.is_empty() {
        let long = match rest.first_chunk() {
            Some(field) => 4 + u32::from_le_bytes(*field) as usize,
            None => rest.len(),
        };
        let (run, behind) = rest.split_at(long.min(rest.len()));
        runs.push(run);
        rest = behind;
    }
    runs
}

/// Each run alone, from the first on, as far as there is room for answers.
/// Confirmed if each answer is.
fn runs(call: &AttackCall) -> Expected {
    let room = (call.room / 4) as usize;
    let mut answers = Vec::new();
    let mut verdicts = Vec::new();
    for run in split(call.second.slice()).into_iter().take(room) {
        let alone = judged(&Call::Run {
            words: call.words,
            layout: call.first.slice().to_vec(),
            run: run.to_vec(),
        });
        answers.extend(alone.answers);
        verdicts.push(alone.verdict);
        if alone.verdict == STOPPED {
            break;
        }
    }
    Expected {
        answers,
        layout: Vec::new(),
        verdict: together(&verdicts),
    }
}

/// One that was stopped or differs decides; with no run the rules alone do.
fn together(verdicts: &[u32]) -> u32 {
    match verdicts {
        [] => RULES_ONLY,
        _ if verdicts.contains(&STOPPED) => STOPPED,
        _ if verdicts.contains(&DIFFERS) => DIFFERS,
        _ if verdicts.contains(&RULES_ONLY) => RULES_ONLY,
        _ => CONFIRMED,
    }
}

fn judged(call: &Call) -> Expected {
    let verdict = judge(call);
    let stopped = verdict.stopped();
    let code = match &verdict.differs {
        _ if stopped => STOPPED,
        Some(text) => {
            eprintln!("attack: the rules and the Rust differ: {text}");
            DIFFERS
        }
        None if verdict.confirmed => CONFIRMED,
        None => RULES_ONLY,
    };
    match verdict.answer {
        Answer::Layout(bytes) => one(accepted(bytes.len() as u64), code, bytes),
        Answer::Count(count) => one(accepted(count), code, Vec::new()),
        Answer::No(no) => one(words_of(&no), code, Vec::new()),
        Answer::Lines(_) => unreachable!("only `lengths` answers lines"),
    }
}

fn as_call(call: &AttackCall) -> Call {
    let first = call.first.slice().to_vec();
    let second = call.second.slice().to_vec();
    let words = match call.what {
        LENGTH_OF | LENGTH_OF_RUN => WORDS,
        _ => call.words,
    };
    match call.what {
        BUILD_SET => Call::Build {
            words,
            room: call.room,
            set: first,
        },
        VALIDATE | LENGTH_OF => Call::Validate {
            words,
            length: call.length,
            layout: first,
            name: call.name.slice().to_vec(),
            values: second,
        },
        VALIDATE_RUN | LENGTH_OF_RUN => Call::Run {
            words,
            layout: first,
            run: second,
        },
        other => panic!("no call has the number {other}"),
    }
}

fn one(answer: [u64; 4], verdict: u32, layout: Vec<u8>) -> Expected {
    Expected {
        answers: vec![answer],
        layout,
        verdict,
    }
}
