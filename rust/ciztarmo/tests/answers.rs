//! Every call of the stored list, through the safe functions.

mod stored;

use ciztarmo::{Refusal, Work, WORDS};
use std::cmp::Ordering;
use std::collections::BTreeMap;
use stored::{counted, records, Answer, Call, Record};

/// What a byte of a lent output holds before a call.
const BEFORE: u8 = 0xA5;

/// The answer, and for a build the output behind it.
fn answered(call: &Call) -> Option<Answer> {
    match call {
        Call::Build {
            words,
            room,
            set,
            layout,
        } => Some(built(*words, *room, set, layout)),
        Call::Validate {
            words,
            length,
            layout,
            name,
            values,
        } => {
            let count = Work::with_words(*words).validate(layout, name, values, *length);
            Some(Answer::of(count))
        }
        Call::Run { words, layout, run } => {
            let count = Work::with_words(*words).validate_run(layout, run);
            Some(Answer::of(count))
        }
        Call::Lengths => None,
    }
}

/// Builds into an output of the record's length and looks at every byte of it.
fn built(words: usize, room: usize, set: &[u8], layout: &[u8]) -> Answer {
    let mut out = vec![BEFORE; room];
    let result = Work::with_words(words).build_set_into(set, &mut out);
    left(result, &out, layout)
}

/// The answer of a build whose output is as it should be.
fn left(result: Result<usize, Refusal>, out: &[u8], layout: &[u8]) -> Answer {
    match result {
        Ok(length) => {
            assert_eq!(length, layout.len(), "the layout's length");
            assert_eq!(&out[..length], layout, "the layout's bytes");
            assert!(out[length..].iter().all(|b| *b == BEFORE), "bytes behind");
        }
        Err(_) => assert!(out.iter().all(|b| *b == 0), "a refused build's output"),
    }
    // The list has 0 as the value of an accepted build.
    Answer::of(result.map(|_| 0))
}

fn name_of(call: &Call) -> &'static str {
    match call {
        Call::Build { .. } => "build",
        Call::Validate { .. } => "validate",
        Call::Run { .. } => "run",
        Call::Lengths => "lengths",
    }
}

#[test]
fn every_record_has_its_answer() {
    let mut met: BTreeMap<(String, u8), usize> = BTreeMap::new();
    let mut all = 0;
    for record in records() {
        all += 1;
        let Some(answer) = answered(&record.call) else {
            continue;
        };
        assert_eq!(answer, record.answer, "answers.bin, byte {}", record.at);
        let key = (name_of(&record.call).to_string(), answer.number);
        *met.entry(key).or_default() += 1;
    }
    let (total, mut counts) = counted();
    counts.retain(|(call, _), _| call != "lengths");
    assert_eq!((all, met), (total, counts), "the counts of counts.txt");
}

/// The same by the calls that have working words of their own, where the record has enough.
#[test]
fn no_words_are_lent() {
    let mut met: BTreeMap<&str, usize> = BTreeMap::new();
    for record in records() {
        let answer = match &record.call {
            Call::Build { words, .. } | Call::Validate { words, .. } | Call::Run { words, .. }
                if *words < WORDS =>
            {
                continue
            }
            Call::Build {
                room, set, layout, ..
            } => {
                let mut out = vec![BEFORE; *room];
                left(ciztarmo::build_set_into(set, &mut out), &out, layout)
            }
            Call::Validate {
                length,
                layout,
                name,
                values,
                ..
            } => Answer::of(ciztarmo::validate(layout, name, values, *length)),
            Call::Run { layout, run, .. } => Answer::of(ciztarmo::validate_run(layout, run)),
            Call::Lengths => continue,
        };
        assert_eq!(answer, record.answer, "answers.bin, byte {}", record.at);
        *met.entry(name_of(&record.call)).or_default() += 1;
    }
    // All records but those that are refused with 19.
    let expected = [
        ("build", 2250 - 110),
        ("run", 1877 - 110),
        ("validate", 2027 - 110),
    ];
    assert_eq!(met, BTreeMap::from(expected));
}

/// The list is neither cut nor empty: so many records of each call stand in it.
#[test]
fn the_list_is_whole() {
    let mut met: BTreeMap<&str, usize> = BTreeMap::new();
    for record in records() {
        *met.entry(name_of(&record.call)).or_default() += 1;
    }
    let expected = [
        ("build", 2250),
        ("lengths", 321),
        ("run", 1877),
        ("validate", 2027),
    ];
    assert_eq!(met, BTreeMap::from(expected));
}

/// Where `build_set` takes an output of its own, 65,536 bytes, it gives the same layout.
#[test]
fn an_output_of_its_own() {
    let mut work = Work::new();
    let mut accepted = 0;
    for record in records() {
        let Call::Build { set, layout, .. } = &record.call else {
            continue;
        };
        if record.answer.number == 0 {
            assert_eq!(work.build_set(set).as_ref(), Ok(layout), "{}", record.at);
            accepted += 1;
        }
    }
    assert_eq!(accepted, 474);
}

/// Where a run may stand among others, by its length and its length field.
#[derive(PartialEq)]
enum Stands {
    Anywhere,
    /// It is cut off.
    Last,
    /// It is empty, or bytes follow its block.
    Nowhere,
}

fn stands(run: &[u8]) -> Stands {
    let whole = match run.get(..4) {
        Some(field) => 4 + u32::from_le_bytes(field.try_into().expect("four bytes")) as usize,
        None => 4,
    };
    match run.len().cmp(&whole) {
        Ordering::Equal => Stands::Anywhere,
        Ordering::Less if !run.is_empty() => Stands::Last,
        _ => Stands::Nowhere,
    }
}

/// Runs with the same words and layout, joined: in one call each has the answer of its record.
#[test]
fn runs_in_one_call() {
    let mut groups: BTreeMap<_, Vec<_>> = BTreeMap::new();
    for record in records() {
        if let Call::Run { words, layout, run } = record.call {
            let group = groups.entry((words, layout)).or_default();
            group.push((run, record.answer));
        }
    }
    let (mut several, mut alone, mut last, mut left_out) = (0, 0, 0, 0);
    for ((words, layout), runs) in groups {
        let that = |place| runs.iter().filter(move |(run, _)| stands(run) == place);
        let joined: Vec<_> = that(Stands::Anywhere).collect();
        ask_together(words, &layout, &joined);
        for cut in that(Stands::Last) {
            ask_together(words, &layout, &[&joined[..], &[cut]].concat());
            last += 1;
        }
        match joined.len() {
            1 => alone += 1,
            many => several += many,
        }
        left_out += that(Stands::Nowhere).count();
    }
    // All 1,877 records; those left out have bytes behind their block.
    assert_eq!((several, alone, last, left_out), (1150, 691, 17, 19));
}

fn ask_together(words: usize, layout: &[u8], runs: &[&(Vec<u8>, Answer)]) {
    let bytes: Vec<u8> = runs.iter().flat_map(|(run, _)| run).copied().collect();
    let answers = Work::with_words(words).validate_runs(layout, &bytes);
    let answers: Vec<Answer> = answers.into_iter().map(Answer::of).collect();
    let expected: Vec<Answer> = runs.iter().map(|(_, answer)| *answer).collect();
    assert_eq!(answers, expected);
}

/// Reading alone refuses exactly where the whole call refuses an input, with the same answer.
#[test]
fn reading_alone() {
    let (mut accepted, mut refused) = (0, 0);
    for record in records() {
        let Some(read) = read(&record.call) else {
            continue;
        };
        let expected = expected_reading(&record);
        assert_eq!(Answer::of(read.map(|()| 0)), expected, "{}", record.at);
        match read {
            Ok(()) => accepted += 1,
            Err(_) => refused += 1,
        }
    }
    // All records but the 321 of `lengths`; refused are those with 1 to 6 and 19.
    assert_eq!((accepted, refused), (4068, 2086));
}

/// Reads the inputs of a call: 19, then 1 for each, then one behind the other.
fn read(call: &Call) -> Option<Result<(), Refusal>> {
    let mut work;
    match call {
        Call::Build { words, set, .. } => {
            work = Work::with_words(*words);
            Some(work.read_set(set))
        }
        Call::Validate {
            words,
            layout,
            values,
            ..
        } => {
            work = Work::with_words(*words);
            let first = work.read_layout(layout);
            let second = work.read_values(values);
            Some(first_no(first, second))
        }
        Call::Run { words, layout, run } => {
            work = Work::with_words(*words);
            let first = work.read_layout(layout);
            let second = work.read_run(run);
            Some(first_no(first, second))
        }
        Call::Lengths => None,
    }
}

/// Which of two readings decides: 1 is asked of both inputs before either is read.
fn first_no(first: Result<(), Refusal>, second: Result<(), Refusal>) -> Result<(), Refusal> {
    match (first, second) {
        (Err(_), Err(no)) if no.number().code() == 1 => second,
        (Err(_), _) => first,
        (Ok(()), _) => second,
    }
}

fn expected_reading(record: &Record) -> Answer {
    match record.answer.of_reading() {
        true => record.answer,
        false => Answer::of(Ok(0)),
    }
}
