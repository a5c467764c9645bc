//! Too few working words, and outputs that are too short.

use ciztarmo::{Number, Refusal, Set, Type, Values, Work, LIMIT, WORDS};

fn set() -> Vec<u8> {
    let set = Set::new().with(Type::primitive("u8", 1));
    set.to_bytes().expect("the set")
}

/// Every call with so many words, each as its refusal if it has one.
fn every_call(words: usize) -> Vec<Option<Refusal>> {
    let layout = ciztarmo::build_set(&set()).expect("the layout");
    let values = Values::new();
    let run = ciztarmo::Run::new("u8", &values, 1).expect("the run");
    let mut work = Work::with_words(words);
    vec![
        work.read_set(&set()).err(),
        work.read_layout(&layout).err(),
        work.read_values(&values.to_bytes()).err(),
        work.read_run(run.as_bytes()).err(),
        work.build_set(&set()).err(),
        work.build_set_into(&set(), &mut [0; 100]).err(),
        work.validate(&layout, "u8", &values.to_bytes(), 1).err(),
        work.validate_run(&layout, run.as_bytes()).err(),
        work.validate_runs(&layout, run.as_bytes())[0].err(),
    ]
}

#[test]
fn fewer_words_give_19() {
    assert_eq!(WORDS, 8192);
    for words in [0, 1, WORDS - 1] {
        for refusal in every_call(words) {
            let refusal = refusal.expect("too few words");
            assert_eq!(refusal.number(), Number::TooFewWords);
            assert_eq!(refusal.number().code(), 19);
            let rest = (refusal.place(), refusal.offset(), refusal.value());
            assert_eq!(rest, (None, 0, 0));
        }
    }
    for words in [WORDS, WORDS + 1, 2 * WORDS] {
        assert!(every_call(words).iter().all(Option::is_none));
    }
}

#[test]
fn a_short_output_gives_18_and_zeros() {
    let layout = ciztarmo::build_set(&set()).expect("the layout");
    for short in [0, 1, layout.len() - 1] {
        let mut out = vec![0xA5; short];
        let refusal = ciztarmo::build_set_into(&set(), &mut out).expect_err("too short");
        assert_eq!(refusal.number(), Number::LayoutDoesNotFit);
        assert_eq!(refusal.number().code(), 18);
        assert!(out.iter().all(|b| *b == 0));
    }
}

#[test]
fn bytes_behind_a_layout_stay() {
    let layout = ciztarmo::build_set(&set()).expect("the layout");
    for more in [0, 1, 1000] {
        let mut out = vec![0xA5; layout.len() + more];
        let length = ciztarmo::build_set_into(&set(), &mut out).expect("the layout");
        assert_eq!(&out[..length], &layout[..]);
        assert!(out[length..].iter().all(|b| *b == 0xA5));
        assert_eq!(out.len() - length, more);
    }
}

#[test]
fn a_refused_build_zeroes_a_whole_output() {
    let mut out = vec![0xA5; LIMIT];
    let refusal = ciztarmo::build_set_into(&[0xA5; 9], &mut out).expect_err("no set");
    assert_eq!(refusal.number(), Number::BlockDoesNotFit);
    assert!(out.iter().all(|b| *b == 0));
}

#[test]
fn an_input_above_the_limit_gives_1() {
    assert_eq!(LIMIT, 65_536);
    let number = |bytes: usize| {
        let zeros = vec![0; bytes];
        let refusal = ciztarmo::read_set(&zeros).expect_err("no set");
        refusal.number()
    };
    assert_eq!(number(LIMIT), Number::BlockDoesNotFit);
    assert_eq!(number(LIMIT + 1), Number::InputTooLong);
}

/// A layout of many types: the working words and the output are large enough for it.
#[test]
fn a_large_layout() {
    let name = |i: usize| format!("{i:0>200}");
    let set: Set = (0..256)
        .map(|i| Type::primitive(name(i), i as u64))
        .collect();
    let layout = set.build().expect("the layout");
    assert!(layout.as_bytes().len() > 60_000);
    assert_eq!(layout.type_names().len(), 256);
    for i in [0, 1, 255] {
        let count = layout.length_of(&name(i), &Values::new(), 255);
        assert_eq!(count, Ok(i as u64));
    }
}
