//! What a refusal prints: for every number, on every refused call of the stored list.

mod stored;

use ciztarmo::{type_names, Error, Number, Refusal, Set, Type, Work};
use std::collections::BTreeMap;
use stored::{records, Answer, Call};

/// Each number's sentence; the list's place, offset and value stand for the letters.
const SENTENCES: [(u8, &str); 24] = [
    (1, "1: an input is longer than 65,536 bytes"),
    (2, "2: a block does not fit its place, at byte {o} of the input"),
    (3, "3: a name or text is longer than 255 bytes, is not UTF-8, or has a byte below 0x20 or the byte 0x7F, at byte {o} of the input"),
    (4, "4: there are more entries, or deeper blocks, than the limits allow, at byte {o} of the input"),
    (5, "5: a flag is neither 0 nor 1, or a literal is outside its type, at byte {o} of the input"),
    (6, "6: names do not ascend, or two types have one name, at byte {o} of the input"),
    (10, "10: a type of this shape can't have a variable size (type {p})"),
    (11, "11: references that the layout needs are missing (type {p})"),
    (12, "12: a path names no parameter (type {p})"),
    (13, "13: an array can't have elements of this shape (type {p})"),
    (14, "14: an expression of this kind can't stand in a layout (type {p})"),
    (15, "15: a type that is referred to is not in the set (type {p})"),
    (16, "16: a field's offset and size together reach 2^64 (type {p})"),
    (17, "17: the layout would need a name or text of more than 255 bytes, or more than 512 parameters (type {p})"),
    (18, "18: the layout does not fit the output or 65,536 bytes, or could not be read back"),
    (19, "19: there are fewer than 8,192 working words"),
    (20, "20: the asked type, or one that it calls, is not in the layout"),
    (21, "21: a parameter that the layout needs has no value (type {p}, node at byte {o} of the layout)"),
    (22, "22: no variant has the tag {v} (type {p}, node at byte {o} of the layout)"),
    (23, "23: a result is below zero, a divisor is zero, or a shift is by 128 bits or more (type {p}, node at byte {o} of the layout)"),
    (24, "24: the bytes of a jagged array can't be summed (type {p}, node at byte {o} of the layout)"),
    (25, "25: the record needs {v} bytes, and the buffer is shorter"),
    (26, "26: a result reaches 2^64 (type {p}, node at byte {o} of the layout)"),
    (27, "27: more than 16 calls of types would be open together (type {p}, node at byte {o} of the layout)"),
];

fn expected(answer: &Answer) -> String {
    let row = SENTENCES.iter().find(|(n, _)| *n == answer.number);
    let (_, sentence) = row.expect("a number of document 01");
    sentence
        .replace("{p}", &answer.place.to_string())
        .replace("{o}", &answer.offset.to_string())
        .replace("{v}", &answer.value.to_string())
}

fn refusal_of(call: &Call) -> Option<Refusal> {
    match call {
        Call::Build {
            words, room, set, ..
        } => Work::with_words(*words)
            .build_set_into(set, &mut vec![0; *room])
            .err(),
        Call::Validate {
            words,
            length,
            layout,
            name,
            values,
        } => Work::with_words(*words)
            .validate(layout, name, values, *length)
            .err(),
        Call::Run { words, layout, run } => {
            Work::with_words(*words).validate_run(layout, run).err()
        }
        Call::Lengths => None,
    }
}

#[test]
fn every_number_has_its_sentence() {
    let mut met: BTreeMap<u8, usize> = BTreeMap::new();
    for record in records() {
        if let Some(refusal) = refusal_of(&record.call) {
            assert_eq!(
                refusal.to_string(),
                expected(&record.answer),
                "{}",
                record.at
            );
            *met.entry(record.answer.number).or_default() += 1;
        }
    }
    let numbers: Vec<u8> = SENTENCES.iter().map(|(n, _)| *n).collect();
    assert_eq!(met.into_keys().collect::<Vec<u8>>(), numbers);
}

#[test]
fn the_numbers_are_those_of_document_01() {
    let codes: Vec<u8> = Number::all().map(Number::code).collect();
    let expected: Vec<u8> = (1..=6).chain(10..=27).collect();
    assert_eq!(codes, expected);
    for code in 0..=255 {
        let number = Number::from_code(code);
        assert_eq!(number.is_some(), expected.contains(&code));
        if let Some(number) = number {
            assert_eq!(number.code(), code);
            assert_eq!(number.to_string(), code.to_string());
        }
    }
}

#[test]
fn a_refused_type_is_named() {
    let set = Set::new()
        .with(Type::primitive("Leg", 4))
        .with(Type::reference("Trip", "Zone"));
    let bytes = set.to_bytes().expect("the set");
    let refusal = ciztarmo::build_set(&bytes).expect_err("a missing type");
    let sentence = "15: a type that is referred to is not in the set (type 1 \"Trip\")";
    assert_eq!(type_names(&bytes), ["Leg", "Trip"]);
    let named = refusal.with_names(&type_names(&bytes)).to_string();
    assert_eq!(named, sentence);
    // Without a name for the place, the place alone is told.
    let unnamed = refusal.with_names(&["Leg"]).to_string();
    assert_eq!(unnamed, refusal.to_string());
    let error = set.build().expect_err("a missing type");
    assert_eq!(error.to_string(), sentence);
    assert_eq!(error.refusal(), Some(&refusal));
    assert_eq!(Error::from(refusal).to_string(), refusal.to_string());
}

/// The names before the first that is cut off, whatever the bytes are.
#[test]
fn names_of_any_bytes() {
    let set = Set::new()
        .with(Type::primitive("Leg", 4))
        .with(Type::primitive("Trip", 4));
    let bytes = set.to_bytes().expect("the set");
    let mut found = Vec::new();
    for end in 0..=bytes.len() {
        found.push(type_names(&bytes[..end]).len());
    }
    assert!(found.is_sorted());
    assert_eq!((found[0], found[bytes.len()]), (0, 2));
    assert!(type_names(&[0xFF; 100]).is_empty());
    for record in records() {
        if let Call::Build { set, layout, .. } = &record.call {
            if record.answer.number == 0 {
                assert_eq!(type_names(set), type_names(layout));
            }
        }
    }
}
