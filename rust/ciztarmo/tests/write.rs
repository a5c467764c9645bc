//! Values written into the caller's bytes, beside those of a `Values`.

use ciztarmo::{write_values, Values, WriteError};

/// What a byte of the caller's holds before.
const BEFORE: u8 = 0xA5;

/// Every order of the first values.
fn orders(values: &[(&'static str, u64)]) -> Vec<Vec<(&'static str, u64)>> {
    let Some((first, rest)) = values.split_first() else {
        return vec![Vec::new()];
    };
    let mut all = Vec::new();
    for order in orders(rest) {
        for at in 0..=order.len() {
            let mut longer = order.clone();
            longer.insert(at, *first);
            all.push(longer);
        }
    }
    all
}

const FIVE: [(&str, u64); 5] = [
    ("", 0),
    ("B", u64::MAX),
    ("a", 1),
    ("aB", 256),
    ("ab", 1 << 63),
];

#[test]
fn every_order_gives_one_block() {
    for count in 0..=FIVE.len() {
        let values = Values::of(FIVE[..count].iter().copied()).expect("distinct names");
        let expected = values.to_bytes();
        assert_eq!(ciztarmo::read_values(&expected), Ok(()));
        let mut orders_seen: usize = 0;
        for order in orders(&FIVE[..count]) {
            for more in [0, 1, 9] {
                let mut out = vec![BEFORE; expected.len() + more];
                assert_eq!(write_values(&order, &mut out), Ok(&expected[..]));
                assert_eq!(out[..expected.len()], expected);
                assert!(out[expected.len()..].iter().all(|b| *b == BEFORE));
            }
            orders_seen += 1;
        }
        assert_eq!(orders_seen, (1..=count).product());
        let mut out = vec![BEFORE; expected.len() + 1];
        assert_eq!(values.write_into(&mut out), Ok(&expected[..]));
        assert_eq!(out[expected.len()], BEFORE);
    }
}

#[test]
fn too_little_room() {
    let values = Values::of(FIVE).expect("distinct names");
    let needed = values.to_bytes().len();
    let given: Vec<_> = FIVE.into_iter().rev().collect();
    for room in 0..needed {
        let mut out = vec![BEFORE; room];
        let error = WriteError::NoRoom { needed };
        assert_eq!(write_values(&given, &mut out), Err(error));
        assert_eq!(values.write_into(&mut out), Err(error));
        assert!(out.iter().all(|b| *b == BEFORE));
    }
}

#[test]
fn a_name_twice() {
    for (place, of) in [(1, 0), (3, 0), (3, 2), (4, 3)] {
        let mut given = FIVE;
        given[place].0 = given[of].0;
        let mut out = [BEFORE; 200];
        let error = WriteError::Twice { place };
        assert_eq!(write_values(&given, &mut out), Err(error));
        assert!(out.iter().all(|b| *b == BEFORE));
        let sentence = format!("value {place} has a name that was given to one before it");
        assert_eq!(error.to_string(), sentence);
    }
}

#[test]
fn what_the_fields_cannot_say() {
    let long = "n".repeat(65_536);
    let mut out = [BEFORE; 100];
    let given = [("a", 1), (&long[..], 2)];
    let error = WriteError::NameTooLong { place: 1 };
    assert_eq!(write_values(&given, &mut out), Err(error));
    let longest = &long[1..];
    let needed = 8 + 10 + 65_535;
    let error = WriteError::NoRoom { needed };
    assert_eq!(write_values(&[(longest, 2)], &mut out), Err(error));
    let count = 65_536;
    let error = WriteError::TooMany { count };
    assert_eq!(write_values(&vec![("a", 1); count], &mut out), Err(error));
    // 4 GiB, of one name: its length is known before the names are compared.
    let needed = 8 + 65_535 * (10 + 65_535);
    let error = WriteError::BlockTooLong { needed };
    let all = vec![(longest, 1); 65_535];
    assert_eq!(write_values(&all, &mut out), Err(error));
    assert!(out.iter().all(|b| *b == BEFORE));
}

/// What the limits forbid is written, and the reader says so.
#[test]
fn limits_are_the_readers() {
    let names: Vec<String> = (0..513).map(|i| format!("{i:03}")).collect();
    let all: Vec<(&str, u64)> = names.iter().map(|n| (&n[..], 7)).collect();
    let mut out = vec![0; 10_000];
    let number = |bytes: &[u8]| ciztarmo::read_values(bytes).map_err(|no| no.number().code());
    assert_eq!(number(write_values(&all[..512], &mut out).unwrap()), Ok(()));
    assert_eq!(number(write_values(&all, &mut out).unwrap()), Err(4));
    let mut one = |name: &str| number(write_values(&[(name, 1)], &mut out).unwrap());
    assert_eq!(one("ü"), Ok(()));
    assert_eq!(one("ü\u{7f}"), Err(3));
    assert_eq!(one(&"ü".repeat(127)), Ok(()));
    assert_eq!(one(&"ü".repeat(128)), Err(3));
}
