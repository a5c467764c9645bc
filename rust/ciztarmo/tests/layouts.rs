//! Layouts in the caller's bytes: the calls, the parameters, and what is missing where 21 is
//! answered. Also the calls that read and are lent no words, beside those that are.

mod stored;

use ciztarmo::{Answer, Layout, LayoutRef, Lent, Number, Parameter, Refusal, Work, WORDS};
use std::collections::BTreeMap;
use stored::{records, Call};

fn block(kind: u16, parts: &[&[u8]]) -> Vec<u8> {
    let body = parts.concat();
    let length = u32::try_from(body.len() + 2).expect("a short block");
    [&length.to_le_bytes(), &kind.to_le_bytes()[..], &body].concat()
}

fn name(text: &str) -> Vec<u8> {
    [&(text.len() as u16).to_le_bytes(), text.as_bytes()].concat()
}

fn number(n: u64) -> [u8; 8] {
    n.to_le_bytes()
}

/// A node of alignment 1 without a size text, and one with.
fn node(kind: u16, parts: &[&[u8]]) -> Vec<u8> {
    block(kind, &[&number(1), &[0], &parts.concat()])
}

fn sized(kind: u16, text: &str, parts: &[&[u8]]) -> Vec<u8> {
    block(kind, &[&number(1), &[1], &name(text), &parts.concat()])
}

fn parameter(text: &str, description: Option<&str>, derived: u8) -> Vec<u8> {
    let description = match description {
        Some(words) => [&[1], &name(words)[..]].concat(),
        None => vec![0],
    };
    block(162, &[&name(text), &description, &[derived]])
}

fn tree(text: &str, alignment: u64, root: &[u8], parameters: &[Vec<u8>]) -> Vec<u8> {
    let count = (parameters.len() as u16).to_le_bytes();
    let parameters = parameters.concat();
    block(
        161,
        &[&name(text), &number(alignment), root, &count, &parameters],
    )
}

fn layout_of(trees: &[Vec<u8>]) -> Vec<u8> {
    let count = (trees.len() as u16).to_le_bytes();
    block(160, &[&count, &trees.concat()])
}

fn field(path: &str) -> Vec<u8> {
    node(130, &[&name(path), &[0]])
}

/// A layout with a type for every place where a value can be missing.
fn missing() -> Vec<u8> {
    let named = node(130, &[&name("path"), &[1], &name("parameter")]);
    let tag = node(132, &[&name("tag"), &[0, 0], &[0]]);
    let argument = block(164, &[&name("inside"), &name("outside")]);
    let call = node(133, &[&name("Field"), &[1, 0], &argument]);
    let other = node(133, &[&name("Field"), &[0, 0]]);
    let all = [
        parameter("field", None, 0),
        parameter("b", Some("words"), 1),
    ];
    layout_of(&[
        tree("Field", 4, &field("field"), &all),
        tree(
            "Sized",
            1,
            &sized(130, "size", &[&name("sized"), &[0]]),
            &[],
        ),
        tree("Named", 1, &named, &[]),
        tree("Tag", 1, &tag, &[parameter("", Some(""), 0)]),
        tree("Argument", 1, &call, &[]),
        tree("Called", 1, &other, &[]),
    ])
}

const NO_VALUES: [u8; 8] = [4, 0, 0, 0, 192, 0, 0, 0];

#[test]
fn the_missing_value_is_named() {
    let bytes = missing();
    let layout = LayoutRef::read(&bytes).expect("a layout");
    let expected = [
        ("Field", "field", 0, "Field"),
        ("Sized", "sized", 1, "Sized"),
        ("Named", "parameter", 2, "Named"),
        ("Tag", "tag", 3, "Tag"),
        ("Argument", "outside", 4, "Argument"),
        ("Called", "field", 0, "Field"),
    ];
    for (asked, value, place, holder) in expected {
        let refusal = layout.length_of(asked, &NO_VALUES, 9).expect_err(asked);
        assert_eq!(refusal.number(), Number::MissingIrParameter);
        assert_eq!(layout.missing_value(&refusal), Some(value), "{asked}");
        let offset = refusal.offset();
        let sentence = format!(
            "21: the value \"{value}\", which the layout needs, is missing \
             (type {place} \"{holder}\", node at byte {offset} of the layout)"
        );
        assert_eq!(layout.explain(&refusal).to_string(), sentence);
        // Without the layout the sentence says less.
        let short = refusal.to_string();
        assert!(short.starts_with("21: a parameter that the layout needs has no value"));
        // The same of a layout that is owned.
        let owned = Layout::read(&bytes[..]).expect("a layout");
        assert_eq!(owned.explain(&refusal).to_string(), sentence);
    }
}

/// One value, which is 5.
fn five(name: &str) -> Vec<u8> {
    let mut room = [0; 100];
    let written = ciztarmo::write_values(&[(name, 5)], &mut room);
    written.expect("room for one value").to_vec()
}

#[test]
fn other_refusals_name_their_type() {
    let bytes = missing();
    let layout = LayoutRef::read(&bytes).expect("a layout");
    let refusal = layout.length_of("Tag", &five("tag"), 9);
    let refusal = refusal.expect_err("no case");
    assert_eq!(layout.missing_value(&refusal), None);
    let expected = refusal.with_names(&["", "", "", "Tag"]).to_string();
    assert!(expected.starts_with("22: no variant has the tag 5 (type 3 \"Tag\""));
    assert_eq!(layout.explain(&refusal).to_string(), expected);
    let refusal = layout.length_of("none", &NO_VALUES, 9).expect_err("20");
    assert_eq!(layout.explain(&refusal).to_string(), refusal.to_string());
    assert_eq!(layout.length_of("Field", &five("field"), 9), Ok(5));
}

#[test]
fn types_and_parameters_are_listed() {
    let bytes = missing();
    let layout = LayoutRef::read(&bytes).expect("a layout");
    let names: Vec<&str> = layout.types().map(|tree| tree.name()).collect();
    assert_eq!(
        names,
        ["Field", "Sized", "Named", "Tag", "Argument", "Called"]
    );
    assert_eq!(names, ciztarmo::type_names(&bytes));
    let told = |p: Parameter<'static>| (p.name, p.description, p.derived);
    let bytes: &'static [u8] = Box::leak(bytes.into_boxed_slice());
    let layout = LayoutRef::read(bytes).expect("a layout");
    let listed = |name| {
        let tree = layout.type_named(name).expect("a type");
        tree.parameters().map(told).collect::<Vec<_>>()
    };
    let expected = [("field", None, false), ("b", Some("words"), true)];
    assert_eq!(listed("Field"), expected);
    assert_eq!(listed("Sized"), []);
    assert_eq!(listed("Tag"), [("", Some(""), false)]);
    let alignments: Vec<u64> = layout.types().map(|tree| tree.alignment()).collect();
    assert_eq!(alignments, [4, 1, 1, 1, 1, 1]);
    assert!(layout.type_named("field").is_none());
}

/// Every layout that was built for the list: as many types, and as many parameters of each, as its
/// counts say, each name under 256 bytes.
#[test]
fn every_stored_layout_is_listed() {
    let (mut types, mut parameters) = (0, 0);
    for record in records() {
        let Call::Build { layout, .. } = &record.call else {
            continue;
        };
        if record.answer.number != 0 {
            continue;
        }
        let read = LayoutRef::read(layout).expect("a layout");
        let count = usize::from(u16::from_le_bytes([layout[6], layout[7]]));
        assert_eq!(read.types().count(), count, "{}", record.at);
        types += count;
        // A layout of the same blocks: the lists leave nothing out.
        let in_trees: usize = read.types().map(|t| t.parameters().count()).sum();
        let marks = layout.windows(2).filter(|w| *w == [162, 0]).count();
        assert!(in_trees <= marks, "{}", record.at);
        parameters += in_trees;
    }
    assert!(types > 400 && parameters > 100, "{types} {parameters}");
}

/// Where the list answers 21, giving the value that is named changes the answer. In a layout with
/// calls it need not: a called type has its values from its caller.
#[test]
fn the_named_value_is_the_one_that_is_missing() {
    let mut met: BTreeMap<bool, usize> = BTreeMap::new();
    for record in records() {
        let Call::Validate {
            words,
            length,
            layout,
            name,
            values,
        } = &record.call
        else {
            continue;
        };
        if record.answer.number != 21 || *words < WORDS {
            continue;
        }
        let layout = LayoutRef::read(layout).expect("a layout");
        let refusal = layout.length_of(name, values, *length).expect_err("21");
        let missing = layout.missing_value(&refusal).expect("a name");
        // The kind of a call; the bytes may be something else, but they are there if a call is.
        let calls = layout.as_bytes().windows(2).any(|w| *w == [133, 0]);
        let changed = with_value(values, missing).is_some_and(|more| {
            let again = layout.length_of(name, &more, *length);
            again.map_err(|no| (no.number(), no.offset()))
                != Err((refusal.number(), refusal.offset()))
        });
        assert!(changed || calls, "answers.bin, byte {}", record.at);
        *met.entry(calls).or_default() += 1;
    }
    assert_eq!(met, BTreeMap::from([(false, 78), (true, 58)]));
}

/// The values with one more, if they do not have it yet.
fn with_value(values: &[u8], added: &str) -> Option<Vec<u8>> {
    let mut all = vec![(added, 1)];
    let mut rest = &values[8..];
    while !rest.is_empty() {
        let (text, behind) = rest[2..].split_at(usize::from(rest[0]));
        let (number, behind) = behind.split_at(8);
        let text = std::str::from_utf8(text).expect("a name");
        all.push((text, u64::from_le_bytes(number.try_into().expect("8"))));
        rest = behind;
    }
    let mut out = vec![0; 70_000];
    let written = ciztarmo::write_values(&all, &mut out);
    written.ok().map(<[u8]>::to_vec)
}

type Read = fn(&[u8]) -> Result<(), Refusal>;
type ReadLent = fn(&mut Work, &[u8]) -> Result<(), Refusal>;

/// Reading with no words lent answers what reading with words answers, on every input of the list.
#[test]
fn reading_is_lent_no_words() {
    let calls: [(Read, ReadLent); 3] = [
        (ciztarmo::read_layout, Work::read_layout),
        (ciztarmo::read_values, Work::read_values),
        (ciztarmo::read_run, Work::read_run),
    ];
    let mut work = Work::new();
    let mut met: BTreeMap<(usize, u8), usize> = BTreeMap::new();
    for record in records() {
        let inputs: [&[u8]; 2] = match &record.call {
            Call::Validate { layout, values, .. } => [layout, values],
            Call::Run { layout, run, .. } => [layout, run],
            Call::Build { set, layout, .. } => [set, layout],
            Call::Lengths => continue,
        };
        for input in inputs {
            for (at, (own, lent)) in calls.iter().enumerate() {
                let answer = own(input);
                assert_eq!(answer, lent(&mut work, input), "{}", record.at);
                let number = answer.err().map_or(0, |no| no.number().code());
                *met.entry((at, number)).or_default() += 1;
            }
        }
    }
    // Every answer of reading but 5 of values and runs, which have neither flag nor literal.
    let layouts = [0, 1, 2, 3, 4, 5, 6].map(|number| (0, number));
    let values = [0, 1, 2, 3, 4, 6].map(|number| (1, number));
    let runs = [0, 1, 2, 3, 4, 6].map(|number| (2, number));
    let expected = [&layouts[..], &values[..], &runs[..]].concat();
    assert_eq!(met.into_keys().collect::<Vec<_>>(), expected);
}

/// A borrowed layout and lent words answer what the list has.
#[test]
fn the_stored_answers() {
    let (mut borrowed, mut lent) = (0, 0);
    for record in records() {
        let Call::Run { words, layout, run } = &record.call else {
            continue;
        };
        let mut own = vec![u64::MAX; *words];
        let mut room = [Answer::default(); 3];
        let answer = Lent::new(&mut own).validate_run(layout, run);
        assert_eq!(stored::Answer::of(answer), record.answer, "{}", record.at);
        let together = Lent::new(&mut own).validate_runs_into(layout, run, &mut room);
        // With bytes behind the block there are more runs than one.
        if let [only] = together {
            assert_eq!(only.count(), answer, "{}", record.at);
            lent += 1;
        }
        assert!(own.iter().all(|word| *word == 0));
        if let (Ok(read), true) = (LayoutRef::read(layout), *words >= WORDS) {
            assert_eq!(read.length_of_run(run), answer, "{}", record.at);
            borrowed += 1;
        }
    }
    assert!(borrowed > 1000 && lent > 1000, "{borrowed} {lent}");
}

/// Any bytes: what is not there is not listed, and nothing panics.
#[test]
fn layouts_that_are_cut_are_refused() {
    let bytes = missing();
    for end in 0..bytes.len() {
        assert!(LayoutRef::read(&bytes[..end]).is_err());
        ciztarmo::type_names(&bytes[..end]);
    }
}
