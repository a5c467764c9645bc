//! The stored examples: their blocks, the lines of `lengths` and the drawn trees. The .out files
//! were printed by the program `lengths` (`./text blocks FILE | ./lengths`), the .tree files by
//! `./text tree FILE`; that the counts are what they should be is computed by hand in the comments
//! of the texts.

mod common;

use ciztarmo::Work;
use ciztarmo_text::commands;
use common::{blocks, cut, read, show};
use std::cmp::Ordering;

const EXAMPLES: [&str; 5] = ["trip", "zones", "transfers", "fill", "stops"];

fn text(example: &str) -> String {
    String::from_utf8(read(&format!("examples/{example}.txt"))).unwrap()
}

#[test]
fn trip_is_the_worked_example() {
    assert_eq!(blocks(&text("trip")), read("examples/trip"));
}

/// 100 × count / length to the nearest whole number, an exact half to the even neighbour.
fn fill(count: u64, length: u64) -> u128 {
    let (hundred, length) = (100 * u128::from(count), u128::from(length));
    let Some(whole) = hundred.checked_div(length) else {
        return 0;
    };
    match (2 * (hundred % length)).cmp(&length) {
        Ordering::Less => whole,
        Ordering::Equal => whole + whole % 2,
        Ordering::Greater => whole + 1,
    }
}

/// A line of `lengths` for a run.
fn line(work: &mut Work, layout: &[u8], number: usize, run: &[u8]) -> String {
    // The buffer length stands behind the type's name.
    let name = usize::from(u16::from_le_bytes([run[6], run[7]]));
    let length = u64::from_le_bytes(run[8 + name..16 + name].try_into().unwrap());
    match work.validate_run(layout, run) {
        Ok(count) => format!("{number} 0 {count} {}\n", fill(count, length)),
        Err(refusal) => format!(
            "{number} {} {} 0\n",
            refusal.number().code(),
            refusal.value()
        ),
    }
}

#[test]
fn outputs() {
    let mut work = Work::new();
    for example in EXAMPLES {
        let input = blocks(&text(example));
        let pieces = cut(&input).unwrap();
        let layout = work.build_set(pieces[0]).unwrap();
        let runs = pieces[1..].iter().enumerate();
        let lines: String = runs
            .map(|(i, run)| line(&mut work, &layout, i, run))
            .collect();
        let stored = read(&format!("examples/{example}.out"));
        assert_eq!(lines, String::from_utf8(stored).unwrap(), "{example}");
    }
}

#[test]
fn outputs_have_the_refusals() {
    for example in ["zones", "transfers"] {
        let stored = String::from_utf8(read(&format!("examples/{example}.out"))).unwrap();
        assert!((6..=12).contains(&stored.lines().count()));
        for number in [0, 21, 22, 25] {
            let with = |line: &str| line.split(' ').nth(1) == Some(&number.to_string());
            assert!(stored.lines().any(with), "{example}: {number}");
        }
    }
}

/// From the text and from the set's blocks, the stored trees; from the layout that is built, the same
/// without the names of the set.
#[test]
fn trees() {
    for example in EXAMPLES {
        let stored = String::from_utf8(read(&format!("examples/{example}.tree"))).unwrap();
        let bare = |line: &str| line.split("  [").next().unwrap().to_string() + "\n";
        let nameless: String = stored.lines().map(bare).collect();
        assert_ne!(nameless, stored);
        let input = blocks(&text(example));
        let layout = Work::new().build_set(cut(&input).unwrap()[0]).unwrap();
        let drawn = |source: &[u8]| {
            let done = commands::tree(example, source).unwrap();
            String::from_utf8(done.output).unwrap()
        };
        assert_eq!(drawn(text(example).as_bytes()), stored, "{example}");
        assert_eq!(drawn(&input), stored, "{example}");
        assert_eq!(drawn(&layout), nameless, "{example}");
        assert_eq!(drawn(show(&layout).as_bytes()), nameless, "{example}");
    }
}

/// A layout has a text too, and it is read back.
#[test]
fn layouts() {
    for example in EXAMPLES {
        let layout = Work::new()
            .build_set(cut(&blocks(&text(example))).unwrap()[0])
            .unwrap();
        assert_eq!(blocks(&show(&layout)), layout);
    }
    let trip = Work::new()
        .build_set(cut(&read("examples/trip")).unwrap()[0])
        .unwrap();
    let shown = "\
layout
  type Trip
    align-up 1
      add-checked
        align-up 1
          const 1
        align-up 1
          mul-checked
            field-ref n parameter legs.n
            const 4
    parameter legs.n
";
    assert_eq!(show(&trip), shown);
}

#[test]
fn answers_in_words() {
    let said = commands::lengths("trip.txt", text("trip").as_bytes()).unwrap();
    let lines = "\
trip.txt:16: Trip: 13 bytes of 13
trip.txt:20: Trip: 1 byte of 8
trip.txt:24: Trip: refused 25: 13 bytes are needed and 12 are there
trip.txt:28: Trip: refused 21: the value legs.n is missing
";
    assert_eq!(String::from_utf8(said.output).unwrap(), lines);
}

/// What docs/TEXT.md shows of the worked example is what the tool does.
#[test]
fn the_description() {
    let page = String::from_utf8(read("docs/TEXT.md")).unwrap();
    let indented = |text: &str| -> String {
        let line = |l: &str| format!("    {l}").trim_end().to_string() + "\n";
        text.lines().map(line).collect()
    };
    let tree = String::from_utf8(read("examples/trip.tree")).unwrap();
    assert!(page.contains(&indented(&tree)));
    let map = String::from_utf8(read("examples/trip.map")).unwrap();
    assert!(page.contains(&indented(&map)));
    let told = commands::parameters("t", &read("examples/zones.txt"), "FareBlock").unwrap();
    assert!(page.contains(&indented(&String::from_utf8(told.output).unwrap())));
    // The set and the first run.
    let trip = read("examples/trip");
    let pieces = cut(&trip).unwrap();
    let shown = show(&[pieces[0], pieces[1]].concat());
    assert!(page.contains(&indented(&shown)));
    for line in [
        "examples/trip.txt:16: Trip: 13 bytes of 13",
        "the value legs.n is missing",
    ] {
        assert!(page.contains(line), "{line}");
    }
}

/// So are the messages that it shows.
#[test]
fn the_messages_of_the_description() {
    let page = String::from_utf8(read("docs/TEXT.md")).unwrap();
    let shown = |message: &str| {
        let line = format!("    {message}\n");
        assert!(page.contains(&line), "{line}");
    };
    let refused = |text: &str| {
        shown(&commands::check("fares.txt", text.as_bytes()).unwrap_err());
    };
    refused("set\n\n  struct Trip variable\n    field n at 0 primitive u8 size 1\n    field legs array Trip::legs variable count n\n      element primitive leg size 4\n");
    refused("set\n  # Names.\n\n  primitive St.–Denis size 1\n");
    let overlap = "set\n  struct T variable\n    field a at 0 primitive p size 4\n    field b at 2 primitive p size 4\n";
    let warned = commands::check("fares.txt", overlap.as_bytes()).unwrap();
    warned.remarks.iter().for_each(|remark| shown(remark));
    assert_eq!(warned.remarks.len(), 1);
}
