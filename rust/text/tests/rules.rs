//! docs/RULES.md: its examples print what stands there, and its sections are those that others name.
//! At the end, the first screen of README.md.
//!
//! An example is a fence `example`: a text, then commands `$ ./text COMMAND t.txt`, each with what it
//! prints. Where a message of the tool was changed on purpose, RULES_WRITE=1 writes the page anew:
//!
//!     RULES_WRITE=1 cargo test --offline -p ciztarmo-text --test rules
//!
//! Read the difference then: every count in the page was worked out by hand.

mod common;

use ciztarmo_text::commands;
use common::{blocks, cut, read, repository};
use std::collections::BTreeSet;

const PAGE: &str = "docs/RULES.md";

/// Numbers that no short text gets: 1 and 18 need long inputs, 2 needs damaged blocks, 3 and 17 long
/// names, 19 a call that lends words. tests/refusals.rs and the crate's tests have them.
const WITHOUT_EXAMPLE: [u8; 5] = [1, 2, 17, 18, 19];

fn page() -> String {
    String::from_utf8(read(PAGE)).unwrap()
}

/// A piece of the page: lines outside of fences, or a fence with its word.
struct Piece<'a> {
    fence: Option<&'a str>,
    lines: Vec<&'a str>,
}

fn pieces(page: &str) -> Vec<Piece<'_>> {
    let mut out = vec![Piece {
        fence: None,
        lines: Vec::new(),
    }];
    for line in page.lines() {
        let open = out.last().unwrap().fence.is_some();
        match line.strip_prefix("```") {
            Some(word) if !open || word.is_empty() => out.push(Piece {
                fence: (!open).then_some(word),
                lines: Vec::new(),
            }),
            _ => out.last_mut().unwrap().lines.push(line),
        }
    }
    assert!(out.last().unwrap().fence.is_none(), "a fence is not closed");
    out
}

fn fences<'a>(page: &'a str, word: &str) -> Vec<Vec<&'a str>> {
    let with = |piece: &Piece| piece.fence == Some(word);
    let all = pieces(page).into_iter();
    all.filter(with).map(|piece| piece.lines).collect()
}

/// What a command prints, on standard output or standard error.
fn printed(command: &str, input: &str) -> String {
    let run = match command {
        "$ ./text lengths t.txt" => commands::lengths,
        "$ ./text tree t.txt" => commands::tree,
        "$ ./text check t.txt" => commands::check,
        _ => panic!("{command}: not a command of an example"),
    };
    let said = match run("t.txt", input.as_bytes()) {
        Ok(done) => String::from_utf8(done.output).unwrap(),
        Err(message) => message,
    };
    match said.trim_end() {
        "" => String::new(),
        said => format!("{said}\n"),
    }
}

/// An example with what its commands print now.
fn answered(example: &[&str]) -> String {
    let is_command = |line: &&str| line.starts_with("$ ");
    let behind = example.iter().position(|line| is_command(&line));
    let behind = behind.unwrap_or_else(|| panic!("an example has no command: {example:?}"));
    let text = example[..behind].join("\n");
    let input = format!("{}\n", text.trim_end());
    let commands = example[behind..].iter().filter(|line| is_command(line));
    let answers: String = commands
        .map(|command| format!("{command}\n{}", printed(command, &input)))
        .collect();
    format!("{input}\n{answers}")
}

/// The page with what its examples print now.
fn written(page: &str) -> String {
    let mut out = String::new();
    for piece in pieces(page) {
        let text = || piece.lines.iter().map(|line| format!("{line}\n")).collect();
        let body = match piece.fence {
            Some("example") => answered(&piece.lines),
            _ => text(),
        };
        out += &match piece.fence {
            Some(word) => format!("```{word}\n{body}```\n"),
            None => body,
        };
    }
    out
}

#[test]
fn examples_print_what_stands_there() {
    let page = page();
    let now = written(&page);
    if std::env::var_os("RULES_WRITE").is_some() {
        std::fs::write(repository(PAGE), &now).unwrap();
        return;
    }
    assert!(fences(&page, "example").len() >= 50, "examples are missing");
    for (i, (stands, prints)) in page.lines().zip(now.lines()).enumerate() {
        assert_eq!(stands, prints, "{PAGE}:{}", i + 1);
    }
    assert_eq!(page, now);
}

/// A fence of another word would not be run, and a drawing has to look alike everywhere.
#[test]
fn fences_are_examples_or_drawings() {
    let page = page();
    for piece in pieces(&page) {
        let Some(word) = piece.fence else { continue };
        assert!(["example", "drawing"].contains(&word), "a fence {word}");
    }
    for drawing in fences(&page, "drawing") {
        assert!(drawing.iter().all(|line| line.is_ascii()), "{drawing:?}");
    }
}

/// The number of a heading: `### 5.12 MissingParameter` has `5.12`.
fn section(line: &str) -> Option<&str> {
    let words = line.trim_start_matches('#').strip_prefix(' ')?;
    let number = words.split(' ').next()?;
    let digit = number.starts_with(|c: char| c.is_ascii_digit());
    (line.starts_with("##") && digit).then_some(number)
}

fn prose(page: &str) -> Vec<&str> {
    let outside = pieces(page)
        .into_iter()
        .filter(|piece| piece.fence.is_none());
    outside.flat_map(|piece| piece.lines).collect()
}

fn sections(page: &str) -> Vec<&str> {
    prose(page).into_iter().filter_map(section).collect()
}

#[test]
fn sections_ascend() {
    let page = page();
    let numbers =
        |section: &&str| -> Vec<u8> { section.split('.').map(|n| n.parse().unwrap()).collect() };
    let all: Vec<Vec<u8>> = sections(&page).iter().map(numbers).collect();
    for two in all.windows(2) {
        assert!(two[0] < two[1], "{:?} before {:?}", two[0], two[1]);
    }
    for heading in prose(&page).iter().filter(|line| line.starts_with("##")) {
        let level = heading.chars().take_while(|c| *c == '#').count();
        let number = section(heading).unwrap_or_else(|| panic!("no number: {heading}"));
        assert_eq!(number.split('.').count(), level - 1, "{heading}");
    }
}

/// The numbers with a dot in a line, such as 3.2.1. A name like `n.0` has none.
fn named(line: &str) -> Vec<&str> {
    let apart = |c: char| !(c.is_ascii_alphanumeric() || c == '.' || c == '_');
    let numbers = line.split(apart).map(|word| word.trim_matches('.'));
    let digits = |part: &str| !part.is_empty() && part.bytes().all(|b| b.is_ascii_digit());
    let is_section = |word: &&str| word.contains('.') && word.split('.').all(digits);
    numbers.filter(is_section).collect()
}

#[test]
fn named_sections_are_there() {
    let page = page();
    let there: BTreeSet<&str> = sections(&page).into_iter().collect();
    for line in prose(&page) {
        for number in named(line) {
            assert!(there.contains(number), "no section {number}: {line}");
        }
    }
}

#[test]
fn every_refusal_has_its_section_and_example() {
    let page = page();
    let numbers: Vec<u8> = (1..=6).chain(10..=27).collect();
    let expected: Vec<String> = numbers.iter().map(|n| format!("5.{n}")).collect();
    let fifth = |section: &&str| section.starts_with("5.");
    let there: Vec<&str> = sections(&page).into_iter().filter(fifth).collect();
    assert_eq!(there, expected);
    let examples = fences(&page, "example").concat().join("\n");
    for number in numbers {
        let shown = examples.contains(&format!("refused {number}:"));
        let expected = !WITHOUT_EXAMPLE.contains(&number);
        assert_eq!(shown, expected, "refusal {number}");
    }
}

/// README.md shows the type Trip, and what two commands print of it.
#[test]
fn the_first_screen() {
    let readme = String::from_utf8(read("README.md")).unwrap();
    let indented = |text: &str| -> String { text.lines().map(|l| format!("    {l}\n")).collect() };
    let begin = readme
        .find("    struct Trip")
        .expect("README.md has no type Trip");
    let shown = readme[begin..].split("\n\n").next().unwrap();
    let lines = shown.lines().map(|line| format!("{}\n", &line[2..]));
    let set: String = std::iter::once("set\n".to_string()).chain(lines).collect();
    assert_eq!(blocks(&set), cut(&read("examples/trip")).unwrap()[0]);
    let words = commands::lengths("examples/trip.txt", &read("examples/trip.txt")).unwrap();
    let lines = read("examples/trip.out");
    for (command, output) in [
        ("$ ./text lengths examples/trip.txt", words.output),
        ("$ ./lengths < examples/trip", lines),
    ] {
        let printed = format!("{command}\n{}", String::from_utf8(output).unwrap());
        assert!(readme.contains(&indented(&printed)), "{printed}");
    }
}
