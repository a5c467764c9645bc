//! Records that ask for many values of long lists, against a lookup that compares name by name.
//! From 256 values on, in records that ask for some forty of them or more, the proved code finds
//! names by an index of the list: the lists and records here stand below, at and above these limits.

use ciztarmo::{Layout, Number, Refusal, Run, Values, Work};

type List = Vec<(String, u64)>;

// Blocks.

fn block(kind: u16, parts: &[&[u8]]) -> Vec<u8> {
    let body = parts.concat();
    let length = u32::try_from(body.len() + 2).expect("a short block");
    [&length.to_le_bytes(), &kind.to_le_bytes()[..], &body].concat()
}

fn name(text: &str) -> Vec<u8> {
    [&(text.len() as u16).to_le_bytes(), text.as_bytes()].concat()
}

/// A node of alignment 1 without a size text.
fn node(kind: u16, parts: &[&[u8]]) -> Vec<u8> {
    block(kind, &[&1u64.to_le_bytes(), &[0], &parts.concat()])
}

/// A field whose bytes are as many as the value of this name says.
fn field(path: &str) -> Vec<u8> {
    node(130, &[&name(path), &[0]])
}

/// The fields of a record, one behind the other.
fn record(asked: &[String]) -> Vec<u8> {
    let mut nodes = asked.iter().map(|n| field(n));
    let first = nodes.next().expect("a field");
    nodes.fold(first, |left, right| node(134, &[&left, &right]))
}

fn tree(type_name: &str, root: &[u8], parameters: &[String]) -> Vec<u8> {
    let count = (parameters.len() as u16).to_le_bytes();
    let parameter = |n: &String| block(162, &[&name(n), &[0, 0]]);
    let parameters: Vec<Vec<u8>> = parameters.iter().map(parameter).collect();
    let alignment = 1u64.to_le_bytes();
    let parts: [&[u8]; 5] = [
        &name(type_name),
        &alignment,
        root,
        &count,
        &parameters.concat(),
    ];
    block(161, &parts)
}

fn layout(trees: &[Vec<u8>]) -> Layout {
    let count = (trees.len() as u16).to_le_bytes();
    let bytes = block(160, &[&count, &trees.concat()]);
    Layout::read(bytes).expect("a good layout")
}

/// The layout of one type `R`.
fn layout_of(asked: &[String]) -> Layout {
    layout(&[tree("R", &record(asked), &[])])
}

// Names and lists.

/// How many values the lists have.
const MANY: [usize; 7] = [31, 90, 255, 256, 257, 500, 512];

const KINDS: [&str; 7] = [
    "alike at their beginnings",
    "alike at their ends",
    "alike at both",
    "of unlike lengths",
    "each the beginning of others",
    "of few bytes, and long ones",
    "beyond ASCII",
];

/// The name of a place in a list of so many values. Where names are of one length, this is such
/// that 512 of them have at most 65,536 bytes.
fn name_of(kind: usize, i: usize, many: usize) -> String {
    let rest = (65_000 / many - 10).min(125) - 3;
    let half = rest / 2;
    match kind {
        0 => "p".repeat(rest) + &format!("{i:03}"),
        1 => format!("{i:03}") + &"s".repeat(rest),
        2 => "m".repeat(half) + &format!("{i:03}") + &"m".repeat(rest - half),
        3 => format!("{i:03}") + &"u".repeat(i * 7 % (2 * rest)),
        4 => "abcdef"[i / 100..][..1].repeat(2 * (1 + i % 100)),
        5 if i % 4 < 3 => format!("{:b}", i + 1),
        5 => format!("{i}") + &"l".repeat(240),
        _ => {
            let letters = ["\u{E9}", "\u{EA}", "\u{20AC}", "\u{20AD}", "e\u{301}"];
            let digit = |d: usize| letters[i / 5usize.pow(d as u32) % 5];
            "\u{1F68C}".repeat(rest / 8) + &[digit(0), digit(1), digit(2), digit(3)].concat()
        }
    }
}

/// Each name with a number of its own; `by` makes others of them.
fn list(kind: usize, many: usize, by: u64) -> List {
    let value = |i: usize| (name_of(kind, i, many), by * (i * i + 7) as u64 + by);
    let mut list: List = (0..many).map(value).collect();
    if kind == 5 {
        list[0].0 = String::new();
    }
    list
}

fn values(list: &List) -> Values {
    Values::of(list.iter().cloned()).expect("names that differ")
}

/// Some names of the list: so many, from its end to its beginning and round again.
fn asked(list: &List, fields: usize) -> Vec<String> {
    let at = |i: usize| list[(list.len() - 1) * (i + 1) * 7 % list.len()].0.clone();
    (0..fields).map(at).collect()
}

/// The sum of the values that are found name by name, or the first name that is absent.
fn looked_up(list: &List, asked: &[String]) -> Result<u64, String> {
    let look = |n: &String| {
        let found = list.iter().find(|(listed, _)| listed == n);
        found.map(|(_, number)| *number).ok_or(n.clone())
    };
    asked.iter().map(look).sum()
}

/// The answer as the plain lookup has it: a count, or 21 at the node that asks for the name.
fn plain(answer: Result<u64, Refusal>, layout: &Layout) -> Result<u64, String> {
    answer.map_err(|refusal| {
        assert_eq!(refusal.number(), Number::MissingIrParameter);
        assert_eq!((refusal.place(), refusal.value()), (Some(0), 0));
        let missing = layout.borrowed().missing_value(&refusal);
        let missing = missing.expect("a name that is missing").to_string();
        let asks = field(&missing);
        let at = layout
            .as_bytes()
            .windows(asks.len())
            .position(|w| w == asks);
        assert_eq!(Some(refusal.offset() as usize), at);
        missing
    })
}

/// The answers of all calls to one record.
fn answers(work: &mut Work, layout: &Layout, list: &Values) -> Vec<Result<u64, String>> {
    let length = u64::MAX;
    let run = Run::new("R", list, length).expect("a run");
    let bytes = list.to_bytes();
    let mut out = vec![
        layout.length_of("R", list, length),
        work.validate(layout.as_bytes(), "R", &bytes, length),
        layout.length_of_run(&run),
    ];
    out.extend(layout.lengths_of_with(work, &[run.clone(), run]));
    out.into_iter().map(|a| plain(a, layout)).collect()
}

#[test]
fn values_are_those_of_a_plain_lookup() {
    let mut work = Work::new();
    let (mut found, mut absent) = (0, 0);
    for many in MANY {
        for (kind, what) in KINDS.iter().enumerate() {
            let list = list(kind, many, 1);
            let given = values(&list);
            // The last name of the list is also asked for where it is not there.
            let (last, others) = list.split_last().expect("a value");
            let (others, fewer) = (others.to_vec(), values(&others.to_vec()));
            for fields in fields(many) {
                let mut names = asked(&list, fields);
                names[fields - 1] = last.0.clone();
                let layout = layout_of(&names);
                for (list, given) in [(&list, &given), (&others, &fewer)] {
                    let expected = looked_up(list, &names);
                    match &expected {
                        Ok(_) => found += 1,
                        Err(_) => absent += 1,
                    }
                    let told = answers(&mut work, &layout, given);
                    assert_eq!(told, vec![expected; 5], "{many} {what}, {fields} fields");
                }
            }
        }
    }
    // For each kind of names 60 records of two lists and 21 of five.
    assert_eq!((found, absent), (1575, 1575));
}

/// How many fields the records have: 1 to 60, with the longest lists, which take most of the time,
/// some of these; near forty all.
fn fields(many: usize) -> Vec<usize> {
    let taken =
        |n: &usize| many < 100 || (36..=45).contains(n) || n % 6 == 0 || [1, 2, 5].contains(n);
    (1..=60).filter(taken).collect()
}

/// Names that are like one of the list, but are not in it, behind so many that are.
#[test]
fn names_that_are_nearly_there() {
    let mut work = Work::new();
    for kind in 0..KINDS.len() {
        let list = list(kind, 256, 1);
        let given = values(&list);
        let like = &list[77].0;
        let mut cut = like.clone();
        cut.pop();
        for near in [format!("{like}x"), cut.clone() + "~", cut + "\u{10FFFF}"] {
            assert!(looked_up(&list, std::slice::from_ref(&near)).is_err());
            for fields in [0, 4, 5, 9, 39, 40, 60] {
                let mut names = asked(&list, fields);
                names.push(near.clone());
                let told = answers(&mut work, &layout_of(&names), &given);
                assert_eq!(told, vec![Err(near.clone()); 5]);
            }
        }
    }
}

/// Names of one length, so that a record's tree and its values stand just below, at and above the
/// limit from which on there is an index; one name more that is not asked has the bytes that move it.
#[test]
fn trees_near_the_limit() {
    let mut work = Work::new();
    for many in [255, 256, 257, 288] {
        for fields in 38..=42 {
            for more in [0, 40, 80, 120, 160, 200] {
                let mut list: List = (0..many).map(|i| (format!("{i:020}"), i)).collect();
                let names: Vec<String> = list
                    .iter()
                    .rev()
                    .take(fields)
                    .map(|v| v.0.clone())
                    .collect();
                list[0].0 += &"~".repeat(more);
                let told = answers(&mut work, &layout_of(&names), &values(&list));
                assert_eq!(told, vec![looked_up(&list, &names); 5]);
            }
        }
    }
}

/// Runs over one layout, each with a list of its own: other numbers under the same names, a list
/// without the last name, a short one, none.
#[test]
fn each_run_has_its_own_values() {
    for (many, kind, fields) in [(500, 0, 60), (256, 3, 90), (257, 6, 20), (33, 6, 20)] {
        let whole = list(kind, many, 1);
        let names = asked(&whole, fields);
        let layout = layout_of(&names);
        let without = |n: &String| whole.iter().filter(|(k, _)| k != n).cloned().collect();
        let short = whole.iter().filter(|(k, _)| names.contains(k)).cloned();
        let lists = [
            whole.clone(),
            list(kind, many, 3),
            without(&names[19]),
            whole.clone(),
            short.collect(),
            without(&names[0]),
            List::new(),
            list(kind, many, 5),
            without(&names[10]),
            whole.clone(),
        ];
        let run = |list: &List| Run::new("R", &values(list), u64::MAX).expect("a run");
        let runs: Vec<Run> = lists.iter().map(run).collect();
        let expected: Vec<_> = lists.iter().map(|list| looked_up(list, &names)).collect();
        assert_eq!(expected.iter().filter(|e| e.is_err()).count(), 4);
        let told = layout.lengths_of(&runs).into_iter();
        let told: Vec<_> = told.map(|a| plain(a, &layout)).collect();
        assert_eq!(told, expected);
    }
}

/// The same through calls that are open together: names as arguments, and names that called types
/// list as parameters, so that they are handed down, behind others that the record asks for itself.
#[test]
fn names_through_calls() {
    for open in [1, 2, 16] {
        for (many, fields) in [(31, 1), (255, 60), (256, 60), (500, 60)] {
            let list = list(2, many, 1);
            let all = asked(&list, 24 + fields);
            let (names, own) = all.split_at(24);
            let (arguments, handed) = names.split_at(12);
            let inside: Vec<String> = (0..12).map(|i| format!("a{i}")).collect();
            let held = [&inside[..], handed].concat();
            let pass = |i: usize, inner: &str| block(164, &[&name(&format!("a{i}")), &name(inner)]);
            let call = |to: usize, arguments: &[Vec<u8>]| {
                let count = (arguments.len() as u16).to_le_bytes();
                let to = name(&format!("C{to}"));
                node(133, &[&to, &count, &arguments.concat()])
            };
            let given: Vec<_> = (0..12).map(|i| pass(i, &arguments[i])).collect();
            let root = node(134, &[&record(own), &call(1, &given)]);
            let mut trees = vec![tree("R", &root, &[])];
            for i in 1..open {
                trees.push(tree(&format!("C{i}"), &call(i + 1, &[]), &held));
            }
            trees.push(tree(&format!("C{open}"), &record(&held), &held));
            let layout = layout(&trees);
            let count = layout.length_of("R", &values(&list), u64::MAX);
            assert_eq!(count.ok(), looked_up(&list, &all).ok());
            // A name that is handed down and absent is missing where it is asked for.
            let fewer: List = list.into_iter().filter(|(n, _)| *n != names[23]).collect();
            let refusal = layout.length_of("R", &values(&fewer), u64::MAX);
            let refusal = refusal.expect_err("a name is missing");
            assert_eq!(refusal.place(), Some(open as u16));
            let missing = layout.borrowed().missing_value(&refusal);
            assert_eq!(missing, Some(&names[23][..]));
        }
    }
}
