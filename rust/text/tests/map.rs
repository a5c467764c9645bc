//! What lies where in a record, as text and as SVG.

mod common;

use ciztarmo::Work;
use ciztarmo_text::commands::{self, Asked};
use ciztarmo_text::decode::decode;
use ciztarmo_text::encode::encode;
use ciztarmo_text::eval::{self, Held};
use ciztarmo_text::map::{self, Kind, Row};
use ciztarmo_text::model::*;
use common::{read, stored_sets};
use std::collections::BTreeMap;

fn asked(name: &str, values: &[(&str, u64)]) -> Asked {
    Asked {
        name: name.to_string(),
        values: values.iter().map(|v| (v.0.to_string(), v.1)).collect(),
        ..Asked::default()
    }
}

fn answer(input: impl AsRef<[u8]>, asked: &Asked) -> Result<String, String> {
    let done = commands::map("t", input.as_ref(), asked)?;
    Ok(String::from_utf8(done.output).unwrap())
}

/// The lines of parts, without the two lines and the heading above them.
fn drawn(set: &str, values: &[(&str, u64)], expected: &str) {
    let text = answer(format!("set\n{set}"), &asked("T", values));
    let text = text.unwrap_or_else(|e| panic!("{e}\n{set}"));
    let (_, rows) = text.split_once("first  last bytes\n").unwrap();
    assert_eq!(rows, expected, "{set}");
}

#[test]
fn examples() {
    let trip = String::from_utf8(read("examples/trip.map")).unwrap();
    let none = asked("Trip", &[]);
    assert_eq!(answer(read("examples/trip.txt"), &none).unwrap(), trip);
    assert_eq!(answer(read("examples/trip"), &none).unwrap(), trip);
    let svg = Asked {
        run: Some(2),
        svg: true,
        ..asked("FareBlock", &[])
    };
    let zones = String::from_utf8(read("examples/zones.svg")).unwrap();
    assert_eq!(answer(read("examples/zones.txt"), &svg).unwrap(), zones);
}

/// A run of the file, values in its place, a buffer length.
#[test]
fn where_values_come_from() {
    let trip = read("examples/trip.txt");
    let heading = |asked: &Asked| {
        let text = answer(&trip, asked).unwrap();
        text.split("\n\n").next().unwrap().to_string()
    };
    let first = asked("Trip", &[]);
    assert_eq!(heading(&first), "Trip: 13 bytes of 13\nlegs.n = 3");
    let with = |asked: Asked, run, length| Asked {
        run,
        length,
        ..asked
    };
    let second = with(asked("Trip", &[]), Some(1), None);
    assert_eq!(heading(&second), "Trip: 1 byte of 8\nlegs.n = 0");
    let small = with(asked("Trip", &[]), Some(2), None);
    assert_eq!(
        heading(&small),
        "Trip: 13 bytes, and 12 are there (refused with 25)\nlegs.n = 3"
    );
    let values = asked("Trip", &[("legs.n", 2)]);
    assert_eq!(heading(&values), "Trip: 9 bytes\nlegs.n = 2");
    let both = with(asked("Trip", &[("legs.n", 2)]), None, Some(10));
    assert_eq!(heading(&both), "Trip: 9 bytes of 10\nlegs.n = 2");
    let window = asked("Window", &[]);
    let text = answer("set\n  primitive Window size 3\n", &window).unwrap();
    assert!(text.starts_with("Window: 3 bytes\n\nfirst"), "{text}");
}

#[test]
fn structs() {
    drawn(
        "  struct T variable align 4\n    field a at 0 primitive p size 1\n    field b at 2 primitive p size 3 align 2\n    field c primitive p size 0\n",
        &[],
        "    0     7     8  T
    0     0     1    a
    1     1     1    (padding)
    2     5     4    b
    5     5     1      (padding): up to the alignment of b
    6     -     0    c
    6     7     2    (padding): up to the alignment of T
",
    );
    // A constant struct has its fields where they are drawn, also inside others.
    drawn(
        "  struct T variable\n    field s struct s size 4\n      field a at 0 primitive p size 1\n      field b struct u size 2\n        field c at 1 primitive p size 1\n",
        &[],
        "    0     3     4  T
    0     3     4    s
    0     0     1      s.a
    1     2     2      s.b
    2     2     1        s.b.c
",
    );
    // What does not fit is told.
    drawn(
        "  struct T size 4\n    field a at 0 primitive p size 3\n    field b at 3 primitive p size 3\n    field c at 9 primitive p size 1\n",
        &[],
        "    0     3     4  T
    0     2     3    a
    3     3     1    b: drawn at 3 with size 3, behind the end
    4     -     0    c: drawn at 9 with size 1, behind the end
",
    );
}

#[test]
fn arrays() {
    let set = "  array T variable align 4 count n\n    owner array paths element.k n\n    element array b variable align 2 count k\n      element primitive p size 1\n";
    drawn(
        set,
        &[("array.n", 2), ("array.element.k", 3)],
        "    0     7     8  T: 2 elements of 4
    0     3     4    T[0]: 3 elements of 1
    0     0     1      T[0][0]
    1     1     1      T[0][1]
    2     2     1      T[0][2]
    3     3     1      (padding): up to the alignment of T[0]
    4     7     4    T[1]: 3 elements of 1
    4     4     1      T[1][0]
    5     5     1      T[1][1]
    6     6     1      T[1][2]
    7     7     1      (padding): up to the alignment of T[1]
",
    );
    drawn(
        set,
        &[("array.n", 0), ("array.element.k", 3)],
        "    0     -     0  T: no elements\n",
    );
    // Elements of no bytes, however many, take no lines.
    drawn(
        set,
        &[("array.n", u64::MAX), ("array.element.k", 0)],
        "    0     -     0  T: 18446744073709551615 elements of 0\n",
    );
    // A constant array, and one whose size does not hold its elements.
    drawn(
        "  struct T variable\n    field a array a size 4 count 2u8\n      element primitive p size 2\n    field b array b size 3 count 2u8\n      element primitive p size 2\n",
        &[],
        "    0     6     7  T
    0     3     4    a: 2 elements of 2
    0     1     2      a[0]
    2     3     2      a[1]
    4     6     3    b
",
    );
}

#[test]
fn many_elements() {
    let set = "set\n  array T variable count n\n    owner array paths n\n    element primitive p size 2\n";
    let rows = |n: u64| {
        let text = answer(set, &asked("T", &[("array.n", n)])).unwrap();
        text.lines()
            .map(str::trim)
            .map(String::from)
            .collect::<Vec<_>>()
    };
    assert_eq!(rows(16).len(), 4 + 1 + 16);
    let many = rows(17);
    assert_eq!(many.len(), 4 + 1 + 8 + 1);
    assert_eq!(many[13], "16    33    18    T[8] to [16]: 2 each");
    let most = rows(u64::MAX / 2);
    assert_eq!(
        most[13],
        "16 18446744073709551613 18446744073709551598    T[8] to [9223372036854775806]: 2 each"
    );
}

#[test]
fn switches() {
    let set = "  enum T variable align 8 tag k\n    owner T paths k\n    owner v paths a b\n    variant u tag 1 struct s size 3 align 4\n      field x at 1 primitive p size 2\n    variant v tag 2 struct s variable align 4\n";
    drawn(
        set,
        &[("T.k", 1)],
        "    0     3     4  T: variant u (T.k = 1)
    1     2     2    x
    3     3     1    (padding): up to the alignment of T
",
    );
    // What is summed has no places.
    drawn(
        set,
        &[("T.k", 2), ("v.a", 3), ("v.b", 6)],
        "    0    11    12  T: variant v (T.k = 2), the sum v.a 3 + v.b 6; what lies where in it is not said
    9    11     3    (padding): up to the alignment of T
",
    );
    // A sized variant takes its expected size; the parts of its type are drawn if that holds them.
    let sized = "  sized-union T variable\n    variant u size 2 struct s size 9\n      field x at 1 primitive p size 2\n    variant v size 4 struct s size 2\n      field y at 1 primitive p size 1\n";
    drawn(
        sized,
        &[("T.payload_size", 4)],
        "    0     3     4  T: variant v (T.payload_size = 4)
    1     1     1    y
",
    );
    drawn(
        sized,
        &[("T.payload_size", 2)],
        "    0     1     2  T: variant u (T.payload_size = 2)\n",
    );
    drawn(
        "  struct T variable\n    field e enum e size 2 tag k\n      variant a tag 1 primitive p size 1\n      variant b tag 2 primitive p size 2\n",
        &[],
        "    0     1     2  T\n    0     1     2    e: one of a, b\n",
    );
}

#[test]
fn sums() {
    drawn(
        "  struct T variable\n    owner e paths x.payload_size\n    owner f paths n\n    owner g paths n\n    field e enum e variable align 4 tag k\n    field f primitive p variable\n    field g union u variable\n      field x primitive p size 1\n",
        &[("e.x.payload_size", 2), ("f.n", 3), ("g.n", 5)],
        "    0    11    12  T
    0     3     4    e: the sum e.x.payload_size 2; what lies where in it is not said
    2     3     2      (padding): up to the alignment of e
    4     6     3    f: the sum f.n 3; what lies where in it is not said
    7    11     5    g: the sum g.n 5; what lies where in it is not said
",
    );
}

/// The names of a chain of types: T, T1, T2, ..
fn name_of(i: usize) -> String {
    match i {
        0 => "T".to_string(),
        _ => format!("T{i}"),
    }
}

#[test]
fn calls() {
    drawn(
        "  struct T variable\n    field a primitive p size 1\n    field r reference r variable align 4 to L\n    field w reference w size 2 to W\n    field x reference x size 2 to Nobody\n  struct L variable align 2\n    owner n paths c\n    field n array n variable count c\n      element primitive p size 1\n  struct W size 2\n    field b at 0 primitive p size 1\n",
        &[("n.c", 1)],
        "    0     8     9  T
    0     0     1    a
    1     4     4    r: a record of L
    1     1     1      r.n: 1 element of 1
    1     1     1        r.n[0]
    2     2     1      (padding): up to the alignment of r
    3     4     2      (padding): up to the alignment of r
    5     6     2    w: a W
    5     5     1      w.b
    7     8     2    x: a Nobody
",
    );
    drawn(
        "  reference T size 9 to W\n  primitive W size 2\n",
        &[],
        "    0     1     2  T: a record of W\n",
    );
    // A called type is handed what it lists, though no argument names it.
    drawn(
        "  struct T variable\n    field k reference k variable to K\n  union K variable\n    field u primitive p size 1\n    field v primitive p size 2\n",
        &[("K.variant", 1)],
        "    0     1     2  T\n    0     1     2    k: a record of K, variant v (K.variant = 1)\n",
    );
    // Sixteen calls may be open, and no more.
    let chain = |calls: usize| {
        let step = |i: usize| format!("  reference {} variable to T{}\n", name_of(i), i + 1);
        let steps: String = (0..calls).map(step).collect();
        format!("{steps}  primitive T{calls} size 1\n")
    };
    let sixteen: Vec<String> = (1..=16).map(|i| format!("a record of T{i}")).collect();
    drawn(
        &chain(16),
        &[],
        &format!("    0     0     1  T: {}\n", sixteen.join(", ")),
    );
    let seventeen = answer(format!("set\n{}", chain(17)), &asked("T", &[])).unwrap_err();
    assert_eq!(
        seventeen,
        "t: T: refused 27: the call of T17 would be the 17th open (in T16)"
    );
    // Constant references that go in a circle end.
    let circle = "set\n  struct T size 2\n    field a reference a size 2 to T\n    field b reference b size 2 to R\n  reference R size 2 to R\n";
    let text = answer(circle, &asked("T", &[])).unwrap();
    assert!(text.ends_with("(what lies inside further parts is left out)\n"));
}

#[test]
fn refusals() {
    let trip = read("examples/trip.txt");
    let wrong = |asked: &Asked| answer(&trip, asked).unwrap_err();
    let told = "refused 21: the value legs.n is missing; `text parameters` lists what Trip is told";
    let run = Asked {
        run: Some(3),
        ..asked("Trip", &[])
    };
    assert_eq!(wrong(&run), format!("t:28: Trip: {told}"));
    // A name that is not asked for is told beside what is missing.
    assert_eq!(
        wrong(&asked("Trip", &[("legs.m", 3)])),
        format!(
            "t: warning: drawn: the value legs.m, which no parameter of Trip has; counted: nothing; \
             rule: a value that no node asks for is passed over\nt: Trip: {told}"
        )
    );
    let run = |place| Asked {
        run: Some(place),
        ..asked("Trip", &[])
    };
    assert_eq!(
        wrong(&run(4)),
        "t: no run 4: the file has 4, counted from 0"
    );
    let other = Asked {
        run: Some(8),
        ..asked("FareBlock", &[])
    };
    let zones = answer(read("examples/zones.txt"), &other).unwrap_err();
    assert_eq!(zones, "t:103: run 8 is of ZoneList, not of FareBlock");
    let name = "t: no type has the name Tripp; there are Trip";
    assert_eq!(wrong(&asked("Tripp", &[])), name);
    let long = "x".repeat(256);
    let message = wrong(&asked("Trip", &[("legs.n", 1), (&long, 1)]));
    assert!(message.contains("\nt: Trip: refused 3: "), "{message}");
    let layout = commands::layout("t", &trip).unwrap().output;
    assert_eq!(
        answer(layout, &asked("Trip", &[])).unwrap_err(),
        "t: byte 0: a layout has no fields to draw: a map is drawn of its set"
    );
    let svg = Asked {
        svg: true,
        ..asked("Trip", &[("legs.n", 4096)])
    };
    assert_eq!(
        wrong(&svg),
        "t: Trip: 16385 bytes, and SVG is drawn of 16384 at most; as text it is drawn"
    );
}

/// The buffer length counts where a size asks for it, of a run and of values.
#[test]
fn buffer_lengths() {
    let set = "set\n  array T variable count __buffer_size - 1u8\n    owner array\n    element primitive p size 1\nrun T length 9\n";
    let count = |asked: &Asked| {
        let text = answer(set, asked).unwrap();
        text.lines().next().unwrap().to_string()
    };
    assert_eq!(count(&asked("T", &[])), "T: 8 bytes of 9");
    let length = Asked {
        length: Some(4),
        ..asked("T", &[])
    };
    assert_eq!(count(&length), "T: 3 bytes of 4");
    let value = asked("T", &[("__buffer_size", 6)]);
    assert_eq!(count(&value), "T: 5 bytes");
}

/// At the seventeenth open call the tool's count ends, as the proved call does.
#[test]
fn open_calls() {
    let tree = |i: usize| {
        let text = match i {
            17 => "layout\n  type T17\n    const 1\n".to_string(),
            _ => format!("layout\n  type T{i}\n    call-nested T{}\n", i + 1),
        };
        match decode(&common::blocks(&text)) {
            Ok(Block::Layout(mut layout)) => layout.types.remove(0),
            _ => panic!("{text}"),
        }
    };
    let types: Vec<TypeTree> = (0..=17).map(tree).collect();
    let count = |i: usize| eval::count(&types, &types[i].root, &Held::new());
    assert_eq!((count(1), count(0)), (Some(1), None));
}

/// On every stored run (judge/vectors/README.md) of a layout, built or not, the tool's count is the
/// proved call's: the drawing's parts are counted as the record is.
#[test]
fn stored_runs() {
    let file = read("judge/vectors/answers.bin");
    let mut rest = &file[..];
    let mut work = Work::new();
    let mut numbers: BTreeMap<u8, usize> = BTreeMap::new();
    while !rest.is_empty() {
        let length = u32::from_le_bytes(rest[2..6].try_into().unwrap()) as usize;
        let (kind, record) = (rest[0], &rest[6..6 + length]);
        rest = &rest[6 + length..];
        if kind != 4 {
            continue;
        }
        let length = u32::from_le_bytes(record[4..8].try_into().unwrap()) as usize;
        let (layout, run) = (&record[8..8 + length], &record[12 + length..]);
        let length = u32::from_le_bytes(record[8 + length..12 + length].try_into().unwrap());
        let run = &run[..length as usize];
        if work.read_layout(layout).is_err() || work.read_run(run).is_err() {
            continue;
        }
        let (Ok(Block::Layout(trees)), Ok(Block::Run(asked))) = (decode(layout), decode(run))
        else {
            panic!("what is read has its parts");
        };
        let answer = match work.validate_run(layout, run) {
            Ok(count) => Ok(count),
            Err(refusal) if refusal.number().code() == 25 => Ok(refusal.value()),
            Err(refusal) => Err(refusal.number().code()),
        };
        let Some(tree) = trees.types.iter().find(|t| t.name == asked.name) else {
            continue;
        };
        let values = asked.values.entries.into_iter();
        let mut held: Held = values.map(|v| (v.name, v.number)).collect();
        held.entry("__buffer_size".to_string())
            .or_insert(asked.length);
        let count = eval::count(&trees.types, &tree.root, &held);
        assert_eq!(count, answer.ok(), "{tree:?} {held:?}");
        *numbers.entry(answer.err().unwrap_or(0)).or_default() += 1;
    }
    for number in [0, 20, 21, 22, 23, 24, 26, 27] {
        assert!(numbers.contains_key(&number), "{numbers:?}");
    }
}

/// Shifts at their limits, which few runs have.
#[test]
fn shifts() {
    let shift = |kind: u16, left: u64, right: u64| {
        let constant = |value| {
            Box::new(Node {
                spot: Spot::default(),
                align: 1,
                text: None,
                op: Op::Const(value),
            })
        };
        let node = Node {
            spot: Spot::default(),
            align: 1,
            text: None,
            op: Op::Two(kind, constant(left), constant(right)),
        };
        eval::count(&[], &node, &Held::new())
    };
    let (left, right) = (142, 143);
    assert_eq!(shift(134, u64::MAX, 1), None);
    assert_eq!(shift(left, 1, 63), Some(1 << 63));
    assert_eq!(shift(left, 1, 64), None);
    assert_eq!(shift(left, 2, 63), None);
    assert_eq!(shift(left, 0, 127), Some(0));
    assert_eq!(shift(left, 0, 128), None);
    assert_eq!(shift(right, 1 << 63, 63), Some(1));
    assert_eq!(shift(right, 5, 64), Some(0));
    assert_eq!(shift(right, 5, 127), Some(0));
    assert_eq!(shift(right, 5, 128), None);
}

/// Boxes and names of an SVG. Each part has a group with its bytes as title.
#[test]
fn svg() {
    let set = "set\n  struct T variable\n    owner f paths n\n    field \"a<&\" at 1 primitive p size 1\n    field long_name at 2 primitive p size 13\n    field f primitive p variable\n";
    let svg = Asked {
        svg: true,
        ..asked("T", &[("f.n", 18)])
    };
    let svg = answer(set, &svg).unwrap();
    assert!(svg.starts_with("<svg xmlns=\"http://www.w3.org/2000/svg\" "));
    assert!(svg.ends_with("</g>\n</svg>\n"));
    for tag in ["svg", "g", "text", "title", "pattern", "defs"] {
        let opened =
            svg.matches(&format!("<{tag} ")).count() + svg.matches(&format!("<{tag}>")).count();
        assert_eq!(opened, svg.matches(&format!("</{tag}>")).count(), "{tag}");
    }
    let group = |title: &str| -> String {
        let start = svg
            .find(&format!("<g><title>{title}</title>"))
            .unwrap_or_else(|| panic!("{title}\n{svg}"));
        let end = svg[start..].find("</g>").unwrap();
        svg[start..start + end].to_string()
    };
    let boxes = |group: &str| group.matches("<rect ").count();
    let top = 64 + 16;
    let padding = group("(padding) (bytes 0 to 0)");
    assert!(
        padding.contains(&format!("<rect x=\"72\" y=\"{top}\" width=\"56\" ")),
        "{padding}"
    );
    assert!(padding.contains(">pad</text>"));
    let quoted = group("\"a&lt;&amp;\" (bytes 1 to 1)");
    assert!(quoted.contains("<rect x=\"128\" "), "{quoted}");
    assert!(group("long_name (bytes 2 to 14)").contains(">long_name</text>"));
    // Bytes 15 to 32 lie in three lines; the name stands in the longest.
    let sum = group("f (bytes 15 to 32): the sum f.n 18; what lies where in it is not said");
    assert_eq!(boxes(&sum), 3);
    let line = |i: u64| top + i * 30;
    let wanted = [
        format!("<rect x=\"912\" y=\"{}\" width=\"56\" ", line(0)),
        format!("<rect x=\"72\" y=\"{}\" width=\"896\" ", line(1)),
        format!("<rect x=\"72\" y=\"{}\" width=\"56\" ", line(2)),
        format!("y=\"{}\" text-anchor=\"middle\">f</text>", line(1) + 17),
    ];
    for part in wanted {
        assert!(sum.contains(&part), "{part}\n{sum}");
    }
    assert!(sum.contains("url(#unknown)"));
    // The record itself has no name in it.
    assert!(!group("T (bytes 0 to 32)").contains("<text"));
}

/// The names that a tree asks for.
fn names(node: &Node, out: &mut Vec<String>) {
    match &node.op {
        Op::FieldRef { path, parameter } => out.push(parameter.as_ref().unwrap_or(path).clone()),
        Op::Switch { tag, .. } => out.push(tag.clone()),
        Op::CallNested { arguments, .. } => out.extend(arguments.iter().map(|a| a.value.clone())),
        _ => {}
    }
    for below in ciztarmo_text::parts::children(&node.op) {
        names(below, out);
    }
}

/// Every row lies in the one that holds it, and the fields of a variable struct follow each other
/// without a gap.
fn fits(rows: &[Row], ty: &Type) {
    let mut open: Vec<&Row> = Vec::new();
    for row in rows {
        open.truncate(row.depth);
        if let Some(holder) = open.last() {
            assert!(holder.at <= row.at, "{rows:?}");
            assert!(row.at + row.count <= holder.at + holder.count, "{rows:?}");
        }
        open.push(row);
    }
    if let (Shape::Struct(fields), None) = (&ty.shape, ty.size) {
        let parts = rows
            .iter()
            .filter(|r| r.depth == 1 && r.kind != Kind::Padding);
        assert_eq!(parts.count(), fields.len(), "{rows:?}");
        let mut at = 0;
        for row in rows.iter().filter(|r| r.depth == 1) {
            assert_eq!(row.at, at, "{rows:?}");
            at += row.count;
        }
        assert_eq!(at, rows[0].count);
    }
}

/// On every type of the stored sets that are built, over a few values: the tool's count is the proved
/// call's, and where there is one the map arrives at it.
#[test]
fn stored_types() {
    let mut work = Work::new();
    let mut met: BTreeMap<u16, usize> = BTreeMap::new();
    let (mut refused, mut sums) = (0, 0);
    for (set, types) in stored_sets() {
        let Ok(layout) = work.build_set(&set) else {
            continue;
        };
        let Ok(Block::Layout(trees)) = decode(&layout) else {
            panic!("a layout that was built has its parts");
        };
        for (ty, tree) in types.iter().zip(&trees.types) {
            for seed in 0..4u64 {
                let mut asked: Vec<String> =
                    tree.parameters.iter().map(|p| p.name.clone()).collect();
                names(&tree.root, &mut asked);
                let number = |i: u64| (i * 7 + seed * 3) % (2 + seed * 5);
                let mut held: Held = (0..).map(number).zip(asked).map(|(v, n)| (n, v)).collect();
                let spot = Spot::default();
                let entries = held.iter().map(|(name, number)| Value {
                    spot,
                    name: name.clone(),
                    number: *number,
                });
                let entries = entries.collect();
                let run = Block::Run(Run {
                    spot,
                    name: tree.name.clone(),
                    length: u64::MAX,
                    values: Values { spot, entries },
                });
                let answer = work.validate_run(&layout, &encode(&run).unwrap().bytes);
                held.entry("__buffer_size".to_string()).or_insert(u64::MAX);
                let count = eval::count(&trees.types, &tree.root, &held);
                assert_eq!(count, answer.as_ref().ok().copied(), "{tree:?} {held:?}");
                let map = map::draw(&types, &trees.types, &tree.name, &held);
                let Some(count) = count else {
                    assert!(map.is_none());
                    refused += 1;
                    continue;
                };
                let map = map.unwrap_or_else(|| panic!("{ty:?} {held:?}"));
                assert_eq!(map.rows[0].count, count);
                fits(&map.rows, ty);
                sums += map.rows.iter().filter(|r| r.kind == Kind::Sum).count();
                *met.entry(ty.shape.kind()).or_default() += 1;
            }
        }
    }
    // Each shape was met, variable ones among them, and refusals.
    assert_eq!(
        met.keys().copied().collect::<Vec<u16>>(),
        [1, 2, 3, 4, 5, 6, 7]
    );
    assert!(refused > 100 && sums > 10, "{refused} {sums} {met:?}");
}
