//! Texts and blocks that nobody would write: every one must be answered by a message or by blocks.

mod common;

use ciztarmo_text::commands::{self, Asked};
use common::{block, wrong};

fn says(text: impl AsRef<[u8]>, message: &str) {
    assert_eq!(wrong(text), format!("t:{message}"));
}

fn lines(count: usize, line: impl Fn(usize) -> String) -> String {
    (0..count).map(line).collect()
}

/// Arrays in arrays.
fn deep_set(deep: usize) -> String {
    let array = |i: usize| format!("{}element array a variable count n\n", "  ".repeat(2 + i));
    let last = format!("{}element primitive b size 1\n", "  ".repeat(2 + deep));
    format!(
        "set\n  array A variable count n\n{}{last}",
        lines(deep, array)
    )
}

/// Additions in additions, on one side.
fn deep_layout(deep: usize) -> String {
    let add = |i: usize| format!("{}add-checked\n", "  ".repeat(2 + i));
    let zero = |i: usize| format!("{}zero-size\n", "  ".repeat(2 + deep - i));
    let zeros = zero(0) + &lines(deep, zero);
    format!("layout\n  type T\n{}{zeros}", lines(deep, add))
}

/// Switches in switches: a case and a node to each.
fn deep_switch(deep: usize) -> String {
    let step = |i: usize| {
        let (node, case) = ("  ".repeat(2 + 2 * i), "  ".repeat(3 + 2 * i));
        format!("{node}switch k\n{case}case 1\n")
    };
    let last = format!("{}zero-size\n", "  ".repeat(2 + 2 * deep));
    format!("layout\n  type T\n{}{last}", lines(deep, step))
}

#[test]
fn deep_lines() {
    let says_deep = |text: String, at: usize| {
        let column = 2 * 301 + 1;
        says(text, &format!("{at}:{column}: nested more than 300 deep"));
    };
    says_deep(deep_set(1000), 302);
    says_deep(deep_layout(1000), 302);
    says_deep(deep_switch(1000), 302);
    // At the limit the text is read and written, and only the proved reader refuses it.
    for text in [deep_set(298), deep_layout(298), deep_switch(149)] {
        let done = commands::blocks("t", text.as_bytes(), true).unwrap();
        assert_eq!(done.remarks.len(), 1, "{:?}", done.remarks);
        assert!(
            done.remarks[0].contains(": refused 4: "),
            "{:?}",
            done.remarks
        );
    }
}

#[test]
fn deep_expressions() {
    let count = |expr: String| {
        let element = "    element primitive b size 1\n";
        format!("set\n  array A variable count {expr}\n{element}")
    };
    // The line stands one deep already.
    for open in ["(", "~(", "popcount(", "n + ("] {
        let deep = |d: usize| count(format!("{}n{}", open.repeat(d), ")".repeat(d)));
        let column = 26 + 300 * open.len();
        says(
            deep(100_000),
            &format!("2:{column}: nested more than 300 deep"),
        );
        says(deep(300), &format!("2:{column}: nested more than 300 deep"));
        let done = commands::blocks("t", deep(299).as_bytes(), true).unwrap();
        assert_eq!(done.remarks.is_empty(), open == "(");
    }
    says(
        count("(".repeat(100_000)),
        "2:326: nested more than 300 deep",
    );
    let meet = "two operators meet: put parentheses around one of them";
    says(count("~".repeat(100_000)), &format!("2:27: {meet}"));
    says(count("-".repeat(100_000)), &format!("2:27: {meet}"));
}

/// A deep line with a deep expression on it: both count together.
#[test]
fn deep_in_both_ways() {
    let both = |lines: usize, expr: usize| {
        let mut text = deep_set(lines - 2);
        let last = text.lines().last().unwrap().len() + 1;
        text.truncate(text.len() - last);
        let deep = format!("{}n{}", "~(".repeat(expr), ")".repeat(expr));
        let indent = "  ".repeat(lines);
        text += &format!("{indent}element array z variable count {deep}\n");
        text + &format!("{indent}  element primitive b size 1\n")
    };
    says(both(150, 151), "151:634: nested more than 300 deep");
    let done = commands::blocks("t", both(150, 150).as_bytes(), true).unwrap();
    assert!(
        done.remarks[0].contains(": refused 4: "),
        "{:?}",
        done.remarks
    );
    let shown = commands::show("b", &done.output, true).unwrap();
    let again = commands::blocks("t", &shown.output, true).unwrap();
    assert!(again.output == done.output);
    says(both(300, 300), "301:634: nested more than 300 deep");
}

#[test]
fn deep_blocks() {
    let mut expr = block(65, &[0, 0]);
    for _ in 0..5_000 {
        expr = block(79, &expr);
    }
    let head = [&[0, 0, 1][..], &[0; 8], &block(32, &[0, 0])].concat();
    let set = block(
        36,
        &[
            &[1, 0][..],
            &block(4, &[&head[..], &expr, &[0, 0]].concat()),
        ]
        .concat(),
    );
    let checked = commands::show("b", &set, false).unwrap_err();
    assert!(checked.contains(": refused 4: "), "{checked}");
    let unchecked = commands::show("b", &set, true).unwrap_err();
    assert!(
        unchecked.ends_with("blocks nest more than 602 deep"),
        "{unchecked}"
    );
}

#[test]
fn long_lines() {
    let digits = "1".repeat(1_000_000);
    let cut = "1".repeat(40);
    says(
        format!("run T length {digits}\n"),
        &format!("1:14: the number {cut}.. is not below 2^64"),
    );
    says(
        format!("run T length 1{}x\n", " ".repeat(1_000_000)),
        "1:1000015: `x` is more than belongs here",
    );
    says(
        " ".repeat(1_000_000) + "x",
        "1:1000001: nested more than 300 deep",
    );
    says(
        "\n".repeat(1_000_000) + "x",
        "1000001:1: `x` where one of `set`, `layout`, `values`, `run` must stand",
    );
    says(
        "#".repeat(1_000_000),
        "1:1: no block stands in this text (set, layout, values or run)",
    );
    says(
        "\"".repeat(99_999),
        "1:1: a quoted name where one of `set`, `layout`, `values`, `run` must stand",
    );
}

/// A small generator of numbers (xorshift), so that each run tries the same inputs.
struct Numbers(u64);

impl Numbers {
    fn next(&mut self, below: usize) -> usize {
        self.0 ^= self.0 << 13;
        self.0 ^= self.0 >> 7;
        self.0 ^= self.0 << 17;
        (self.0 % below as u64) as usize
    }
}

/// Garbage is answered, whatever command it is given to.
#[test]
fn garbage() {
    let mut numbers = Numbers(7);
    for round in 0..600 {
        let length = numbers.next(200);
        let most = [256, 128, 2][round % 3];
        let bytes: Vec<u8> = (0..length).map(|_| numbers.next(most) as u8).collect();
        answered(&bytes, "");
    }
}

/// Every command, of a type where one is asked for.
fn answered(bytes: &[u8], name: &str) {
    for unchecked in [false, true] {
        let _ = commands::blocks("t", bytes, unchecked);
        let _ = commands::show("t", bytes, unchecked);
    }
    let _ = commands::tree("t", bytes);
    let _ = commands::lengths("t", bytes);
    let _ = commands::check("t", bytes);
    let _ = commands::layout("t", bytes);
    let _ = commands::parameters("t", bytes, name);
    for svg in [false, true] {
        let asked = Asked {
            name: name.to_string(),
            svg,
            ..Asked::default()
        };
        let _ = commands::map("t", bytes, &asked);
    }
}

/// The largest numbers in every place of a set that has one: what is drawn, warned of or refused is
/// computed without a fault.
#[test]
fn largest_numbers() {
    let set = |numbers: [u64; 6]| {
        let [size, align, offset, tag, count, value] = numbers;
        format!(
            "set
  struct T variable align {align}
    owner f paths n
    owner l paths n
    field a at {offset} primitive p size {size} align {align}
    field b at 1 struct s size {size}
      field x at {offset} primitive p size {size}
      field y array y size {size} count {count}u64
        element primitive p size {size} align {align}
    field u sized-union u variable align {align}
      variant v size {tag} struct s size {size}
        field z at {offset} primitive p size {size}
    field l array l variable count n * {count}u64
      element primitive p size {size} align {align}
    field f struct s variable align {align}
      field x at {offset} primitive p size {size}
run T length {value}
  value f.n {value}
  value l.n {value}
  value u.payload_size {tag}
"
        )
    };
    let mut numbers = Numbers(3);
    let mut drawn = 0;
    for _ in 0..500 {
        let few = [0, 1, 2, 7, 1 << 32, 1 << 63, u64::MAX - 1, u64::MAX];
        let text = set([(); 6].map(|_| few[numbers.next(few.len())]));
        let _ = commands::check("t", text.as_bytes());
        let _ = commands::tree("t", text.as_bytes());
        for svg in [false, true] {
            let asked = Asked {
                name: "T".to_string(),
                svg,
                ..Asked::default()
            };
            match commands::map("t", text.as_bytes(), &asked) {
                Ok(_) => drawn += 1,
                Err(told) => assert!(!told.contains("does not arrive"), "{told}\n{text}"),
            }
        }
    }
    assert!(drawn > 10, "{drawn}");
}

/// Texts and blocks of the examples with a few bytes changed are answered, and what is still
/// accepted as text keeps the law.
#[test]
fn damaged_examples() {
    let mut numbers = Numbers(11);
    let mut accepted = 0;
    for (file, name) in [
        ("trip.txt", "Trip"),
        ("zones.txt", "FareBlock"),
        ("transfers.txt", "Transfer"),
        ("trip", "Trip"),
    ] {
        let whole = common::read(&format!("examples/{file}"));
        for _ in 0..300 {
            let mut bytes = whole.clone();
            for _ in 0..1 + numbers.next(2) {
                let at = numbers.next(bytes.len());
                match numbers.next(3) {
                    0 => bytes[at] = b" \n#\"0a.(\0"[numbers.next(9)],
                    1 => drop(bytes.remove(at)),
                    _ => bytes.swap(at, whole.len() - 3 - at.min(whole.len() - 3)),
                }
            }
            answered(&bytes, name);
            if let Ok(done) = commands::blocks("t", &bytes, false) {
                let text = common::show(&done.output);
                assert_eq!(common::blocks(&text), done.output);
                accepted += 1;
            }
        }
    }
    assert!(accepted > 100, "{accepted}");
}
