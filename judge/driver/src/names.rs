//! Names beyond ASCII for the stored list: each good and each bad text of
//! gen/texts.rs in a set, a layout, values and a run; limits in bytes; order.

use crate::call::Call;
use crate::data::*;
use crate::gen::texts::{BAD, GOOD};
use crate::write;

const E: &str = "\u{E9}";
const EURO: &str = "\u{20AC}";
const BUS: &str = "\u{1F68C}";

pub fn calls() -> Vec<Call> {
    let mut out = Vec::new();
    let good = GOOD.iter().map(|t| t.as_bytes());
    for text in good.chain(BAD) {
        out.extend(with_text(text));
        out.extend(with_text(&[b"a", text].concat()));
    }
    out.extend(lengths().iter().flat_map(|name| with_text(name.as_bytes())));
    out.extend(parts());
    out.extend(cut_in_two());
    out.extend(orders());
    out.extend(made_names());
    out
}

/// The text in place of a name of as many bytes, wherever that stands.
fn put(mut block: Vec<u8>, text: &[u8]) -> Vec<u8> {
    let held = hold(text.len());
    let places = 0..(block.len() + 1).saturating_sub(text.len());
    for at in places {
        if block[at..].starts_with(held.as_bytes()) {
            block[at..at + text.len()].copy_from_slice(text);
        }
    }
    block
}

/// A name of so many bytes that a text is put in place of.
fn hold(length: usize) -> String {
    "~".repeat(length)
}

/// The text as type, owner and path of a set, in a layout, in values and as
/// the asked name of a run.
fn with_text(text: &[u8]) -> Vec<Call> {
    let name = hold(text.len());
    let set = vec![union(&name, &name, &[&name])];
    let layout = |path: &str| write::layout(&[tree("L", path)]);
    let values = |name: &str| write::values(&[(name.to_string(), 5)]);
    let run = write::run(&Run {
        name: name.clone(),
        length: 9,
        values: Vec::new(),
    });
    vec![
        build(put(write::set(&set), text)),
        validate(put(layout(&name), text), put(values(&name), text)),
        validate(layout("a"), put(values(&name), text)),
        Call::Run {
            words: WORDS,
            layout: put(write::layout(&[tree(&name, "a")]), text),
            run: put(run, text),
        },
    ]
}

/// Names of 254 to 256 bytes.
fn lengths() -> Vec<String> {
    vec![
        E.repeat(127),
        E.repeat(127) + "x",
        E.repeat(128),
        EURO.repeat(85),
        EURO.repeat(85) + "x",
        BUS.repeat(63),
        BUS.repeat(63) + "xxx",
        BUS.repeat(64),
        "x".repeat(253) + E,
        "x".repeat(254) + E,
    ]
}

/// `.`, `::` and `element.` beside and between characters of more bytes.
fn parts() -> Vec<Call> {
    let count = |path: &str| Expr::Path(path.split('.').map(str::to_string).collect());
    let array = |owner: &str, stored: &str, asked: &str| {
        let kind = Kind::Array(false, Box::new(plain("e")), count(asked));
        build(write::set(&[Type {
            refs: vec![owned(owner, &[stored])],
            kind,
            ..union("T", "", &[])
        }]))
    };
    let jagged = union("T", E, &[&format!("element.{E}"), &format!("{E}.{BUS}")]);
    vec![
        array(E, &format!("{BUS}::{EURO}.{E}"), &format!("{EURO}.{E}")),
        array(E, &format!("{E}.{EURO}"), EURO),
        array(E, &format!("{E}::{E}"), E),
        array("array", &format!("element.{E}"), &format!("element.{E}")),
        build(write::set(&[jagged])),
    ]
}

/// A character cut across two names: neither is one, though together they are.
fn cut_in_two() -> Vec<Call> {
    let text = b"x\xC3\x02\x00\xA9x";
    let names = [format!("x{}", hold(1)), format!("{}x", hold(1))];
    let halves = |block: Vec<u8>| {
        let held = b"x~\x02\x00~x";
        let at = block.windows(6).position(|w| w == held).unwrap();
        [&block[..at], text, &block[at + 6..]].concat()
    };
    let [one, two] = &names;
    let size = Expr::Path(names.to_vec());
    let path = Type {
        kind: Kind::Array(false, Box::new(plain("e")), size),
        ..union("T", "o", &["n"])
    };
    let two_paths = union("T", "o", &[one, two]);
    let mut calls = tree("L", "a");
    let argument = Argument {
        at: 0,
        name: one.clone(),
        value: two.clone(),
    };
    calls.root.body = Body::Call("L".to_string(), vec![argument]);
    vec![
        build(halves(write::set(&[path]))),
        build(halves(write::set(&[two_paths]))),
        validate(halves(write::layout(&[calls])), write::values(&Vec::new())),
    ]
}

/// Names that ascend by one byte of a character, or do not.
fn orders() -> Vec<Call> {
    let pairs = [
        ["e\u{301}", E],
        [E, "\u{EA}"],
        ["\u{FFFF}", "\u{10000}"],
        ["~", "\u{80}"],
        ["\u{7FF}", "\u{800}"],
        ["\u{D7FF}", "\u{E000}"],
        [E, "\u{E9}a"],
    ];
    let mut out = Vec::new();
    for [low, high] in pairs {
        for names in [[low, high], [high, low], [high, high]] {
            let values = names.map(|n| (n.to_string(), 1)).to_vec();
            let layout = write::layout(&[tree("L", low)]);
            out.push(validate(layout, write::values(&values)));
            out.push(build(write::set(&[union("T", "o", &names)])));
            let types = names.map(|n| union(n, "o", &["n"])).to_vec();
            out.push(build(write::set(&types)));
        }
    }
    out
}

/// Owner and path together: 255 bytes, which can be written, and 256.
fn made_names() -> Vec<Call> {
    let owner = E.repeat(100);
    let path = E.repeat(27);
    let longer = format!("{path}x");
    let of = |path: &str| build(write::set(&[union("T", &owner, &[path])]));
    vec![
        of(&path),
        of(&longer),
        of(&EURO.repeat(18)),
        of(&BUS.repeat(14)),
    ]
}

fn build(set: Vec<u8>) -> Call {
    Call::Build {
        words: WORDS,
        room: LIMIT as u64,
        set,
    }
}

fn validate(layout: Vec<u8>, values: Vec<u8>) -> Call {
    Call::Validate {
        words: WORDS,
        length: 9,
        layout,
        name: b"L".to_vec(),
        values,
    }
}

fn owned(name: &str, paths: &[&str]) -> Owner {
    Owner {
        name: name.to_string(),
        paths: paths.iter().map(|p| p.to_string()).collect(),
    }
}

fn plain(name: &str) -> Type {
    Type {
        name: name.to_string(),
        size: Some(1),
        align: 1,
        refs: Vec::new(),
        kind: Kind::Primitive,
    }
}

/// A union without variants: each path of its owner is a parameter.
fn union(name: &str, owner: &str, paths: &[&str]) -> Type {
    Type {
        size: None,
        refs: vec![owned(owner, paths)],
        kind: Kind::Union(Vec::new()),
        ..plain(name)
    }
}

/// A type that takes as many bytes as the value of this name says.
fn tree(name: &str, path: &str) -> Tree {
    let asked = Body::Ref(path.to_string(), Some(path.to_string()));
    Tree {
        name: name.to_string(),
        align: 1,
        root: Node::new(1, asked),
        params: vec![Param {
            name: path.to_string(),
            text: Some(path.to_string()),
            derived: false,
        }],
    }
}

#[cfg(test)]
mod tests {
    use super::*;
    use crate::call::judge;

    fn numbers(calls: Vec<Call>) -> Vec<u8> {
        calls.iter().map(|c| judge(c).answer.number()).collect()
    }

    #[test]
    fn texts() {
        for text in GOOD {
            assert_eq!(numbers(with_text(text.as_bytes()))[..2], [0, 0], "{text}");
            assert!(!numbers(with_text(text.as_bytes())).contains(&3));
        }
        for text in BAD {
            assert_eq!(numbers(with_text(text)), [3; 4], "{text:02x?}");
        }
    }

    #[test]
    fn limits() {
        let longest = lengths().into_iter().map(|name| {
            let read = numbers(with_text(name.as_bytes()));
            (name.len(), read[3])
        });
        for (length, number) in longest {
            assert_eq!(number == 3, length > 255, "{length}");
        }
        assert_eq!(numbers(made_names()), [0, 17, 0, 17]);
        assert_eq!(numbers(cut_in_two()), [3; 3]);
        // An asked path that is its owner stands for the empty one.
        assert_eq!(numbers(parts()), [0, 0, 12, 0, 0]);
        assert_eq!(numbers(orders())[..9], [0, 0, 0, 6, 6, 0, 6, 6, 6]);
    }
}
