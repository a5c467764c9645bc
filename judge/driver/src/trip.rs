//! The worked example of document 01 (M13), and M1 to M12.

use crate::call::{judge, Answer, Call};
use crate::data::*;
use crate::rules::{build, eval, lengths};
use crate::text::hex;
use crate::write;

const LINES: &str = "0 0 13 100\n1 0 1 12\n2 25 13 0\n3 21 0 0\n";

fn constant(name: &str, size: u64) -> Type {
    Type {
        name: name.to_string(),
        size: Some(size),
        align: 1,
        refs: Vec::new(),
        kind: Kind::Primitive,
    }
}

/// The names of nested types are not given by document 01.
pub fn set() -> Set {
    let n = Expr::Path(vec!["n".to_string()]);
    let legs = Type {
        size: None,
        kind: Kind::Array(false, Box::new(constant("Trip::legs::element", 4)), n),
        ..constant("Trip::legs", 0)
    };
    let fields = vec![
        Field {
            name: "n".to_string(),
            offset: Some(0),
            ty: constant("Trip::n", 1),
        },
        Field {
            name: "legs".to_string(),
            offset: None,
            ty: legs,
        },
    ];
    vec![Type {
        size: None,
        refs: vec![Owner {
            name: "legs".to_string(),
            paths: vec!["n".to_string()],
        }],
        kind: Kind::Struct(fields),
        ..constant("Trip", 0)
    }]
}

pub fn runs() -> Vec<Run> {
    let run = |n: Option<u64>, length| Run {
        name: "Trip".to_string(),
        length,
        values: n.map(|n| ("legs.n".to_string(), n)).into_iter().collect(),
    };
    vec![
        run(Some(3), 13),
        run(Some(0), 8),
        run(Some(3), 12),
        run(None, 13),
    ]
}

pub fn input() -> Vec<u8> {
    let mut out = write::set(&set());
    runs().iter().for_each(|r| out.extend(write::run(r)));
    out
}

/// M13 by the rules, and each run of it by the Rust.
pub fn trip() -> Result<(), String> {
    let set = write::set(&set());
    println!("trip set {}", hex(&set));
    let v = judge(&Call::Build {
        words: WORDS,
        room: LIMIT as u64,
        set,
    });
    let Answer::Layout(layout) = v.answer else {
        return Err("the trip set is refused".to_string());
    };
    println!("trip layout {}", hex(&layout));
    if !v.confirmed {
        return Err("the Rust builds another trip layout".to_string());
    }
    for run in runs() {
        println!("trip run {}", hex(&write::run(&run)));
        confirmed(&layout, &run)?;
    }
    let lines = lengths::lengths(&input());
    print!("{lines}");
    if lines != LINES {
        return Err("the four lines are not document 01's".to_string());
    }
    examples()?;
    println!("M1 to M13 hold");
    Ok(())
}

fn confirmed(layout: &[u8], run: &Run) -> Result<(), String> {
    let v = judge(&Call::Validate {
        words: WORDS,
        length: run.length,
        layout: layout.to_vec(),
        name: run.name.as_bytes().to_vec(),
        values: write::values(&run.values),
    });
    match v.confirmed {
        true => Ok(()),
        false => Err(format!("trip run {run:?}: {:?}", v.differs)),
    }
}

fn examples() -> Result<(), String> {
    let top = u64::MAX;
    let table = [
        ("M1", eval::align_up(7, 0), Ok(7)),
        ("M1", eval::align_up(7, 1), Ok(7)),
        ("M2", eval::align_up(9, 8), Ok(16)),
        ("M2", eval::align_up(8, 8), Ok(8)),
        ("M3", eval::align_up(top, 8), Err(26)),
        ("M4", eval::align_up(top - 7, 8), Ok(top - 7)),
        ("M5", eval::arithmetic(135, 3, 4), Err(23)),
        ("M5", eval::arithmetic(135, 4, 4), Ok(0)),
        ("M6", eval::arithmetic(142, 1, 63), Ok(1 << 63)),
        ("M6", eval::arithmetic(142, 1, 64), Err(26)),
        ("M6", eval::arithmetic(142, 1, 128), Err(23)),
        ("M6", eval::arithmetic(142, 0, 127), Ok(0)),
        ("M7", eval::arithmetic(143, 5, 64), Ok(0)),
        ("M7", eval::arithmetic(143, 5, 128), Err(23)),
    ];
    for (name, got, wanted) in table {
        if got != wanted {
            return Err(format!("{name}: {got:?}"));
        }
    }
    name_examples()
}

/// M8 is shown on a switch with two cases of tag 5.
fn name_examples() -> Result<(), String> {
    let names = [
        ("a", "a.b", "a.b", "b"),
        ("a", "ab", "a.ab", "ab"),
        ("a", "a", "a", ""),
    ];
    for (owner, path, canonical, normal) in names {
        if build::canonical(owner, path) != canonical || build::normal(owner, path) != normal {
            return Err(format!("M9 to M11: owner {owner}, path {path}"));
        }
    }
    let alias = build::alias("p::q.r", build::normal("o", "p::q.r"));
    if alias.as_deref() != Some("q.r") {
        return Err("M12".to_string());
    }
    first_of_two()
}

fn first_of_two() -> Result<(), String> {
    let case = |n| Case {
        tag: 5,
        node: Node::new(1, Body::Const(n)),
        params: Vec::new(),
    };
    let switch = Body::Switch("t".to_string(), vec![case(1), case(2)], None);
    let tree = Tree {
        name: "S".to_string(),
        align: 1,
        root: Node::new(1, switch),
        params: Vec::new(),
    };
    let got = eval::required(&vec![tree], b"S", 9, &vec![("t".to_string(), 5)]);
    match got {
        Ok(1) => Ok(()),
        _ => Err(format!("M8: {got:?}")),
    }
}
