//! Long lists for the stored list: sixty names asked of 256 or 257 values, from
//! where on names are found by an index.

use crate::call::Call;
use crate::data::*;
use crate::gen::lists::VALUES;
use crate::rules::{build, eval};
use crate::write;

pub fn calls() -> Vec<Call> {
    let mut out = validations();
    out.extend(runs());
    out.push(lengths());
    out
}

/// The `i`th name of a list: those with even numbers have one length.
fn name(i: usize) -> String {
    let more = if i % 2 == 0 { 0 } else { i % 16 };
    format!("f.{i:03}") + &"x".repeat(more)
}

/// The names that the records ask for, from everywhere in a list, the last
/// among the first.
fn asked() -> Vec<String> {
    (0..60).map(|i| name((i * 49 + 255) % 256)).collect()
}

/// So many values.
fn list(many: usize, by: u64) -> Values {
    let value = |i: usize| (name(i), by * (i as u64 + 1));
    (0..many).map(value).collect()
}

fn without(mut list: Values, name: &str) -> Values {
    list.retain(|(listed, _)| listed != name);
    list
}

fn sum(left: Node, right: Node) -> Node {
    Node::new(1, Body::Two(134, Box::new(left), Box::new(right)))
}

/// A record that asks for names one behind the other, and then for the rest.
fn fields(names: &[String], rest: Node) -> Node {
    let field = |name: &String| Node::new(1, Body::Ref(name.clone(), None));
    let nodes = names.iter().map(field).chain([rest]);
    nodes.reduce(sum).unwrap()
}

fn tree(name: &str, root: Node, params: &[String]) -> Tree {
    let param = |name: &String| Param {
        name: name.clone(),
        text: None,
        derived: false,
    };
    Tree {
        name: name.to_string(),
        align: 1,
        root,
        params: params.iter().map(param).collect(),
    }
}

/// All as fields.
fn plain() -> Layout {
    let end = Node::new(1, Body::Const(1));
    vec![tree("L", fields(&asked(), end), &[])]
}

/// The last as a tag that has no case.
fn tagged() -> Layout {
    let asked = asked();
    let (last, others) = asked.split_last().unwrap();
    let switch = Node::new(1, Body::Switch(last.clone(), Vec::new(), None));
    vec![tree("L", fields(others, switch), &[])]
}

/// Fifty as fields, six as arguments, four handed down through two calls.
fn called() -> Layout {
    let asked = asked();
    let argument = |i: usize| Argument {
        at: 0,
        name: format!("a{i}"),
        value: asked[i].clone(),
    };
    let call = |name: &str, arguments| Node::new(1, Body::Call(name.to_string(), arguments));
    let arguments = (50..56).map(argument).collect();
    let mut held = asked[56..].to_vec();
    held.extend((50..56).map(|i| format!("a{i}")));
    let end = Node::new(1, Body::Zero);
    vec![
        tree("L", fields(&asked[..50], call("M", arguments)), &[]),
        tree("M", call("N", Vec::new()), &held),
        tree("N", fields(&held, end), &held),
    ]
}

fn count(layout: &Layout, list: &Values) -> u64 {
    eval::required(layout, b"L", u64::MAX, list).unwrap_or(0)
}

fn validate(layout: &Layout, list: &Values, length: u64) -> Call {
    Call::Validate {
        words: WORDS,
        length,
        layout: write::layout(layout),
        name: b"L".to_vec(),
        values: write::values(list),
    }
}

/// Accepted, 25, 21 and 22; through calls accepted and 21.
fn validations() -> Vec<Call> {
    let (short, long) = (list(VALUES, 3), list(VALUES + 1, 5));
    let absent = without(long.clone(), &asked()[59]);
    let required = count(&plain(), &short);
    vec![
        validate(&plain(), &short, required),
        validate(&plain(), &short, required - 1),
        validate(&plain(), &absent, 100_000),
        validate(&tagged(), &long, 100_000),
        validate(&called(), &long, count(&called(), &long)),
        validate(&called(), &absent, 100_000),
    ]
}

/// Runs over one layout, each with a list of its own: accepted, 21, 25.
fn runs() -> Vec<Call> {
    let layout = write::layout(&plain());
    let run = |values: Values, length: u64| Call::Run {
        words: WORDS,
        layout: layout.clone(),
        run: write::run(&Run {
            name: "L".to_string(),
            length,
            values,
        }),
    };
    let long = list(VALUES + 1, 7);
    vec![
        run(list(VALUES, 2), 40_000),
        run(without(long.clone(), &asked()[59]), 40_000),
        run(long, 40_000),
    ]
}

/// Two runs of a set whose struct has an array of each size that is asked for:
/// the second list has other numbers, and one name less.
fn lengths() -> Call {
    let asked = asked();
    let paths: Vec<String> = asked.iter().map(|name| name[2..].to_string()).collect();
    let ty = |size, kind| Type {
        name: "L".to_string(),
        size,
        align: 1,
        refs: Vec::new(),
        kind,
    };
    let array = |path: &String| {
        let element = Box::new(ty(Some(1), Kind::Primitive));
        let size = Expr::Path(vec![path.clone()]);
        Field {
            name: "f".to_string(),
            offset: None,
            ty: ty(None, Kind::Array(false, element, size)),
        }
    };
    let mut record = ty(None, Kind::Struct(paths.iter().map(array).collect()));
    let mut ascending = paths.clone();
    ascending.sort();
    record.refs.push(Owner {
        name: "f".to_string(),
        paths: ascending,
    });
    let set = write::set(&[record]);
    debug_assert!(build::build(&set, WORDS, LIMIT as u64).is_ok());
    let run = |values: Values| {
        write::run(&Run {
            name: "L".to_string(),
            length: 40_000,
            values,
        })
    };
    let second = without(list(VALUES + 1, 4), &asked[58]);
    Call::Lengths([set, run(list(VALUES, 2)), run(second)].concat())
}

#[cfg(test)]
mod tests {
    use super::*;
    use crate::call::{judge, Answer};
    use crate::compare::asks_index;

    #[test]
    fn answers() {
        let numbers: Vec<u8> = calls().iter().map(|c| judge(c).answer.number()).collect();
        assert_eq!(numbers, [0, 25, 21, 22, 0, 21, 0, 21, 25, 0]);
        assert!(calls().iter().all(asks_index));
        let Answer::Lines(lines) = judge(&lengths()).answer else {
            panic!("lines");
        };
        assert_eq!(lines, "0 0 7828 78\n1 21 0 0\n");
    }
}
