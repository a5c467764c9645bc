//! Lists of many long names, and the layouts that ask for them.

use super::inputs::Asked;
use crate::data::*;
use crate::prng::Rng;
use crate::write;

/// How many names a list has.
pub const MANY: usize = 500;

/// What the names are written with.
const PATH: &str = "depot.line.trip.leg.stop.door.count.";

/// The kind of a node that adds.
const ADD: u16 = 134;

/// How many cases a switch has.
const CASES: usize = 64;

/// The asked type's name.
const RECORD: &str = "Record";

/// In what the names of a list differ.
#[derive(Clone, Copy, PartialEq)]
pub enum Shape {
    /// Of one length, with another end each.
    Prefix,
    /// Of one length, with another beginning each.
    Suffix,
    /// Of one length, with another middle each.
    Middle,
    /// Of as many lengths as there is room for, each beginning like all longer
    /// ones up to its last byte.
    Spread,
}

pub const SHAPES: [Shape; 4] = [Shape::Prefix, Shape::Suffix, Shape::Middle, Shape::Spread];

impl Shape {
    pub fn what(self) -> &'static str {
        match self {
            Shape::Prefix => "common prefix",
            Shape::Suffix => "common suffix",
            Shape::Middle => "differ in the middle",
            Shape::Spread => "many lengths",
        }
    }
}

/// Bytes of the names: of each where all have one length; else each length up
/// to `top` twice, and `rest` for those that are left.
pub struct Bytes {
    pub one: usize,
    pub top: usize,
    pub rest: usize,
}

/// As long as a block of 65,536 bytes has room for.
pub const LONGEST: Bytes = Bytes {
    one: 121,
    top: 240,
    rest: 134,
};

/// As long as a layout of 65,536 bytes has room for with a field for each.
pub const ALL_ASKED: Bytes = Bytes {
    one: 98,
    top: 195,
    rest: 98,
};

/// As long as a layout has room for where each is asked through a call.
pub const ALL_CALLED: Bytes = Bytes {
    one: 12,
    top: 0,
    rest: 0,
};

/// Names in order, and one that is not among them.
pub struct List {
    pub names: Vec<String>,
    pub absent: String,
}

pub fn list(shape: Shape, bytes: &Bytes) -> List {
    let mut names: Vec<String> = (0..MANY).map(|i| name(shape, bytes, i)).collect();
    names.sort();
    List {
        names,
        absent: name(shape, bytes, MANY),
    }
}

/// The name of a number up to `MANY`.
fn name(shape: Shape, bytes: &Bytes, i: usize) -> String {
    let number = format!("{i:03}");
    let rest = bytes.one - number.len();
    match shape {
        Shape::Prefix => format!("{}{number}", path(rest)),
        Shape::Suffix => format!("{number}{}", path(rest)),
        Shape::Middle => {
            let front = rest / 2;
            format!("{}{number}{}", path(front), path(rest - front))
        }
        Shape::Spread if i < 2 * bytes.top => {
            let letter = ["A", "B"][i % 2];
            format!("{}{letter}", path(i / 2))
        }
        Shape::Spread => format!("{}{number}", path(bytes.rest - number.len())),
    }
}

/// The first bytes of a long path.
fn path(bytes: usize) -> String {
    PATH.chars().cycle().take(bytes).collect()
}

/// 512 names of four bytes.
pub fn short_names() -> List {
    List {
        names: (0..512).map(|i| format!("a{i:03}")).collect(),
        absent: String::new(),
    }
}

/// The first names of a list.
pub fn first(many: usize, list: List) -> List {
    let names = list.names[..many].to_vec();
    List { names, ..list }
}

/// In a mixed order, the same each time.
pub fn shuffled(names: &[String]) -> Vec<String> {
    let mut out = names.to_vec();
    let mut rng = Rng::new(3, 0);
    for i in (1..out.len()).rev() {
        out.swap(i, rng.below(i + 1));
    }
    out
}

/// A record of a field for each of these names, asked with a list's values.
pub fn asked(list: &List, fields: &[String]) -> Asked {
    let record = tree(RECORD, sum(fields.iter().map(field).collect()), &[]);
    asked_of(list, fields, &[record])
}

/// The same through calls of eight types, each with an eighth of the fields as
/// arguments under their own names, and parameters listed as in a layout that
/// was built; of the fields as many as a layout has room for, with their number.
pub fn asked_through_calls(list: &List, fields: &[String]) -> (usize, Asked) {
    let made = (1..=fields.len()).rev().map(|many| {
        let asked = asked_of(list, &fields[..many], &through_calls(&fields[..many]));
        (many, asked)
    });
    let mut made = made.skip_while(|(_, asked)| asked.layout.len() > LIMIT);
    made.next().expect("a layout has room for a field")
}

fn through_calls(fields: &[String]) -> Layout {
    let eighths: Vec<&[String]> = fields.chunks(fields.len().div_ceil(8)).collect();
    let named = |i: usize| format!("Part{i}");
    let call = |(i, part): (usize, &&[String])| {
        let arguments = part.iter().map(argument).collect();
        Node::new(1, Body::Call(named(i), arguments))
    };
    let part = |(i, part): (usize, &&[String])| {
        let root = sum(part.iter().map(field).collect());
        tree(&named(i), root, part)
    };
    let calls = eighths.iter().enumerate().map(call).collect();
    let mut out: Layout = eighths.iter().enumerate().map(part).collect();
    out.push(tree(RECORD, sum(calls), fields));
    out
}

/// A record that asks for three names, however many its tree has: a switch of
/// 64 cases with two of these names each, of which the list's 33rd value takes
/// the 33rd.
pub fn asked_by_a_case(list: &List, fields: &[String]) -> Asked {
    let case = |(tag, pair): (u64, &[String])| Case {
        tag,
        node: sum(pair.iter().map(field).collect()),
        params: Vec::new(),
    };
    let cases = (1..).zip(fields.chunks(2)).map(case).take(CASES).collect();
    let root = Node::new(1, Body::Switch(list.names[CASES / 2].clone(), cases, None));
    asked_of(list, &list.names, &[tree(RECORD, root, &[])])
}

/// The values of a list are 1, 2 and so on, and the buffer holds the fields.
fn asked_of(list: &List, fields: &[String], layout: &[Tree]) -> Asked {
    let numbered = list.names.iter().cloned().zip(1..);
    let values: Values = numbered.collect();
    let value = |name: &String| match list.names.binary_search(name) {
        Ok(place) => values[place].1,
        Err(_) => 0,
    };
    Asked {
        layout: write::layout(layout),
        name: RECORD.to_string(),
        length: fields.iter().map(value).sum(),
        values,
    }
}

fn tree(name: &str, root: Node, parameters: &[String]) -> Tree {
    Tree {
        name: name.to_string(),
        align: 1,
        root,
        params: parameters.iter().map(parameter).collect(),
    }
}

fn field(name: &String) -> Node {
    Node::new(1, Body::Ref(name.clone(), None))
}

fn parameter(name: &String) -> Param {
    Param {
        name: name.clone(),
        text: None,
        derived: false,
    }
}

fn argument(name: &String) -> Argument {
    Argument {
        at: 0,
        name: name.clone(),
        value: name.clone(),
    }
}

/// The sum of some nodes, halves added to halves, so that few blocks are open
/// together.
fn sum(mut nodes: Vec<Node>) -> Node {
    if nodes.len() == 1 {
        return nodes.remove(0);
    }
    let right = nodes.split_off(nodes.len() / 2);
    let (left, right) = (Box::new(sum(nodes)), Box::new(sum(right)));
    Node::new(1, Body::Two(ADD, left, right))
}
