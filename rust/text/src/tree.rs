//! A layout drawn for reading: for each type its parameters, its count as a formula where that is
//! short, and its nodes, a line each. Only sums are drawn differently from the nodes: a builder adds
//! one field after the other, and all that are added stand side by side under one line. Where the
//! set is known, a node's line ends with the field or variant that it stands for.

use crate::lines::written;
use crate::model::*;
use crate::parts::{self, Part, Role};

/// Formulas longer than this are left out: that of a type, and that of a node.
const MOST_FOR_TYPE: usize = 100;
const MOST_FOR_NODE: usize = 60;

const ADD: u16 = 134;
const MULTIPLY: u16 = 136;

/// What the nodes 134 to 143 do, and their signs in formulas.
const TWO: [(&str, &str); 10] = [
    ("add", "+"),
    ("subtract", "-"),
    ("multiply", "*"),
    ("divide", "/"),
    ("remainder", "%"),
    ("bits and", "&"),
    ("bits or", "|"),
    ("bits exclusive or", "^"),
    ("shift left", "<<"),
    ("shift right", ">>"),
];

/// The drawing of a layout, with names from the types of the set that it was built from.
pub fn draw(layout: &Layout, set: &[Type]) -> String {
    let mut out = String::new();
    for tree in &layout.types {
        if !out.is_empty() {
            out.push('\n');
        }
        out += &format!("{}, alignment {}\n", written(&tree.name), tree.align);
        for parameter in &tree.parameters {
            out += &format!("  parameter {}\n", parameter_words(parameter));
        }
        let formula = formula(&tree.root);
        if formula.chars().count() <= MOST_FOR_TYPE {
            out += &format!("  count = {formula}\n");
        }
        let mut pen = Pen {
            out: &mut out,
            margin: "  ".to_string(),
        };
        let ty = set.iter().find(|ty| ty.name == tree.name);
        pen.part("", true, &parts::of_tree(&tree.root, ty));
    }
    out
}

fn parameter_words(parameter: &Parameter) -> String {
    let derived = if parameter.derived { ", derived" } else { "" };
    let description = parameter.description.as_ref();
    let text = description.map_or(String::new(), |d| format!(": {d}"));
    format!("{}{derived}{text}", written(&parameter.name))
}

/// Draws nodes behind a margin that shows which are still to come.
struct Pen<'o> {
    out: &'o mut String,
    margin: String,
}

impl Pen<'_> {
    /// A node and those below it. The label says what it is to the node above.
    fn part(&mut self, label: &str, last: bool, part: &Part) {
        let (corner, below) = match last {
            true => ("└─ ", "   "),
            false => ("├─ ", "│  "),
        };
        let words = words(part.node);
        let role = part.role.and_then(role_words);
        let role = role.map_or(String::new(), |role| format!("  [{role}]"));
        *self.out += &format!("{}{corner}{label}{words}{role}\n", self.margin);
        let length = self.margin.len();
        self.margin += below;
        self.below(part);
        self.margin.truncate(length);
    }

    fn below(&mut self, part: &Part) {
        let below = match part.node.op {
            Op::Two(ADD, ..) => added(part),
            _ => part.below.clone(),
        };
        for (i, child) in below.iter().enumerate() {
            let label = match &part.node.op {
                Op::Switch { cases, .. } => cases.get(i).map_or("any other: ".into(), case_label),
                Op::SumOverArray { .. } => "count: ".to_string(),
                _ => String::new(),
            };
            self.part(&label, i + 1 == below.len(), child);
        }
    }
}

/// All that a sum adds, with the sums at its left. What such a sum stands for, its parts stand for.
fn added<'a>(sum: &Part<'a>) -> Vec<Part<'a>> {
    let [left, right] = &sum.below[..] else {
        return sum.below.clone();
    };
    let mut all = match left.node.op {
        Op::Two(ADD, ..) => added(left),
        _ => vec![left.clone()],
    };
    if let Some(Role::Field { field, place }) = left.role {
        for (i, part) in all.iter_mut().enumerate() {
            let place = place.filter(|_| i == 0);
            part.role = Some(Role::Field { field, place });
        }
    }
    all.push(right.clone());
    all
}

/// The field, variant or element that a node stands for.
fn role_words(role: Role) -> Option<String> {
    match role {
        Role::Padding { place: Some(at) } => Some(format!("padding at {at}")),
        Role::Padding { place: None } => Some("padding".to_string()),
        Role::Field { field, place } => Some(field_words(field, place)),
        Role::Variant { name, .. } => Some(format!("variant {}", written(name))),
        Role::Element(_) => Some("element".to_string()),
        Role::Count => None,
    }
}

/// A field with the place where it is counted, if that is known, and its offset, if that is another.
fn field_words(field: &Field, place: Option<u64>) -> String {
    let mut words = format!("field {}", written(&field.name));
    if let Some(at) = place {
        words += &format!(" at {at}");
    }
    match field.offset {
        Some(offset) if place != Some(offset) => words + &format!(", drawn at {offset}"),
        _ => words,
    }
}

/// What stands left of the right operand: one node, or all that are added before it.
fn operands(kind: u16, left: &Node) -> Vec<&Node> {
    match &left.op {
        Op::Two(ADD, first, second) if kind == ADD => {
            let mut operands = operands(kind, first);
            operands.push(second);
            operands
        }
        _ => vec![left],
    }
}

/// A case with the parameters that it brings.
fn case_label(case: &Case) -> String {
    let names: Vec<String> = case.parameters.iter().map(|p| written(&p.name)).collect();
    match names.is_empty() {
        true => format!("{}: ", case.tag),
        false => format!("{} ({}): ", case.tag, names.join(", ")),
    }
}

/// What a node computes from those below it.
fn words(node: &Node) -> String {
    match &node.op {
        Op::ZeroSize => "no bytes".to_string(),
        Op::Const(value) => format!("constant {value}"),
        Op::FieldRef {
            path,
            parameter: Some(name),
        } => format!("value {}, path {}", written(name), written(path)),
        Op::FieldRef { path, .. } => format!("value {}", written(path)),
        Op::AlignUp(to, _) => format!("align up to {to}"),
        Op::Switch { tag, .. } => format!("switch on {}", written(tag)),
        Op::CallNested { name, arguments } => {
            let call = format!("call {}", written(name));
            match arguments.is_empty() {
                true => call,
                false => format!("{call} with {}", argument_words(arguments)),
            }
        }
        Op::Two(kind, left, _) => {
            let word = match operands(*kind, left).len() {
                1 => TWO[usize::from(*kind) - 134].0.to_string(),
                before => format!("sum of these {}", before + 1),
            };
            let formula = formula(node);
            match formula.chars().count() <= MOST_FOR_NODE {
                true => format!("{word}: {formula}"),
                false => word,
            }
        }
        Op::SumOverArray { element, field, .. } => {
            let (element, field) = (written(element), written(field));
            format!("sum of the elements {element} of {field}, always refused (24)")
        }
    }
}

fn argument_words(arguments: &[Argument]) -> String {
    let one = |a: &Argument| match a.name == a.value {
        true => written(&a.name),
        false => format!("{} from {}", written(&a.name), written(&a.value)),
    };
    let shown: Vec<String> = arguments.iter().map(one).collect();
    shown.join(", ")
}

/// The count of a node as a formula. Aligning to 0 or 1 changes nothing and is not shown.
fn formula(node: &Node) -> String {
    match &node.op {
        Op::ZeroSize => "0".to_string(),
        Op::Const(value) => value.to_string(),
        Op::FieldRef { path, parameter } => written(parameter.as_ref().unwrap_or(path)),
        Op::AlignUp(0 | 1, node) => formula(node),
        Op::AlignUp(to, node) => format!("up({}, {to})", formula(node)),
        Op::Switch {
            tag,
            cases,
            default,
        } => {
            let case = |c: &Case| format!("{}: {}", c.tag, formula(&c.node));
            let mut parts: Vec<String> = cases.iter().map(case).collect();
            parts.extend(default.iter().map(|n| format!("any: {}", formula(n))));
            format!("switch({}; {})", written(tag), parts.join(", "))
        }
        Op::CallNested { name, .. } => format!("count({})", written(name)),
        Op::Two(kind, left, right) => {
            let sign = TWO[usize::from(*kind) - 134].1;
            let left = operand(left, matches!(*kind, ADD | MULTIPLY), *kind);
            let right = operand(right, false, *kind);
            format!("{left} {sign} {right}")
        }
        Op::SumOverArray { field, .. } => format!("sum({})", written(field)),
    }
}

/// An operand has parentheses if it is an operation, save a sum at the left of a sum and a product
/// at the left of a product.
fn operand(node: &Node, chain: bool, kind: u16) -> String {
    match inner(node).op {
        Op::Two(below, ..) if !(chain && below == kind) => format!("({})", formula(node)),
        _ => formula(node),
    }
}

/// The node behind alignments that change nothing.
fn inner(node: &Node) -> &Node {
    match &node.op {
        Op::AlignUp(0 | 1, node) => inner(node),
        _ => node,
    }
}
