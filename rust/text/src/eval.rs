//! The count of a node over values, for drawings. The proved call decides what a record's count is;
//! a drawing is shown only if its parts arrive at that count.

use crate::model::*;
use crate::parts::aligned;
use std::collections::BTreeMap;

/// The values that a type's nodes see.
pub type Held = BTreeMap<String, u64>;

/// The count of a node of a layout's type; nothing where the proved call would refuse, or at a 17th
/// open call.
pub fn count(types: &[TypeTree], node: &Node, held: &Held) -> Option<u64> {
    inside(types, node, held, 16)
}

fn inside(types: &[TypeTree], node: &Node, held: &Held, calls: usize) -> Option<u64> {
    match &node.op {
        Op::ZeroSize => Some(0),
        Op::Const(value) => Some(*value),
        Op::FieldRef { path, parameter } => {
            let name = parameter.as_ref().unwrap_or(path);
            held.get(name).copied()
        }
        Op::AlignUp(to, node) => aligned(inside(types, node, held, calls)?, *to),
        Op::Switch { .. } => inside(types, chosen(node, held)?.1, held, calls),
        Op::CallNested { .. } => {
            let (called, handed) = call(types, node, held)?;
            inside(types, &called.root, &handed, calls.checked_sub(1)?)
        }
        Op::Two(kind, left, right) => {
            let left = inside(types, left, held, calls)?;
            let right = inside(types, right, held, calls)?;
            operation(*kind, left, right)
        }
        Op::SumOverArray { .. } => None,
    }
}

fn operation(kind: u16, left: u64, right: u64) -> Option<u64> {
    match kind {
        134 => left.checked_add(right),
        135 => left.checked_sub(right),
        136 => left.checked_mul(right),
        137 => left.checked_div(right),
        138 => left.checked_rem(right),
        139 => Some(left & right),
        140 => Some(left | right),
        141 => Some(left ^ right),
        142 if right < 128 && left == 0 => Some(0),
        142 if right <= u64::from(left.leading_zeros()) => Some(left << right),
        143 if right < 64 => Some(left >> right),
        143 if right < 128 => Some(0),
        _ => None,
    }
}

/// The case that a switch takes: its place, none for the default, and its node.
pub fn chosen<'n>(node: &'n Node, held: &Held) -> Option<(Option<usize>, &'n Node)> {
    let Op::Switch {
        tag,
        cases,
        default,
    } = &node.op
    else {
        return None;
    };
    let value = held.get(tag)?;
    match cases.iter().position(|case| case.tag == *value) {
        Some(place) => Some((Some(place), &cases[place].node)),
        None => Some((None, default.as_deref()?)),
    }
}

/// The type that a node calls, and what it is handed: the arguments, and what it lists besides.
pub fn call<'t>(types: &'t [TypeTree], node: &Node, held: &Held) -> Option<(&'t TypeTree, Held)> {
    let Op::CallNested { name, arguments } = &node.op else {
        return None;
    };
    let mut handed = Held::new();
    for argument in arguments {
        handed.insert(argument.name.clone(), *held.get(&argument.value)?);
    }
    let called = types.iter().find(|t| t.name == *name)?;
    for parameter in &called.parameters {
        if let Some(value) = held.get(&parameter.name) {
            handed.entry(parameter.name.clone()).or_insert(*value);
        }
    }
    Some((called, handed))
}
