//! The nodes of a type beside the parts of the set that they were built from: fields, variants,
//! elements, counts. A layout alone has no such names, and its parts have no roles.

use crate::model::*;

const ADD: u16 = 134;
const MULTIPLY: u16 = 136;

/// A node, what it stands for, and the nodes below it in the layout's order.
#[derive(Clone)]
pub struct Part<'a> {
    pub node: &'a Node,
    pub role: Option<Role<'a>>,
    pub below: Vec<Part<'a>>,
}

/// What a node stands for in the set. A place is the byte where it begins, if only constants stand
/// before it.
#[derive(Clone, Copy)]
pub enum Role<'a> {
    /// The bytes between a field and the one before it.
    Padding {
        place: Option<u64>,
    },
    Field {
        field: &'a Field,
        place: Option<u64>,
    },
    Variant {
        name: &'a str,
        tag: u64,
        ty: &'a Type,
    },
    /// How many elements an array has.
    Count,
    Element(&'a Type),
}

/// The parts of a type's tree. Where the tree is not what the type is built to, roles are left out.
pub fn of_tree<'a>(root: &'a Node, ty: Option<&'a Type>) -> Part<'a> {
    match ty {
        Some(ty) if ty.size.is_none() => of_type(root, ty),
        _ => plain(root, None),
    }
}

/// A node and those below it, of which nothing is known.
fn plain<'a>(node: &'a Node, role: Option<Role<'a>>) -> Part<'a> {
    let below = children(&node.op);
    Part {
        node,
        role,
        below: below.into_iter().map(|n| plain(n, None)).collect(),
    }
}

/// The nodes below a node.
pub fn children(op: &Op) -> Vec<&Node> {
    match op {
        Op::ZeroSize | Op::Const(_) | Op::FieldRef { .. } | Op::CallNested { .. } => Vec::new(),
        Op::AlignUp(_, node) | Op::SumOverArray { count: node, .. } => vec![node],
        Op::Switch { cases, default, .. } => {
            let cases = cases.iter().map(|case| &case.node);
            cases.chain(default.as_deref()).collect()
        }
        Op::Two(_, left, right) => vec![left, right],
    }
}

/// The node of a type of variable size.
fn of_type<'a>(node: &'a Node, ty: &'a Type) -> Part<'a> {
    let part = match &ty.shape {
        Shape::Struct(fields) => below_align(node, |sum| of_fields(sum, fields)),
        Shape::Array(array) => of_array(node, array),
        Shape::Union(_) | Shape::Enum(..) | Shape::SizedUnion(_) => of_switch(node, ty),
        Shape::Primitive | Shape::Reference(_) => None,
    };
    part.unwrap_or_else(|| plain(node, None))
}

/// An alignment around a node.
fn below_align<'a>(
    node: &'a Node,
    inside: impl FnOnce(&'a Node) -> Option<Part<'a>>,
) -> Option<Part<'a>> {
    let Op::AlignUp(_, below) = &node.op else {
        return None;
    };
    Some(Part {
        node,
        role: None,
        below: vec![inside(below)?],
    })
}

// Structs.

/// The sum of a struct's fields, and of the padding before them.
fn of_fields<'a>(sum: &'a Node, fields: &'a [Field]) -> Option<Part<'a>> {
    let mut roles = roles_of(fields);
    let nodes = unfold(sum, roles.len())?;
    let mut at = Some(0);
    for (role, node) in roles.iter_mut().zip(nodes) {
        match role {
            Role::Padding { place } | Role::Field { place, .. } => *place = at,
            _ => {}
        }
        at = at.and_then(|at| at.checked_add(constant(node)?));
    }
    of_sum(sum, &roles)
}

/// A struct's fields with the padding that the builder puts before them: up to a field's offset,
/// from the end of the last field before it that has an offset and a constant size.
fn roles_of(fields: &[Field]) -> Vec<Role<'_>> {
    let mut roles = Vec::new();
    let mut end = 0;
    for field in fields {
        if let Some(offset) = field.offset {
            if offset > end {
                roles.push(Role::Padding { place: None });
            }
            if let Some(size) = field.ty.size {
                end = offset.saturating_add(size);
            }
        }
        roles.push(Role::Field { field, place: None });
    }
    roles
}

/// The nodes that are added, each sum inside the next, if there are so many.
fn unfold(sum: &Node, count: usize) -> Option<Vec<&Node>> {
    if count <= 1 {
        return Some(vec![sum]);
    }
    let Op::Two(ADD, left, right) = &sum.op else {
        return None;
    };
    let mut nodes = unfold(left, count - 1)?;
    nodes.push(right);
    Some(nodes)
}

fn of_sum<'a>(sum: &'a Node, roles: &[Role<'a>]) -> Option<Part<'a>> {
    let (last, before) = roles.split_last()?;
    if before.is_empty() {
        return Some(of_field(sum, *last));
    }
    let Op::Two(ADD, left, right) = &sum.op else {
        return None;
    };
    Some(Part {
        node: sum,
        role: None,
        below: vec![of_sum(left, before)?, of_field(right, *last)],
    })
}

fn of_field<'a>(node: &'a Node, role: Role<'a>) -> Part<'a> {
    let inside = match role {
        Role::Field { field, .. } if field.ty.size.is_none() => match &field.ty.shape {
            Shape::Array(array) => of_array(node, array),
            Shape::Enum(..) | Shape::SizedUnion(_) => {
                below_align(node, |node| of_switch(node, &field.ty))
            }
            // Structs and unions are sums of values here, and have no parts.
            _ => None,
        },
        _ => None,
    };
    let mut part = inside.unwrap_or_else(|| plain(node, None));
    part.role = Some(role);
    part
}

// Arrays.

fn of_array<'a>(node: &'a Node, array: &'a Array) -> Option<Part<'a>> {
    below_align(node, |inside| match &inside.op {
        Op::Two(MULTIPLY, count, element) => Some(Part {
            node: inside,
            role: None,
            below: vec![
                plain(count, Some(Role::Count)),
                of_element(element, &array.element),
            ],
        }),
        Op::SumOverArray { count, .. } => Some(Part {
            node: inside,
            role: None,
            below: vec![plain(count, Some(Role::Count))],
        }),
        _ => None,
    })
}

fn of_element<'a>(node: &'a Node, ty: &'a Type) -> Part<'a> {
    let inside = match &ty.shape {
        Shape::Array(array) if ty.size.is_none() => of_array(node, array),
        _ => None,
    };
    let mut part = inside.unwrap_or_else(|| plain(node, None));
    part.role = Some(Role::Element(ty));
    part
}

// Switches.

/// The variants of a union, an enum or a sized union, with the tags of their cases.
pub fn variants(ty: &Type) -> Vec<(&str, u64, &Type)> {
    match &ty.shape {
        Shape::Union(fields) => {
            let numbered = (0..).zip(fields);
            numbered.map(|(i, f)| (&*f.name, i, &f.ty)).collect()
        }
        Shape::Enum(_, variants) | Shape::SizedUnion(variants) => {
            let all = variants.iter();
            all.map(|v| (&*v.name, v.number, &v.ty)).collect()
        }
        _ => Vec::new(),
    }
}

fn of_switch<'a>(node: &'a Node, ty: &'a Type) -> Option<Part<'a>> {
    let Op::Switch {
        cases,
        default: None,
        ..
    } = &node.op
    else {
        return None;
    };
    let variants = variants(ty);
    let same = |(case, v): (&Case, &(&str, u64, &Type))| case.tag == v.1;
    if cases.len() != variants.len() || !cases.iter().zip(&variants).all(same) {
        return None;
    }
    let below = cases.iter().zip(variants).map(|(case, (name, tag, ty))| {
        let role = Role::Variant { name, tag, ty };
        plain(&case.node, Some(role))
    });
    Some(Part {
        node,
        role: None,
        below: below.collect(),
    })
}

/// What a node counts whatever the values are, if that is so.
pub fn constant(node: &Node) -> Option<u64> {
    match &node.op {
        Op::ZeroSize => Some(0),
        Op::Const(value) => Some(*value),
        Op::AlignUp(to, node) => aligned(constant(node)?, *to),
        _ => None,
    }
}

/// A count raised to a multiple, if that is below 2^64.
pub fn aligned(count: u64, to: u64) -> Option<u64> {
    match to {
        0 | 1 => Some(count),
        _ => count.checked_next_multiple_of(to),
    }
}
