//! Random layouts that no build gave: every node kind, defaults, missing
//! called types, arguments of one name.

use super::{names, spelling};
use crate::data::*;
use crate::prng::{some_number, Rng, EDGES};

pub const NAMES: [&str; 8] = ["a", "b", "c", "n", "t", "x.y", "", "__buffer_size"];

pub fn layout(r: &mut Rng) -> Layout {
    let layout = match r.weighted(&[90, 7, 3]) {
        0 => {
            let n = r.between(1, 5);
            (0..n).map(|i| tree(r, i, n)).collect()
        }
        1 => chain(r),
        _ => deep(r),
    };
    spelling::layout(r, layout)
}

fn tree(r: &mut Rng, i: usize, n: usize) -> Tree {
    let depth = r.between(0, 5);
    Tree {
        name: format!("L{i}"),
        align: *r.pick(&EDGES),
        root: node(r, depth, n),
        params: params(r),
    }
}

fn name(r: &mut Rng) -> String {
    match r.chance(95) {
        true => r.pick(&NAMES).to_string(),
        false => names::path(r),
    }
}

fn type_name(r: &mut Rng, n: usize) -> String {
    // One place beyond the last is a type that is not there.
    match r.chance(95) {
        true => format!("L{}", r.below(n)),
        false => format!("L{n}"),
    }
}

fn params(r: &mut Rng) -> Vec<Param> {
    (0..r.below(4)).map(|_| param(r)).collect()
}

fn param(r: &mut Rng) -> Param {
    Param {
        name: name(r),
        text: r.chance(20).then(|| "text".to_string()),
        derived: r.chance(30),
    }
}

fn align(r: &mut Rng) -> u64 {
    match r.chance(90) {
        true => *r.pick(&[0, 1, 2, 3, 4, 8, 16]),
        false => *r.pick(&EDGES),
    }
}

fn node(r: &mut Rng, depth: usize, types: usize) -> Node {
    let body = match depth {
        0 => leaf(r),
        _ => inner(r, depth - 1, types),
    };
    Node {
        at: 0,
        align: align(r),
        text: r.chance(10).then(|| name(r)),
        body,
    }
}

fn leaf(r: &mut Rng) -> Body {
    match r.weighted(&[10, 45, 45]) {
        0 => Body::Zero,
        1 => Body::Const(some_number(r)),
        _ => Body::Ref(name(r), r.chance(60).then(|| name(r))),
    }
}

fn inner(r: &mut Rng, depth: usize, types: usize) -> Body {
    match r.weighted(&[12, 16, 16, 12, 42, 2]) {
        0 => leaf(r),
        1 => Body::Align(align(r), Box::new(node(r, depth, types))),
        2 => switch(r, depth, types),
        3 => call(r, types),
        4 => {
            let kind = r.between(134, 143) as u16;
            let left = node(r, depth, types);
            let right = node(r, depth, types);
            Body::Two(kind, Box::new(left), Box::new(right))
        }
        _ => {
            let count = Box::new(node(r, depth, types));
            Body::Sum(count, type_name(r, types), name(r))
        }
    }
}

fn switch(r: &mut Rng, depth: usize, types: usize) -> Body {
    let n = r.below(4);
    let mut cases = Vec::new();
    for _ in 0..n {
        let tag = match r.chance(90) {
            true => r.below(4) as u64,
            false => some_number(r),
        };
        let node = node(r, depth, types);
        let params = if r.chance(20) { params(r) } else { Vec::new() };
        cases.push(Case { tag, node, params });
    }
    let default = match r.chance(40) {
        true => Some(Box::new(node(r, depth, types))),
        false => None,
    };
    Body::Switch(name(r), cases, default)
}

fn call(r: &mut Rng, types: usize) -> Body {
    let n = r.below(4);
    let mut arguments = Vec::new();
    for _ in 0..n {
        arguments.push(Argument {
            at: 0,
            name: name(r),
            value: name(r),
        });
    }
    Body::Call(type_name(r, types), arguments)
}

/// Calls 15 to 17 deep, each with a sum beside it now and then.
fn chain(r: &mut Rng) -> Layout {
    let n = r.between(15, 18);
    let mut out = Vec::new();
    for i in 0..n {
        let next = match i + 1 == n {
            true => leaf(r),
            false => {
                let mut arguments = Vec::new();
                if r.chance(40) {
                    arguments.push(Argument {
                        at: 0,
                        name: "a".to_string(),
                        value: r.pick(&["a", "a", "a", "b"]).to_string(),
                    });
                }
                Body::Call(format!("L{}", i + 1), arguments)
            }
        };
        let mut root = Node::new(1, next);
        if r.chance(20) {
            let one = Box::new(Node::new(1, Body::Const(1)));
            root = Node::new(1, Body::Two(134, one, Box::new(root)));
        }
        let params = match r.chance(60) {
            true => vec![Param {
                name: r.pick(&NAMES).to_string(),
                text: None,
                derived: false,
            }],
            false => Vec::new(),
        };
        out.push(Tree {
            name: format!("L{i}"),
            align: 1,
            root,
            params,
        });
    }
    out
}

/// Blocks open near 256.
fn deep(r: &mut Rng) -> Layout {
    // The layout, the tree and the leaf are open too.
    let levels = r.between(250, 256);
    let mut root = Node::new(1, leaf(r));
    for _ in 0..levels {
        root = match r.below(4) {
            0 => {
                let one = Box::new(Node::new(1, Body::Const(1)));
                Node::new(1, Body::Two(134, one, Box::new(root)))
            }
            _ => Node::new(1, Body::Align(align(r), Box::new(root))),
        };
    }
    vec![Tree {
        name: "L0".to_string(),
        align: 1,
        root,
        params: Vec::new(),
    }]
}
