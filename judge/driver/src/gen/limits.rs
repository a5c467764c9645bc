//! Inputs that are good but for one thing, or that stand just at a limit:
//! counts, lengths, order of names, literals.

use super::texts::GOOD;
use crate::data::*;
use crate::prng::Rng;

fn primitive(name: &str) -> Type {
    Type {
        name: name.to_string(),
        size: Some(1),
        align: 1,
        refs: Vec::new(),
        kind: Kind::Primitive,
    }
}

/// At the limit, or one beyond it.
fn about(r: &mut Rng, most: usize) -> usize {
    most + r.below(2)
}

fn numbered(n: usize) -> Vec<String> {
    (0..n).map(|i| format!("{i:03}")).collect()
}

/// A set at a limit of question 4, or one beyond it.
pub fn counted_set(r: &mut Rng) -> Set {
    let mut t = primitive("T");
    let n = about(r, 64);
    match r.below(8) {
        0 => {
            return numbered(about(r, 256))
                .iter()
                .map(|n| primitive(n))
                .collect()
        }
        1 => {
            t.refs = numbered(n)
                .into_iter()
                .map(|name| Owner {
                    name,
                    paths: vec![],
                })
                .collect();
        }
        2 => t.refs = two_owners(r, n),
        3 => t.kind = Kind::Struct(numbered(n).iter().map(|n| field(n)).collect()),
        4 => t.kind = Kind::Union(numbered(n).iter().map(|n| field(n)).collect()),
        5 => {
            let variant = |name: String| Variant {
                ty: primitive(""),
                tag: 1,
                name,
            };
            let variants = numbered(n).into_iter().map(variant).collect();
            t.kind = Kind::Enum(Expr::Path(numbered(1)), variants);
        }
        6 => {
            let variant = |name: String| SizedVariant {
                ty: primitive(""),
                size: 1,
                name,
            };
            t.kind = Kind::Sized(numbered(n).into_iter().map(variant).collect());
        }
        _ => t.kind = Kind::Array(false, Box::new(primitive("")), Expr::Path(numbered(n))),
    }
    vec![t]
}

fn field(name: &str) -> Field {
    Field {
        name: name.to_string(),
        offset: None,
        ty: primitive(""),
    }
}

/// `n` paths in all, under two owners.
fn two_owners(r: &mut Rng, n: usize) -> Vec<Owner> {
    let first = r.below(n + 1);
    let owner = |name: &str, n| Owner {
        name: name.to_string(),
        paths: numbered(n),
    };
    vec![owner("a", first), owner("b", n - first)]
}

/// A layout at a limit of question 4, or one beyond it.
pub fn counted_layout(r: &mut Rng) -> Layout {
    let param = |name: String| Param {
        name,
        text: None,
        derived: false,
    };
    let params: Vec<Param> = numbered(about(r, 512)).into_iter().map(param).collect();
    let mut t = tree("L0");
    match r.below(5) {
        0 => return numbered(about(r, 256)).iter().map(|n| tree(n)).collect(),
        1 => t.params = params,
        2 => {
            let argument = |name: String| Argument {
                at: 0,
                value: "a".to_string(),
                name,
            };
            let arguments = numbered(about(r, 512)).into_iter().map(argument).collect();
            t.root.body = Body::Call("L0".to_string(), arguments);
        }
        3 => t.root.body = Body::Switch("a".to_string(), vec![case(1, params)], None),
        _ => {
            let cases = (0..about(r, 64)).map(|i| case(i as u64, vec![])).collect();
            t.root.body = Body::Switch("a".to_string(), cases, None);
        }
    }
    vec![t]
}

fn tree(name: &str) -> Tree {
    Tree {
        name: name.to_string(),
        align: 1,
        root: Node::new(1, Body::Const(1)),
        params: Vec::new(),
    }
}

fn case(tag: u64, params: Vec<Param>) -> Case {
    Case {
        tag,
        node: Node::new(1, Body::Const(1)),
        params,
    }
}

/// 511 to 513 values.
pub fn counted_values(r: &mut Rng) -> Values {
    let n = r.between(511, 513);
    numbered(n).into_iter().map(|name| (name, 1)).collect()
}

/// A name that question 3 refuses, or the longest that it does not.
fn bad_name(r: &mut Rng) -> String {
    match r.below(10) {
        0 => "x".repeat(255),
        1 => "x".repeat(256),
        2 => "\u{7f}".to_string(),
        3 => "a\u{1f}".to_string(),
        4 => "\u{e9}".repeat(127),
        5 => "\u{e9}".repeat(128),
        6 => "\u{20ac}".repeat(85),
        7 => "\u{1f68c}".repeat(r.between(63, 64)),
        8 => format!("{}{}", "x".repeat(r.between(252, 254)), r.pick(&GOOD)),
        _ => format!("\u{e9}\u{7f}{}", r.pick(&GOOD)),
    }
}

/// One thing wrong in a set: a name, an order, a literal.
pub fn wrong_set(r: &mut Rng, set: &mut Set) {
    let name = bad_name(r);
    let choice = r.below(6);
    if choice == 0 && set.len() > 1 {
        let at = r.below(set.len() - 1);
        let last = set.last_mut().unwrap();
        last.name = String::new();
        set[at].name = String::new();
        return;
    }
    let Some(t) = pick_type(r, set) else { return };
    match choice {
        1 => t.name = name,
        2 if !t.refs.is_empty() => {
            let at = r.below(t.refs.len());
            t.refs.insert(0, t.refs[at].clone());
        }
        3 if !t.refs.is_empty() => {
            let at = r.below(t.refs.len());
            let paths = &mut t.refs[at].paths;
            if let Some(p) = paths.last().cloned() {
                paths.push(p);
            }
        }
        4 => t.kind = Kind::Array(false, Box::new(primitive("")), wrong_literal(r)),
        _ if !t.refs.is_empty() => t.refs[0].name = name,
        _ => t.kind = Kind::Reference(name),
    }
}

/// A type of the set, at any depth.
fn pick_type<'s>(r: &mut Rng, set: &'s mut Set) -> Option<&'s mut Type> {
    if set.is_empty() {
        return None;
    }
    let at = r.below(set.len());
    Some(descend(r, &mut set[at]))
}

fn descend<'t>(r: &mut Rng, t: &'t mut Type) -> &'t mut Type {
    let inside = match &t.kind {
        Kind::Struct(f) | Kind::Union(f) => f.len(),
        Kind::Enum(_, v) => v.len(),
        Kind::Sized(v) => v.len(),
        Kind::Array(..) => 1,
        Kind::Primitive | Kind::Reference(_) => 0,
    };
    if inside == 0 || r.chance(50) {
        return t;
    }
    let at = r.below(inside);
    match &mut t.kind {
        Kind::Struct(f) | Kind::Union(f) => descend(r, &mut f[at].ty),
        Kind::Enum(_, v) => descend(r, &mut v[at].ty),
        Kind::Sized(v) => descend(r, &mut v[at].ty),
        Kind::Array(_, element, _) => descend(r, element),
        Kind::Primitive | Kind::Reference(_) => unreachable!(),
    }
}

/// A literal at the ends of its type, or one beyond, or of no type.
fn wrong_literal(r: &mut Rng) -> Expr {
    let code = r.below(9) as u8;
    let bits = [64, 32, 16, 8][code as usize % 4];
    let top = u64::MAX >> (64 - bits);
    let half = 1u64 << (bits - 1);
    let choices = [
        0,
        top,
        top.wrapping_add(1),
        half - 1,
        half,
        half.wrapping_neg(),
        half.wrapping_neg().wrapping_sub(1),
        u64::MAX,
    ];
    Expr::Literal(code, *r.pick(&choices))
}

/// One thing wrong in a layout.
pub fn wrong_layout(r: &mut Rng, layout: &mut Layout) {
    let name = bad_name(r);
    let n = layout.len();
    let at = r.below(n);
    match r.below(4) {
        0 if n > 1 => layout[n - 1].name = layout[0].name.clone(),
        1 => layout[at].name = name,
        2 => layout[at].root.text = Some(name),
        _ => layout[at].params.push(Param {
            text: Some(name.clone()),
            derived: true,
            name,
        }),
    }
}

/// One thing wrong in the values.
pub fn wrong_values(r: &mut Rng, values: &mut Values) {
    let name = bad_name(r);
    match (r.below(3), values.len()) {
        (0, 1..) => values.push(values[0].clone()),
        (1, 2..) => values.swap(0, 1),
        _ => values.push((name, 1)),
    }
}
