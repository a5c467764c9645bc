//! Pairs of an old and a new set that meet the hypothesis of "Old and new
//! layout".

use super::sets;
use crate::data::*;
use crate::prng::{some_number, Rng};

/// The new set: variants behind the last in some variable unions, enums and
/// sized unions at any depth; other types; another order.
pub fn newer(r: &mut Rng, old: &Set) -> Set {
    let mut new = old.clone();
    for t in &mut new {
        grow(r, t);
    }
    for i in 0..r.below(3) {
        let name = format!("{}{i}", r.pick(&["New", "New", "N\u{e9}w"]));
        let other = match r.chance(50) {
            true => plain(r, &name),
            false => sets::another(r, old, &name, false),
        };
        new.push(other);
    }
    if r.chance(60) {
        for i in (1..new.len()).rev() {
            new.swap(i, r.below(i + 1));
        }
    }
    new
}

fn grow(r: &mut Rng, t: &mut Type) {
    let variable = t.size.is_none();
    match &mut t.kind {
        Kind::Primitive | Kind::Reference(_) => {}
        Kind::Struct(fields) => fields.iter_mut().for_each(|f| grow(r, &mut f.ty)),
        Kind::Array(_, element, _) => grow(r, element),
        Kind::Union(variants) => {
            variants.iter_mut().for_each(|v| grow(r, &mut v.ty));
            for _ in 0..how_many(r, variable, variants.len()) {
                variants.push(Field {
                    name: variant_name(r),
                    offset: r.chance(20).then(|| some_number(r)),
                    ty: ownerless(r, 1),
                });
            }
        }
        Kind::Enum(_, variants) => {
            variants.iter_mut().for_each(|v| grow(r, &mut v.ty));
            for _ in 0..how_many(r, variable, variants.len()) {
                variants.push(Variant {
                    name: variant_name(r),
                    tag: some_number(r),
                    ty: ownerless(r, 1),
                });
            }
        }
        Kind::Sized(variants) => {
            variants.iter_mut().for_each(|v| grow(r, &mut v.ty));
            for _ in 0..how_many(r, variable, variants.len()) {
                variants.push(SizedVariant {
                    name: variant_name(r),
                    size: some_number(r),
                    ty: ownerless(r, 1),
                });
            }
        }
    }
}

fn how_many(r: &mut Rng, variable: bool, have: usize) -> usize {
    match variable && have < 60 && r.chance(60) {
        true => r.between(1, 3),
        false => 0,
    }
}

fn variant_name(r: &mut Rng) -> String {
    r.pick(&[
        "a",
        "b",
        "n",
        "tag",
        "new",
        "element",
        "\u{e9}",
        "\u{1f68c}",
    ])
    .to_string()
}

fn plain(r: &mut Rng, name: &str) -> Type {
    Type {
        name: name.to_string(),
        size: Some(some_number(r)),
        align: 1,
        refs: Vec::new(),
        kind: Kind::Primitive,
    }
}

/// A type of constant size without an owner at any depth.
fn ownerless(r: &mut Rng, depth: usize) -> Type {
    let mut t = plain(r, "v");
    if depth > 0 && r.chance(30) {
        let inner = Field {
            name: "i".to_string(),
            offset: None,
            ty: ownerless(r, depth - 1),
        };
        t.kind = Kind::Struct(vec![inner]);
    }
    if r.chance(10) {
        t.kind = Kind::Reference("T0".to_string());
    }
    t
}

/// The node at an offset and the way to it: list entries by place.
pub fn way_to(n: &Node, at: usize) -> Option<Vec<usize>> {
    if n.at == at {
        return Some(Vec::new());
    }
    for (i, child) in children(n).iter().enumerate() {
        if let Some(mut way) = way_to(child, at) {
            way.insert(0, i);
            return Some(way);
        }
    }
    None
}

/// The node reached the same way; the default of a switch, which no build
/// writes, would be counted behind the cases.
pub fn follow<'n>(n: &'n Node, way: &[usize]) -> Option<&'n Node> {
    match way.split_first() {
        None => Some(n),
        Some((i, rest)) => follow(children(n).get(*i)?, rest),
    }
}

fn children(n: &Node) -> Vec<&Node> {
    match &n.body {
        Body::Zero | Body::Const(_) | Body::Ref(..) | Body::Call(..) => Vec::new(),
        Body::Align(_, inner) | Body::Sum(inner, ..) => vec![&**inner],
        Body::Switch(_, cases, default) => {
            let mut out: Vec<&Node> = cases.iter().map(|c| &c.node).collect();
            out.extend(default.iter().map(|n| &**n));
            out
        }
        Body::Two(_, left, right) => vec![&**left, &**right],
    }
}

/// Is the new tree the old one with cases appended in some switches?
pub fn extends(old: &Node, new: &Node) -> bool {
    if old.align != new.align || old.text != new.text {
        return false;
    }
    match (&old.body, &new.body) {
        (Body::Align(a, x), Body::Align(b, y)) => a == b && extends(x, y),
        (Body::Sum(x, a, b), Body::Sum(y, c, d)) => a == c && b == d && extends(x, y),
        (Body::Two(a, l, r), Body::Two(b, m, s)) => a == b && extends(l, m) && extends(r, s),
        (Body::Switch(a, x, d), Body::Switch(b, y, e)) => {
            let same = |(c, d): (&Case, &Case)| {
                c.tag == d.tag && c.params == d.params && extends(&c.node, &d.node)
            };
            a == b && d.is_none() && e.is_none() && x.len() <= y.len() && x.iter().zip(y).all(same)
        }
        (Body::Call(a, x), Body::Call(b, y)) => {
            let pair = |a: &Argument| (a.name.clone(), a.value.clone());
            a == b && x.iter().map(pair).eq(y.iter().map(pair))
        }
        (a, b) => a == b,
    }
}
