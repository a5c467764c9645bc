//! Names beyond ASCII. The names of a set or a layout are spelt anew, each
//! letter by itself, so that names that were equal or parts of one another
//! still are. `.` and `::` stay, and so do the words that the rules know.

use super::texts::GOOD;
use crate::data::*;
use crate::prng::Rng;
use std::collections::BTreeMap;

const KEPT: [&str; 9] = [
    "element",
    "array",
    "variant",
    "payload_size",
    "computed_tag",
    "__variant",
    "__computed_tag",
    "__payload_size",
    "__buffer_size",
];

/// Characters beside those of the list: neighbours in their last byte alone,
/// the same last byte in others, one letter in two spellings.
const MORE: [&str; 14] = [
    "\u{EA}",
    "\u{E8}",
    "\u{3A9}",
    "\u{DF}",
    "\u{F1}",
    "e\u{301}",
    "E\u{301}",
    "a\u{308}",
    "e",
    "\u{20AD}",
    "\u{D55C}",
    "\u{1F68D}",
    "\u{301}",
    "\u{E9}e",
];

/// Letters that stand together in long names, by how many there are.
const TOGETHER: [&str; 7] = ["ab", "cd", "fgh", "klmn", "pq", "stu", "xx"];

/// One half of the cases has names beyond ASCII.
pub fn set(r: &mut Rng, set: Set) -> Set {
    match r.chance(50) {
        true => spelt(r, set, set_names),
        false => set,
    }
}

pub fn layout(r: &mut Rng, layout: Layout) -> Layout {
    match r.chance(50) {
        true => spelt(r, layout, layout_names),
        false => layout,
    }
}

/// Whether a set that was read has a name beyond ASCII.
pub fn beyond_in_set(mut set: Set) -> bool {
    let mut met = false;
    set_names(&mut set, &mut |name| met |= !name.is_ascii());
    met
}

pub fn beyond_in_layout(mut layout: Layout) -> bool {
    let mut met = false;
    layout_names(&mut layout, &mut |name| met |= !name.is_ascii());
    met
}

/// What is done to each name.
type Each<'e> = &'e mut dyn FnMut(&mut String);

/// Letter by letter, where no name gets longer than 255 bytes by it; else by
/// letters that stand together, which take as many bytes as before.
fn spelt<T: Clone>(r: &mut Rng, names: T, visit: fn(&mut T, Each)) -> T {
    let letters = letters(r);
    let mut grown = names.clone();
    let mut longest = 0;
    visit(&mut grown, &mut |name| {
        *name = by_letter(name, &letters);
        longest = longest.max(name.len());
    });
    if longest <= 255 {
        return grown;
    }
    let together = together(r);
    let mut names = names;
    visit(&mut names, &mut |name| {
        for (from, to) in &together {
            *name = name.replace(from, to);
        }
    });
    names
}

/// Some letters and what stands for each, no two alike.
fn letters(r: &mut Rng) -> BTreeMap<char, &'static str> {
    let mut pool: Vec<&str> = GOOD.into_iter().chain(MORE).collect();
    let share = *r.pick(&[20, 50, 90]);
    let mut out = BTreeMap::new();
    for letter in ('a'..='z').chain(['T', 'L', 'R', 'C']) {
        if r.chance(share) && !pool.is_empty() {
            out.insert(letter, pool.swap_remove(r.below(pool.len())));
        }
    }
    out
}

fn by_letter(name: &str, letters: &BTreeMap<char, &'static str>) -> String {
    let part = |part: &str| match KEPT.contains(&part.trim_end_matches(['.', ':'])) {
        true => part.to_string(),
        false => part.chars().map(|c| letter(c, letters)).collect(),
    };
    name.split_inclusive(['.', ':']).map(part).collect()
}

fn letter(c: char, letters: &BTreeMap<char, &'static str>) -> String {
    letters
        .get(&c)
        .map_or(c.to_string(), |text| text.to_string())
}

/// A character of as many bytes for each of `TOGETHER`, or for some.
fn together(r: &mut Rng) -> Vec<(&'static str, &'static str)> {
    let share = *r.pick(&[30, 100]);
    let mut out = Vec::new();
    for from in TOGETHER {
        let of_length = |t: &&str| t.len() == from.len();
        let pool: Vec<&str> = GOOD.into_iter().filter(of_length).collect();
        if r.chance(share) {
            out.push((from, *r.pick(&pool)));
        }
    }
    out
}

fn set_names(set: &mut Set, each: Each) {
    set.iter_mut().for_each(|t| type_names(t, each));
}

fn type_names(t: &mut Type, each: Each) {
    each(&mut t.name);
    for owner in &mut t.refs {
        each(&mut owner.name);
        owner.paths.iter_mut().for_each(&mut *each);
    }
    in_order(&mut t.refs);
    match &mut t.kind {
        Kind::Primitive => {}
        Kind::Struct(fields) | Kind::Union(fields) => {
            for f in fields {
                each(&mut f.name);
                type_names(&mut f.ty, each);
            }
        }
        Kind::Enum(tag, variants) => {
            expr_names(tag, each);
            for v in variants {
                each(&mut v.name);
                type_names(&mut v.ty, each);
            }
        }
        Kind::Array(_, element, size) => {
            type_names(element, each);
            expr_names(size, each);
        }
        Kind::Sized(variants) => {
            for v in variants {
                each(&mut v.name);
                type_names(&mut v.ty, each);
            }
        }
        Kind::Reference(name) => each(name),
    }
}

/// Owners and paths ascending again, each once.
fn in_order(refs: &mut Vec<Owner>) {
    let mut map: BTreeMap<String, Vec<String>> = BTreeMap::new();
    for owner in refs.drain(..) {
        map.entry(owner.name).or_default().extend(owner.paths);
    }
    for (name, mut paths) in map {
        paths.sort();
        paths.dedup();
        refs.push(Owner { name, paths });
    }
}

fn expr_names(e: &mut Expr, each: Each) {
    match e {
        Expr::Literal(..) => {}
        Expr::Path(segments) => segments.iter_mut().for_each(each),
        Expr::Named(_, name) => each(name),
        Expr::One(_, a) => expr_names(a, each),
        Expr::Two(_, a, b) => {
            expr_names(a, each);
            expr_names(b, each);
        }
    }
}

fn layout_names(layout: &mut Layout, each: Each) {
    for t in layout {
        each(&mut t.name);
        node_names(&mut t.root, each);
        param_names(&mut t.params, each);
    }
}

fn param_names(params: &mut [Param], each: Each) {
    for p in params {
        each(&mut p.name);
        p.text.iter_mut().for_each(&mut *each);
    }
}

fn node_names(n: &mut Node, each: Each) {
    n.text.iter_mut().for_each(&mut *each);
    match &mut n.body {
        Body::Zero | Body::Const(_) => {}
        Body::Ref(path, parameter) => {
            each(path);
            parameter.iter_mut().for_each(each);
        }
        Body::Align(_, inner) => node_names(inner, each),
        Body::Switch(tag, cases, default) => {
            each(tag);
            for c in cases {
                node_names(&mut c.node, each);
                param_names(&mut c.params, each);
            }
            default.iter_mut().for_each(|n| node_names(n, each));
        }
        Body::Call(name, arguments) => {
            each(name);
            for a in arguments {
                each(&mut a.name);
                each(&mut a.value);
            }
        }
        Body::Two(_, left, right) => {
            node_names(left, each);
            node_names(right, each);
        }
        Body::Sum(count, element, field) => {
            node_names(count, each);
            each(element);
            each(field);
        }
    }
}

#[cfg(test)]
mod tests {
    use super::*;

    #[test]
    fn parts_stay_parts() {
        let letters = BTreeMap::from([('e', "\u{E9}"), ('n', "\u{1F68C}")]);
        let spelt = |name| by_letter(name, &letters);
        assert_eq!(spelt("legs.element.n"), "l\u{E9}gs.element.\u{1F68C}");
        assert_eq!(spelt("p::n"), format!("p::{}", spelt("n")));
        assert_eq!(spelt("__buffer_size"), "__buffer_size");
    }

    #[test]
    fn letters_together_keep_the_length() {
        let r = &mut Rng::new(1, 1);
        for (from, to) in together(r) {
            assert_eq!(from.len(), to.len());
            assert!(!KEPT.iter().any(|word| word.contains(from)));
        }
    }
}
