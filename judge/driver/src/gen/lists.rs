//! Lists of many values, and layouts and sets whose records ask for many of
//! them. From some values and some bytes of the record's tree on, a name is
//! found by an index of the list and no longer by comparing one by one; the
//! cases stand on both sides of each of these limits.

use super::runs;
use crate::data::*;
use crate::prng::{some_number, Rng};
use std::collections::BTreeSet;

/// There is an index only of so many values or more, for a tree as long as one
/// that asks for so many of them in a sum: a field takes 22 bytes more than its
/// value. It begins behind four names; calls are counted that ask for more than
/// so many at the root.
pub const VALUES: usize = 256;
pub const ASKED: usize = 40;
pub const FOUND: usize = 8;

/// Whether there is an index, by the length fields of a tree and of a block of
/// so many values.
pub fn has_index(tree: usize, values: usize, many: usize) -> bool {
    many >= VALUES && tree * many >= ASKED * (values + 22 * many)
}

const KINDS: usize = 7;
/// Bytes of a layout, which may have a few thousand more than are counted.
const LAYOUT: usize = 50_000;

// Names.

fn how_many(r: &mut Rng) -> usize {
    match r.weighted(&[35, 45, 20]) {
        0 => r.between(VALUES - 1, VALUES + 1),
        1 => r.between(VALUES + 2, 400),
        _ => *r.pick(&[31, 64, 100, 128, 200, 400, 500, 511, 512]),
    }
}

/// Bytes of a list.
fn how_long(r: &mut Rng) -> usize {
    match r.weighted(&[30, 55, 15]) {
        0 => r.between(1800, 4000),
        1 => r.between(4000, 9000),
        _ => r.between(9000, 65_000),
    }
}

/// The `i`th name of a kind, of so many bytes where the kind has equal ones:
/// alike at their beginnings, at their ends or at both; of unlike lengths; each
/// the beginning of others; 0 to 9 bytes; beyond ASCII.
fn name(kind: usize, i: usize, bytes: usize) -> String {
    let rest = bytes.saturating_sub(3);
    match kind {
        0 => "p".repeat(rest) + &format!("{i:03}"),
        1 => format!("{i:03}") + &"s".repeat(rest),
        2 => "m".repeat(rest / 2) + &format!("{i:03}") + &"m".repeat(rest - rest / 2),
        3 => "u".repeat(i * 7 % (2 * rest + 1).min(240)) + &i.to_string(),
        4 => "abcdefgh"[i / 100 % 8..][..1].repeat(1 + i % 100),
        5 => short(i),
        _ => beyond(i, rest / 2),
    }
}

/// Of 0 to 9 bytes for numbers up to 512.
fn short(i: usize) -> String {
    let mut left = i;
    let mut out = String::new();
    while left > 0 {
        left -= 1;
        out.push(['a', 'b'][left % 2]);
        left /= 2;
    }
    out
}

/// Three characters of one to four bytes between others that are alike.
fn beyond(i: usize, alike: usize) -> String {
    let letters = [
        "\u{E9}",
        "\u{EA}",
        "e\u{301}",
        "\u{20AC}",
        "\u{20AD}",
        "\u{D55C}",
        "\u{1F68C}",
        "\u{1F68D}",
        "\u{FFFF}",
        "\u{10000}",
    ];
    let digits = [i / 100 % 10, i / 10 % 10, i % 10];
    let differ: String = digits.map(|d| letters[d]).concat();
    "\u{E9}".repeat(alike / 2) + &differ + &"\u{EA}".repeat(alike / 2)
}

/// Bytes of a values block of these names.
fn list_bytes(names: &[String]) -> usize {
    8 + names.iter().map(|n| 10 + n.len()).sum::<usize>()
}

/// The names of a list, each behind a beginning that may be empty.
fn pool(r: &mut Rng, beginning: &str) -> Vec<String> {
    let (many, bytes) = (how_many(r), how_long(r));
    let each = (bytes / many).saturating_sub(10 + beginning.len()).min(200);
    let kind = r.below(KINDS + 1);
    let mut names = BTreeSet::new();
    for i in 0.. {
        // The kind behind the last is all of them by turns.
        let kind = if kind == KINDS { i % KINDS } else { kind };
        names.insert(format!("{beginning}{}", name(kind, i, each)));
        if names.len() == many {
            break;
        }
    }
    let mut names: Vec<String> = names.into_iter().collect();
    stretch(&mut names, bytes);
    names
}

/// Lengthens names, the last ones first, until the list has so many bytes.
fn stretch(names: &mut [String], bytes: usize) {
    let mut missing = bytes.saturating_sub(list_bytes(names));
    for name in names.iter_mut().rev() {
        let more = missing.min(255 - name.len());
        *name += &"~".repeat(more);
        missing -= more;
    }
}

/// So many of the names, in any order; all of them before one comes again.
fn some(r: &mut Rng, pool: &[String], many: usize) -> Vec<String> {
    let mut left = Vec::new();
    let mut out = Vec::new();
    for _ in 0..many {
        if left.is_empty() {
            left = pool.to_vec();
        }
        out.push(left.swap_remove(r.below(left.len())));
    }
    out
}

/// A name that is like one of the list's, but not in it.
fn absent(r: &mut Rng, pool: &[String]) -> String {
    for _ in 0..20 {
        let mut name = r.pick(pool).clone();
        let last = name.pop();
        match (r.below(4), last) {
            (0, _) => {}
            (1, Some(c)) => name.extend([c, 'x']),
            (2, _) => name.push('z'),
            _ => name.clear(),
        }
        if name.len() <= 255 && !pool.contains(&name) {
            return name;
        }
    }
    "nowhere".to_string()
}

/// How many names are asked, no more than there is room for.
fn how_many_asked(r: &mut Rng, most: usize) -> usize {
    let many = match r.weighted(&[35, 40, 25]) {
        0 => r.between(ASKED - 3, ASKED + 4),
        1 => r.between(1, 64),
        _ => r.between(65, 300),
    };
    many.min(most.max(1))
}

/// The names that a record asks for: now and then one that is absent, most
/// often as the last, and the buffer's length.
fn asked(r: &mut Rng, pool: &[String], most: usize) -> Vec<String> {
    let many = how_many_asked(r, most);
    let mut out = some(r, pool, many);
    if r.chance(25) {
        let at = if r.chance(50) {
            many - 1
        } else {
            r.below(many)
        };
        out[at] = absent(r, pool);
    }
    if r.chance(20) {
        let at = r.below(many + 1);
        out.insert(at, "__buffer_size".to_string());
    }
    out
}

fn longest(names: &[String]) -> usize {
    names.iter().map(String::len).max().unwrap_or(0)
}

// Layouts.

/// A layout whose first type asks, and the names of lists for it.
pub fn layout(r: &mut Rng) -> (Layout, Vec<String>) {
    let pool = pool(r, "");
    let form = r.below(5);
    let times = if form == 0 { 1 } else { 5 };
    let most = LAYOUT / (times * longest(&pool) + 80);
    let names = asked(r, &pool, most);
    let mut types = vec![tree("L0".to_string(), Node::new(1, Body::Zero), &[])];
    types[0].root = part(r, form, &names, &mut types);
    (types, pool)
}

fn tree(name: String, root: Node, params: &[String]) -> Tree {
    let param = |name: &String| Param {
        name: name.clone(),
        text: None,
        derived: false,
    };
    Tree {
        name,
        align: 1,
        root,
        params: params.iter().map(param).collect(),
    }
}

/// A node that asks for the names in their order: as fields, as tags, as
/// arguments, as parameters that are handed down, or in parts of these.
fn part(r: &mut Rng, form: usize, names: &[String], types: &mut Layout) -> Node {
    match form {
        0 => sum(names.iter().map(|n| field(r, n)).collect()),
        1 => sum(names.iter().map(|n| switch(r, n)).collect()),
        2 | 3 => call(r, form == 2, names, types),
        _ => {
            let each = r.between(1, names.len());
            let parts = names.chunks(each.max(names.len() / 8));
            let parts = parts.map(|names| {
                let form = r.below(4);
                part(r, form, names, types)
            });
            sum(parts.collect())
        }
    }
}

/// The sum of all, from left to right, with few blocks open.
fn sum(mut nodes: Vec<Node>) -> Node {
    while nodes.len() > 1 {
        let mut left = nodes.into_iter();
        nodes = Vec::new();
        while let Some(one) = left.next() {
            nodes.push(match left.next() {
                Some(two) => Node::new(1, Body::Two(134, Box::new(one), Box::new(two))),
                None => one,
            });
        }
    }
    nodes.pop().unwrap_or(Node::new(1, Body::Zero))
}

/// By its path, or by its parameter.
fn field(r: &mut Rng, name: &str) -> Node {
    let body = match r.chance(50) {
        true => Body::Ref(name.to_string(), None),
        false => Body::Ref("n".to_string(), Some(name.to_string())),
    };
    Node::new(1, body)
}

fn switch(r: &mut Rng, tag: &str) -> Node {
    let case = |tag: u64| Case {
        tag,
        node: Node::new(1, Body::Const(10 * tag + 1)),
        params: Vec::new(),
    };
    let cases = (0..r.between(1, 3)).map(|tag| case(tag as u64)).collect();
    let other = || Box::new(Node::new(1, Body::Const(7)));
    let default = r.chance(70).then(other);
    Node::new(1, Body::Switch(tag.to_string(), cases, default))
}

/// A call to which the names are arguments, or parameters that it lists; the
/// last of some calls open together asks for them.
fn call(r: &mut Rng, arguments: bool, names: &[String], types: &mut Layout) -> Node {
    let inside = |i: usize| match arguments {
        true => format!("a{i}"),
        false => names[i].clone(),
    };
    let held: Vec<String> = (0..names.len()).map(inside).collect();
    let each = names.len() * (longest(&held) + 12);
    let open = (*r.pick(&[1, 1, 2, 3, 15, 16, 17])).min(1 + 12_000 / each);
    let next = |types: &Layout| format!("L{}", types.len());
    let first = next(types);
    for _ in 1..open {
        let inner = format!("L{}", types.len() + 1);
        let root = Node::new(1, Body::Call(inner, Vec::new()));
        types.push(tree(next(types), root, &held));
    }
    let root = sum(held.iter().map(|n| field(r, n)).collect());
    types.push(tree(next(types), root, &held));
    Node::new(1, Body::Call(first, given(r, arguments, names)))
}

/// The arguments of a call; now and then one comes twice, and the later wins.
fn given(r: &mut Rng, arguments: bool, names: &[String]) -> Vec<Argument> {
    let argument = |i: usize, name: &String| Argument {
        at: 0,
        name: format!("a{i}"),
        value: name.clone(),
    };
    let mut out = Vec::new();
    if arguments {
        out.extend(names.iter().enumerate().map(|(i, name)| argument(i, name)));
    }
    if arguments && r.chance(20) {
        let i = r.below(names.len());
        out.push(argument(i, r.pick(names)));
    }
    out
}

// Sets.

/// A set whose type `T0` asks, itself or by calling others, and the names of
/// lists for it.
pub fn set(r: &mut Rng) -> (Set, Vec<String>) {
    let pool = pool(r, "f.");
    let names = asked(r, &pool, LAYOUT / (6 * longest(&pool) + 120));
    let paths: Vec<&str> = names.iter().filter_map(|n| n.strip_prefix("f.")).collect();
    let each = r.between(20, 60);
    let mut set = Set::new();
    if paths.len() <= each && r.chance(50) {
        set.push(structure("T0", &paths));
        return (set, pool);
    }
    for some in paths.chunks(each) {
        set.push(structure(&format!("T{}", set.len() + 1), some));
    }
    let fields = set.iter().map(|called| Field {
        name: "f".to_string(),
        offset: None,
        ty: variable("f", Kind::Reference(called.name.clone())),
    });
    set.insert(0, variable("T0", Kind::Struct(fields.collect())));
    (set, pool)
}

fn variable(name: &str, kind: Kind) -> Type {
    Type {
        name: name.to_string(),
        size: None,
        align: 1,
        refs: Vec::new(),
        kind,
    }
}

/// Arrays of bytes, one of each of these sizes, all of the name `f`.
fn structure(name: &str, paths: &[&str]) -> Type {
    let array = |path: &&str| {
        let byte = Type {
            size: Some(1),
            ..variable("u8", Kind::Primitive)
        };
        let size = Expr::Path(vec![path.to_string()]);
        Field {
            name: "f".to_string(),
            offset: None,
            ty: variable("f", Kind::Array(false, Box::new(byte), size)),
        }
    };
    let mut ascending: Vec<String> = paths.iter().map(|p| p.to_string()).collect();
    ascending.sort();
    ascending.dedup();
    Type {
        refs: vec![Owner {
            name: "f".to_string(),
            paths: ascending,
        }],
        ..variable(name, Kind::Struct(paths.iter().map(array).collect()))
    }
}

// Values.

/// A list for a layout: all the names, all but one, some of them, few, none.
pub fn values(r: &mut Rng, layout: &Layout, pool: &[String]) -> Values {
    let tags = runs::names(layout);
    let mut names = pool.to_vec();
    match r.weighted(&[70, 12, 8, 5, 5]) {
        0 => {}
        1 => drop(names.remove(r.below(pool.len()))),
        2 => names.retain(|_| r.chance(50)),
        3 => names.retain(|_| r.chance(10)),
        _ => names.clear(),
    }
    if r.chance(15) && names.len() < 512 {
        names.push("__buffer_size".to_string());
    }
    names.sort();
    let number = |name: String| {
        let value = match tags.get(&name) {
            Some(tags) if !tags.is_empty() && r.chance(95) => *r.pick(tags),
            _ => r.below(1 << 20) as u64,
        };
        (name, value)
    };
    let mut out: Values = names.into_iter().map(number).collect();
    if !out.is_empty() && r.chance(10) {
        let at = r.below(out.len());
        out[at].1 = some_number(r);
    }
    out
}

#[cfg(test)]
mod tests {
    use super::*;
    use crate::write;

    /// Every kind has as many names as a list may have.
    #[test]
    fn names_differ() {
        for kind in 0..KINDS {
            for bytes in [0, 3, 8, 100] {
                let names: BTreeSet<String> = (0..512).map(|i| name(kind, i, bytes)).collect();
                assert_eq!(names.len(), 512, "kind {kind}, {bytes} bytes");
            }
        }
        let lengths: BTreeSet<usize> = (0..512).map(|i| short(i).len()).collect();
        assert_eq!(lengths, (0..=9).collect());
    }

    #[test]
    fn lists_may_be_read() {
        let r = &mut Rng::new(1, 1);
        for _ in 0..300 {
            let names = pool(r, "");
            assert!((31..=512).contains(&names.len()));
            let list: Values = names.iter().map(|n| (n.clone(), 1)).collect();
            let mut list = list;
            list.sort();
            let bytes = write::values(&list);
            assert_eq!(bytes.len(), list_bytes(&names));
            assert!(crate::rules::read::values(&bytes).is_ok());
        }
    }
}
