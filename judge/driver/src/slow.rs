//! Inputs of at most 65,536 bytes on which a reader, a builder or a validation
//! takes long for their bytes if it compares names one by one: many entries
//! under a long owner, found again and again; names that are alike, or that were
//! made to share a place in a table. One list for the bench, for the seeds of the
//! attack, and for the test of time in rust/ciztarmo, which compiles this file
//! too and therefore needs no more than `data` and `write`.

use crate::data::*;
use crate::write;

/// What an input is put to.
#[derive(Debug, Clone, Copy, PartialEq, Eq)]
pub enum Call {
    ReadSet,
    ReadLayout,
    Build,
    /// A layout, and behind it a run.
    Run,
}

pub struct Slow {
    pub name: &'static str,
    pub call: Call,
    pub bytes: Vec<u8>,
    /// The answer's number, 0 if it is accepted, at the full scale.
    #[allow(dead_code)] // the bench and the test of time ask for it
    pub number: u8,
}

impl Slow {
    /// The layout and the run of a validation.
    #[allow(dead_code)] // the test of time asks for it
    pub fn layout_and_run(&self) -> (&[u8], &[u8]) {
        let length = u32::from_le_bytes(self.bytes[..4].try_into().unwrap());
        self.bytes.split_at(4 + length as usize)
    }
}

/// How large the inputs are: paths of a type that is called, fields of a struct
/// that calls, types whose names are alike, values of a list, and structs, or
/// calls in a layout; with `fills` the set or the layout has as many bytes as it
/// may.
#[derive(Clone, Copy)]
pub struct Scale {
    pub paths: usize,
    pub fields: usize,
    pub names: usize,
    pub values: usize,
    pub structs: usize,
    pub fills: bool,
}

pub const FULL: Scale = Scale {
    paths: 64,
    fields: 64,
    names: 256,
    values: 500,
    structs: 200,
    fills: true,
};
/// Full registries, one struct each; lists of some 4,400 bytes.
pub const ONE: Scale = Scale {
    names: 32,
    values: 130,
    structs: 1,
    fills: false,
    ..FULL
};
/// Inputs of some 4,000 bytes at most.
pub const SMALL: Scale = Scale {
    paths: 3,
    fields: 12,
    names: 8,
    values: 8,
    ..ONE
};

pub fn all(scale: Scale) -> Vec<Slow> {
    let mut out = scale.building();
    out.extend(scale.reading());
    out.extend(scale.validating());
    out
}

/// Bytes of a set that is filled.
const MOST: usize = 65_030;

impl Scale {
    fn building(self) -> Vec<Slow> {
        let set = |name, number, set: Set| Slow {
            name,
            call: Call::Build,
            bytes: write::set(&set),
            number,
        };
        vec![
            set("calls", 18, self.calls()),
            set("references", 0, self.references()),
            set("parameters-64", 0, called(64, self.paths)),
            set("parameters-512", 0, called(512, self.paths)),
            set("parameters-collide", 0, self.colliding_parameters()),
            set("parameters-collide-calls", 18, self.colliding_calls()),
            set("paths-alike", 18, self.paths_alike()),
            set("paths-of-one-place", 18, self.paths_of_one_place()),
            set("one-name-split", 18, self.one_name_split()),
            set("cases", 18, self.cases()),
            set("targets", 0, self.targets()),
            set("jagged", 18, self.jagged()),
        ]
    }

    fn reading(self) -> Vec<Slow> {
        let set = |name, set: Set| Slow {
            name,
            call: Call::ReadSet,
            bytes: write::set(&set),
            number: 0,
        };
        let layout = |name, number, bytes| Slow {
            name,
            call: Call::ReadLayout,
            bytes,
            number,
        };
        let alike = write::layout(&trees(self.alike(8)));
        let placed = write::layout(&trees(self.of_one_place()));
        let marked = write::layout(&trees(self.of_one_mark()));
        vec![
            set("types-differ-at-start", constants(self.alike(0))),
            set("types-differ-in-middle", constants(self.alike(NAME / 2))),
            set("types-differ-at-end", constants(self.alike(NAME - 3))),
            set("types-of-one-place", constants(self.of_one_place())),
            layout("trees-collide", 0, alike.clone()),
            layout("trees-collide-refused", 2, last_damaged(alike)),
            layout("trees-of-one-place-refused", 2, last_damaged(placed)),
            layout("trees-of-one-mark", 0, marked.clone()),
            layout("trees-of-one-mark-refused", 2, last_damaged(marked)),
        ]
    }

    fn validating(self) -> Vec<Slow> {
        let run = |name, number, asked: Asked| Slow {
            name,
            call: Call::Run,
            bytes: [write::layout(&asked.layout), write::run(&asked.run)].concat(),
            number,
        };
        let placed = values_of_one_place(self.values, self.value_bytes());
        let more = values_of_one_mark(self.values + 1, self.value_bytes());
        let marked = more[..self.values].to_vec();
        vec![
            run("values-alike", 0, all_asked(self.values_alike())),
            run("values-of-one-place", 0, all_asked(placed)),
            run("values-of-one-mark", 0, all_asked(marked)),
            run("values-of-one-mark-absent", 21, last_absent(more)),
            run("values-handed-of-one-place", 0, self.handed_one_place()),
            run("values-handed-of-one-mark", 0, self.handed_one_mark()),
        ]
    }
}

// Types.

pub fn constant(name: &str, size: u64) -> Type {
    Type {
        name: name.to_string(),
        size: Some(size),
        align: 1,
        refs: Vec::new(),
        kind: Kind::Primitive,
    }
}

pub fn variable(name: &str, kind: Kind) -> Type {
    Type {
        size: None,
        kind,
        ..constant(name, 0)
    }
}

pub fn field(name: &str, offset: Option<u64>, ty: Type) -> Field {
    Field {
        name: name.to_string(),
        offset,
        ty,
    }
}

/// A type of this name that builds, whatever its references are.
fn no_variants(name: &str) -> Type {
    variable(name, Kind::Union(Vec::new()))
}

/// The type with references to paths of one owner.
fn with_paths(mut ty: Type, owner: &str, paths: Vec<String>) -> Type {
    let name = owner.to_string();
    ty.refs.push(Owner { name, paths });
    ty
}

/// A field of the shortest names that calls a type.
fn call(target: &str) -> Field {
    let kind = Kind::Reference(target.to_string());
    field("", None, variable("", kind))
}

/// So many calls: of each of the types "0" to "7", then of the last.
fn calls_of_all(many: usize) -> Vec<Field> {
    (0..many).map(|i| call(&i.min(7).to_string())).collect()
}

/// Types of 64 paths each, and a struct that calls them all and so has this
/// many parameters, a multiple of 64; or fewer paths in each.
pub fn called(parameters: usize, paths: usize) -> Set {
    let mut set = Set::new();
    let mut fields = Vec::new();
    for first in (0..parameters).step_by(64) {
        let name = format!("R{}", set.len());
        let paths = (first..first + paths).map(|i| format!("v{i:03}"));
        let kind = Kind::Reference(name.clone());
        fields.push(field("f", None, variable("f", kind)));
        set.push(with_paths(no_variants(&name), &name, paths.collect()));
    }
    set.push(variable("All", Kind::Struct(fields)));
    set
}

impl Scale {
    /// The first paths of the eight groups of 64.
    fn group(self, k: usize, path: impl Fn(usize) -> String) -> Vec<String> {
        (64 * k..64 * k + self.paths).map(path).collect()
    }

    /// The types "0" to "7" with 64 paths each under one owner.
    fn callees(self, owner: &str, path: impl Fn(usize) -> String) -> Set {
        let callee = |k: usize| {
            let paths = self.group(k, &path);
            with_paths(no_variants(&k.to_string()), owner, paths)
        };
        (0..8).map(callee).collect()
    }

    /// The set with structs of these fields, as many as there is room for,
    /// and behind them constants whose names fill it up.
    fn with_structs(self, mut set: Set, fields: impl Fn() -> Vec<Field>) -> Set {
        for _ in 0..self.structs {
            let name = set.len().to_string();
            set.push(variable(&name, Kind::Struct(fields())));
            if write::set(&set).len() > MOST {
                set.pop();
                break;
            }
        }
        while self.fills {
            // A constant has 33 bytes and its name.
            let missing = MOST - write::set(&set).len();
            if missing < 33 + 3 {
                break;
            }
            let long = match missing - 33 {
                all @ ..=255 => all,
                more => 255.min(more - (33 + 3)),
            };
            set.push(constant(&format!("{:x>long$}", set.len()), 1));
        }
        set
    }
}

// Entries that are found again and again.

impl Scale {
    /// 512 paths under one owner of 251 bytes, and structs that call the types
    /// which refer to them 64 times. Too much for a layout.
    fn calls(self) -> Set {
        let set = self.callees(&"o".repeat(251), |i| format!("{i:03}"));
        self.with_structs(set, || calls_of_all(self.fields))
    }

    /// Structs of 64 constant fields, each with references: the first eight
    /// enter 512 paths, the others name the last of these again. Three times
    /// 512 parameters of 24 bytes are as many as a layout holds.
    fn references(self) -> Set {
        let owner = "o".repeat(21);
        let letter = |i: usize| char::from(b'A' + i as u8);
        let path = |i: usize| String::from_iter([letter(i / 32), letter(i % 32)]);
        let each = |i: usize| {
            let paths = self.group(i.min(7), path);
            field("", None, with_paths(constant("", 0), &owner, paths))
        };
        self.with_structs(Set::new(), || (0..self.fields).map(each).collect())
    }

    /// 448 entries under an owner, and enums of which each case asks for those
    /// of its variant, whose name ends like the owner's. Too much for a layout.
    fn cases(self) -> Set {
        let name = |first: &str| first.to_string() + &"o".repeat(99);
        let variant = |i: usize| Variant {
            name: name("v"),
            tag: i as u64,
            ty: constant("", 1),
        };
        let variants: Vec<Variant> = (0..self.paths).map(variant).collect();
        let fields = || {
            let tag = Expr::Literal(0, 1);
            let choice = variable("", Kind::Enum(tag, variants.clone()));
            let mut fields = calls_of_all(7);
            fields.push(field("", None, choice));
            fields
        };
        let set = self.callees(&name("o"), |i| format!("{i:03}"));
        self.with_structs(set, fields)
    }

    /// 512 parameters, each of which may be an element's of one of the jagged
    /// arrays of its struct, whose names end alike. Too much for a layout.
    fn jagged(self) -> Set {
        let name = |first: &str| first.to_string() + &"j".repeat(98);
        let array = |i: usize| {
            let size = Expr::Literal(0, 1);
            let kind = Kind::Array(true, Box::new(constant("", 1)), size);
            field(&name(&format!("{i:02}")), None, variable("", kind))
        };
        let fields = || {
            let mut fields = calls_of_all(8);
            fields.extend((8..self.fields).map(array));
            fields
        };
        let set = self.callees(&name("oo"), |i| format!("element.{i:03}"));
        self.with_structs(set, fields)
    }

    /// References to the last of types whose names end alike.
    fn targets(self) -> Set {
        let types = self.names / 2;
        let name = |i: usize| format!("{i:03}") + &"t".repeat(117);
        let set: Set = (0..types).map(|i| constant(&name(i), 1)).collect();
        let calls = || (0..self.fields).map(|_| call(&name(types - 1))).collect();
        let few = Scale {
            structs: self.structs.min(3),
            fills: false,
            ..self
        };
        few.with_structs(set, calls)
    }
}

// Names that are alike.

/// 256 constants with names of this length fill a set, and as many types
/// without bytes a layout.
const NAME: usize = 222;

impl Scale {
    /// Names of one length that differ in three digits, from `at` on. At 8
    /// their first, middle and last eight bytes are alike.
    fn alike(self, at: usize) -> Vec<String> {
        let behind = NAME - 3 - at;
        let name = |i| "n".repeat(at) + &format!("{i:03}") + &"n".repeat(behind);
        (0..self.names).map(name).collect()
    }

    /// Paths that begin and end alike, with an alias each, under an owner that
    /// has made names too; they are found by their aliases and made names. Too
    /// much for a layout.
    fn paths_alike(self) -> Set {
        let owner = "Owner::".to_string() + &"o".repeat(33);
        let alias = |i: usize| format!("{i:03}") + &"z".repeat(38);
        let mut set = self.callees(&owner, |i| "a".repeat(20) + "::" + &alias(i));
        // The aliases of the type before it, less two, and the made names.
        let mut paths = self.group(6, alias);
        paths.drain(..2);
        paths.extend(["__computed_tag", "__payload_size"].map(String::from));
        set[7].refs[0].paths = paths;
        let fields = || {
            let mut fields = made_names(&owner);
            fields.extend(calls_of_all(self.fields - 2));
            fields
        };
        self.with_structs(set, fields)
    }
}

/// Two fields for which the builder makes parameters under this owner: an enum
/// with a computed tag, and a size-discriminated union.
fn made_names(owner: &str) -> Vec<Field> {
    let one = || Box::new(Expr::Literal(0, 1));
    let tag = Expr::Two(68, one(), one());
    let sized = SizedVariant {
        name: String::new(),
        size: 1,
        ty: constant("", 1),
    };
    [Kind::Enum(tag, Vec::new()), Kind::Sized(vec![sized])]
        .map(|kind| field("", None, variable(owner, kind)))
        .into()
}

fn constants(names: Vec<String>) -> Set {
    names.iter().map(|name| constant(name, 1)).collect()
}

fn trees(names: Vec<String>) -> Layout {
    let tree = |name| Tree {
        name,
        align: 1,
        root: Node::new(1, Body::Zero),
        params: Vec::new(),
    };
    names.into_iter().map(tree).collect()
}

/// The layout whose last type, without parameters, says that it has one.
fn last_damaged(mut layout: Vec<u8>) -> Vec<u8> {
    let count = layout.len() - 2;
    layout[count] = 1;
    layout
}

// Names that share a place in a table.

/// One of 512 names of 18 bytes that ascend. All have the same sum, also
/// modulo a power of two, if a byte counts 31 times the one before it, because
/// 31 * 'A' + 'a' = 31 * 'B' + 'B'.
fn colliding(i: usize) -> String {
    let two = |bit: usize| ["BB", "aA"][i >> bit & 1];
    (0..9).rev().map(two).collect()
}

/// The mark of a name behind bytes with a mark, as crates/marks has it.
fn mark(h: u64, name: &str) -> u64 {
    let step = |h: u64, b: u8| {
        let b = u64::from(b);
        h % (1 << 32) * (2_654_435_769 + b) + h / (1 << 32) + b
    };
    name.bytes().fold(h, step)
}

/// The mark of an owner, from which those of its keys start, as
/// crates/builder_registry has it: behind the name stands a byte that no name
/// has.
fn owner_mark(owner: &str) -> u64 {
    mark(mark(0, owner), "\0")
}

/// Eight bytes as a number, the low byte first.
fn eight(bytes: &[u8]) -> u64 {
    let more = |x, b: &u8| x << 8 | u64::from(*b);
    bytes[..8].iter().rev().fold(0, more)
}

/// A name's length as a number for a step.
fn length_of(name: &str) -> u64 {
    1_640_531_527 + name.len() as u64
}

/// A mark with eight bytes more, as crates/name_marks has it.
fn step(h: u64, x: u64) -> u64 {
    ((1 << 32) + h % (1 << 32)) * (x % (1 << 31)) + h / (1 << 32) + x / (1 << 32)
}

/// The mark of a type's name: eight bytes of every so many, and the last eight.
/// The steps go by turns from two marks.
fn mark_apart(name: &str, apart: usize) -> u64 {
    let bytes = name.as_bytes();
    let (mut h, mut g) = (0, length_of(name));
    for i in (0..bytes.len() - 8).step_by(apart) {
        (h, g) = (g, step(h, eight(&bytes[i..])));
    }
    step(step(h, eight(&bytes[bytes.len() - 8..])), g)
}

/// The mark that is asked for first of more than 32 types.
fn type_mark(name: &str) -> u64 {
    mark_apart(name, 32)
}

/// The mark of a value's name of eight bytes or more: the sum of its eights,
/// then the last eight and the length by two steps, as crates/name_marks has it.
fn value_mark(name: &str) -> u64 {
    let bytes = name.as_bytes();
    let last = bytes.len() - 8;
    let eights = (0..last).step_by(8).map(|i| eight(&bytes[i..]));
    let sum = eights.fold(0, u64::wrapping_add);
    step(step(sum, eight(&bytes[last..])), length_of(name))
}

/// The eight bytes of a text, if there are some, that take one mark to another.
fn between(h: u64, mark: u64) -> Option<[u8; 8]> {
    let factor = (1 << 32) + h % (1 << 32);
    let rest = mark.checked_sub(h / (1 << 32))?;
    let solve = |low: u64| {
        let high = rest.checked_sub(factor * low)?;
        let small = low < 1 << 31 && high < 1 << 32;
        let bytes = (low | high << 32).to_le_bytes();
        let text = bytes.iter().all(|b| (0x20..0x7F).contains(b));
        (small && text).then_some(bytes)
    };
    solve(rest / factor).or_else(|| solve((rest / factor).checked_sub(1)?))
}

/// Names of values of one length, 24 bytes or more, that have one mark: what
/// one eight has more, another has less. Names are compared from their end on,
/// so these eights are the first. They ascend.
fn values_of_one_mark(many: usize, length: usize) -> Vec<String> {
    let two = |i: usize| format!("{i:08}{:08}", 99_999_999 - i);
    let name = |i| two(i) + &"n".repeat(length - 16);
    (0..many).map(name).collect()
}

/// Names of values of one length whose marks share a place in a table. They
/// ascend.
fn values_of_one_place(many: usize, length: usize) -> Vec<String> {
    let name = |i: usize| format!("{i:06}") + &"n".repeat(length - 6);
    let good = (0..).map(name).filter(|name| value_mark(name) % 127 == 0);
    good.take(many).collect()
}

/// Whether a name stands at the first place of the registry's table.
fn at_first_place(h: u64, name: &str) -> bool {
    mark(h, name) % 127 == 0
}

impl Scale {
    /// One type whose 512 parameters share a place, and have long ends alike.
    fn colliding_parameters(self) -> Set {
        let path = |i| colliding(i) + &"p".repeat(90);
        let each = |k: usize| {
            let paths = self.group(k, path);
            field("", None, with_paths(constant("", 1), "o", paths))
        };
        vec![variable("", Kind::Struct((0..8).map(each).collect()))]
    }

    /// As many types as there is room for that have 512 such parameters, with
    /// names of 255 bytes. Too much for a layout.
    fn colliding_calls(self) -> Set {
        let set = self.callees(&"o".repeat(236), colliding);
        self.with_structs(set, || calls_of_all(8))
    }

    /// Names of one length whose marks share a place in the table of a reader.
    fn of_one_place(self) -> Vec<String> {
        let name = |i: usize| format!("{i:06}") + &"n".repeat(NAME - 6);
        let good = (0..).map(name).filter(|name| type_mark(name) % 127 == 0);
        good.take(self.names).collect()
    }

    /// Names of one length that have one mark of all their bytes, and are alike
    /// in those of which the first mark is made. The bytes from 8 on are tried
    /// one behind the other, those from 24 on solved for.
    fn of_one_mark(self) -> Vec<String> {
        let start = length_of(&"n".repeat(NAME));
        let begun = |i: u64| step(start, eight(format!("{i:08}").as_bytes()));
        let mark = step(begun(0), eight(b"AAAAAAAA"));
        let name = |i: u64| {
            let solved = between(begun(i), mark)?;
            let solved = std::str::from_utf8(&solved).ok()?;
            let n = "n".repeat(8);
            Some(format!("{n}{i:08}{n}{solved}") + &"n".repeat(NAME - 32))
        };
        (0..).filter_map(name).take(self.names).collect()
    }

    /// Paths under one owner of which each and its alias share a place, called
    /// as in `calls`.
    fn paths_of_one_place(self) -> Set {
        let owner = "o".repeat(240);
        let h = owner_mark(&owner);
        let whole = |alias: String| {
            let path = |i: usize| format!("{i:04}::{alias}");
            (0..).map(path).find(|path| at_first_place(h, path))
        };
        let aliases = (0..).map(|i: usize| format!("{i:05}"));
        let good = aliases.filter(|alias| at_first_place(h, alias));
        let mut paths: Vec<String> = good.filter_map(whole).take(512).collect();
        paths.sort();
        let set = self.callees(&owner, |i| paths[i].clone());
        self.with_structs(set, || calls_of_all(self.fields))
    }

    /// One text, split at each place into an owner and a path, with an end to
    /// the path so that all keys share a place. Structs call the type that
    /// refers to them. Too much for a layout.
    fn one_name_split(self) -> Set {
        let text = |from: usize, to: usize| -> String {
            let letter = |i: usize| char::from(b'a' + (i % 26) as u8);
            (from..to).map(letter).collect()
        };
        let mut ty = no_variants("0");
        for i in 1..=self.paths {
            let owner = text(0, i);
            let h = owner_mark(&owner);
            let path = |end: usize| text(i, 65) + &format!("{end:03}");
            let good = (0..).map(path).filter(|path| at_first_place(h, path));
            ty = with_paths(ty, &owner, good.take(1).collect());
        }
        let calls = || (0..self.fields).map(|_| call("0")).collect();
        self.with_structs(vec![ty], calls)
    }
}

// Values of which many are asked.

/// 500 values with names of this length fill a list, and as many nodes that ask
/// for them a layout.
const VALUE: usize = 96;

/// A layout, and a run of its first type.
struct Asked {
    layout: Layout,
    run: Run,
}

impl Asked {
    /// A type `L` of this root, others, and a list with these names.
    fn new(root: Node, others: Layout, names: &[String]) -> Asked {
        let mut layout = trees(vec!["L".to_string()]);
        layout[0].root = root;
        layout.extend(others);
        let value = |(i, name): (usize, &String)| (name.clone(), i as u64);
        Asked {
            layout,
            run: Run {
                name: "L".to_string(),
                length: u64::MAX,
                values: names.iter().enumerate().map(value).collect(),
            },
        }
    }
}

/// The sum of nodes, the first first, with few blocks open.
fn sum(mut nodes: Vec<Node>) -> Node {
    while nodes.len() > 1 {
        let two = |two: &[Node]| match two {
            [one, two] => {
                let (one, two) = (Box::new(one.clone()), Box::new(two.clone()));
                Node::new(1, Body::Two(134, one, two))
            }
            _ => two[0].clone(),
        };
        nodes = nodes.chunks(2).map(two).collect();
    }
    nodes.remove(0)
}

fn asked(name: &String) -> Node {
    Node::new(1, Body::Ref(name.clone(), None))
}

/// A record that asks for every value of a list, the last one first.
fn all_asked(names: Vec<String>) -> Asked {
    let nodes = names.iter().rev().map(asked).collect();
    Asked::new(sum(nodes), Layout::new(), &names)
}

/// A record that asks for every name, the last of which is not in the list.
fn last_absent(names: Vec<String>) -> Asked {
    let nodes = names.iter().map(asked).collect();
    Asked::new(sum(nodes), Layout::new(), &names[..names.len() - 1])
}

impl Scale {
    /// Bytes of a value's name: short ones keep a list small.
    fn value_bytes(self) -> usize {
        if self.fills {
            VALUE
        } else {
            24
        }
    }

    /// Names that differ in three digits in their middle.
    fn values_alike(self) -> Vec<String> {
        let half = "n".repeat(self.value_bytes() / 2);
        let name = |i| format!("{half}{i:03}{}", &half[3..]);
        (0..self.values).map(name).collect()
    }

    /// A type that lists names of values as parameters and asks for them, and a
    /// record that asks for some, so that there is an index, and calls it again
    /// and again: each call asks for each name. There is room for 190 calls, with
    /// which the attack would take minutes.
    fn handed(self, names: Vec<String>) -> Asked {
        let mut called = trees(vec![String::new()]);
        let param = |name: &String| Param {
            name: name.clone(),
            text: None,
            derived: false,
        };
        called[0].params = names.iter().map(param).collect();
        called[0].root = sum(names.iter().map(asked).collect());
        let many = if self.fills { 40 } else { self.fields };
        let call = || Node::new(1, Body::Call(String::new(), Vec::new()));
        let first = names.iter().take(60).map(asked);
        let nodes = first.chain((0..many).map(|_| call())).collect();
        Asked::new(sum(nodes), called, &names)
    }

    /// Short names leave room in the layout.
    fn handed_one_place(self) -> Asked {
        self.handed(values_of_one_place(self.values, 8))
    }

    fn handed_one_mark(self) -> Asked {
        self.handed(values_of_one_mark(self.values, 32))
    }
}

#[cfg(test)]
mod tests {
    use super::*;

    fn assert_one_length(names: &[String], length: usize) {
        let text = |name: &String| name.bytes().all(|b| (0x20..0x7F).contains(&b));
        assert!(names.windows(2).all(|two| two[0] < two[1]));
        assert!(names.iter().all(|name| name.len() == length && text(name)));
    }

    fn assert_one(names: &[String], mark: impl Fn(&str) -> u64) {
        let first = mark(&names[0]);
        assert!(names.iter().all(|name| mark(name) == first));
    }

    /// The numbers of crates/name_marks/proofs/Worked.antt.
    #[test]
    fn marks_by_a_sum() {
        let large = "z".repeat(32);
        for (name, mark) in [
            ("abcdefgh", 9_919_595_624_331_532_684),
            ("abcdefghi", 9_737_636_600_716_664_590),
            ("aaaaaaaabbbbbbbbcccccccc", 11_834_403_638_736_806_878),
            ("bbbbbbbbaaaaaaaacccccccc", 11_834_403_638_736_806_878),
            (&large, 11_629_930_687_621_600_819),
        ] {
            assert_eq!(value_mark(name), mark, "{name}");
        }
    }

    /// Names of values ascend, and their marks are as they are made to be.
    #[test]
    fn marks_of_values() {
        let many = FULL.values + 1;
        for length in [32, VALUE] {
            let names = values_of_one_mark(many, length);
            assert_one_length(&names, length);
            assert_one(&names, value_mark);
        }
        for length in [8, VALUE] {
            let names = values_of_one_place(many, length);
            assert_one_length(&names, length);
            assert_one(&names, |name| value_mark(name) % 127);
        }
    }

    /// So do those of types.
    #[test]
    fn marks_of_types() {
        let names = FULL.of_one_mark();
        assert_one_length(&names, NAME);
        assert_one(&names, type_mark);
        assert_one(&names, |name| mark_apart(name, 8));
        let names = FULL.of_one_place();
        assert_one_length(&names, NAME);
        assert_one(&names, |name| type_mark(name) % 127);
    }
}
