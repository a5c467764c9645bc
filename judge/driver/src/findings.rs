//! The inputs behind docs/DIFFERENCES.md: each is small, and put to the rules
//! and to the Rust whether or not an added refusal decides.

use crate::call::Call;
use crate::data::*;
use crate::rules::{build, eval, read};
use crate::text::{hex, show_tree};
use crate::{rust, write};
use std::panic::catch_unwind;

pub struct Finding {
    pub name: &'static str,
    pub set: Option<Set>,
    pub layout: Option<Layout>,
    pub runs: Vec<Run>,
    /// False where the Rust would not end.
    pub ends: bool,
}

// Short ways to write the parts.

fn ty(name: &str, size: Option<u64>, refs: &[(&str, &[&str])], kind: Kind) -> Type {
    let owner = |(name, paths): &(&str, &[&str])| Owner {
        name: name.to_string(),
        paths: paths.iter().map(|p| p.to_string()).collect(),
    };
    Type {
        name: name.to_string(),
        size,
        align: 1,
        refs: refs.iter().map(owner).collect(),
        kind,
    }
}

fn byte() -> Type {
    ty("", Some(1), &[], Kind::Primitive)
}

fn path(text: &str) -> Expr {
    Expr::Path(text.split('.').map(str::to_string).collect())
}

fn array(jagged: bool, element: Type, size: Expr) -> Kind {
    Kind::Array(jagged, Box::new(element), size)
}

fn field(name: &str, offset: Option<u64>, ty: Type) -> Field {
    Field {
        name: name.to_string(),
        offset,
        ty,
    }
}

fn reference(name: &str, target: &str) -> Type {
    ty(name, None, &[], Kind::Reference(target.to_string()))
}

fn run(name: &str, length: u64, values: &[(&str, u64)]) -> Run {
    Run {
        name: name.to_string(),
        length,
        values: values.iter().map(|(k, n)| (k.to_string(), *n)).collect(),
    }
}

fn of_set(name: &'static str, set: Set, runs: Vec<Run>) -> Finding {
    Finding {
        name,
        set: Some(set),
        layout: None,
        runs,
        ends: true,
    }
}

fn of_layout(name: &'static str, layout: Layout, runs: Vec<Run>) -> Finding {
    Finding {
        name,
        set: None,
        layout: Some(layout),
        runs,
        ends: true,
    }
}

fn tree(name: &str, root: Node) -> Tree {
    Tree {
        name: name.to_string(),
        align: 1,
        root,
        params: Vec::new(),
    }
}

fn number(n: u64) -> Node {
    Node::new(1, Body::Const(n))
}

fn two(kind: u16, left: Node, right: Node) -> Node {
    Node::new(1, Body::Two(kind, Box::new(left), Box::new(right)))
}

pub fn all() -> Vec<Finding> {
    let mut out = intended_limits();
    out.extend(intended_builds());
    out.extend(intended_runs());
    out.extend(registry());
    out.extend(jagged_arrays());
    out.extend(nested_arrays());
    out.extend(array_owners());
    out.extend(sums());
    out.extend(tags());
    out.extend(payload_sizes());
    out.extend(structs());
    out
}

/// 3, 4 and 6: what the Rust, with maps and strings of any size, takes.
fn intended_limits() -> Vec<Finding> {
    let fields = (0..65).map(|_| field("", None, byte())).collect();
    let many = ty("T", Some(0), &[], Kind::Struct(fields));
    let twice = [1, 2].map(|n| ty("T", Some(n), &[], Kind::Primitive));
    let above = ty("\u{7f}", Some(1), &[], Kind::Primitive);
    vec![
        of_set("3 the byte 0x7F", vec![above], vec![]),
        of_set("4 65 fields", vec![many], vec![]),
        of_set("6 two types of one name", twice.to_vec(), vec![]),
    ]
}

fn intended_builds() -> Vec<Finding> {
    let long = "o".repeat(128);
    let sum = ty("T", None, &[(&long, &[&long[..127]])], Kind::Union(vec![]));
    let wrap = Kind::Struct(vec![field("f", Some(u64::MAX), byte())]);
    vec![
        of_set("16 offset and size", vec![ty("T", None, &[], wrap)], vec![]),
        of_set("17 a name of 256 bytes", vec![sum], vec![]),
        of_set("17 a text of 256 bytes", vec![long_text()], vec![]),
        of_set("17 513 entries", full(), vec![]),
        of_set("18 a layout above 65,536 bytes", big(), vec![]),
    ]
}

/// The text `owner:path` is longer than the name where the path holds its owner.
fn long_text() -> Type {
    let o = "o".repeat(126);
    let p = format!("{o}.xx");
    let union = ty("", None, &[], Kind::Primitive);
    ty(
        "T",
        None,
        &[(&o, &[&p])],
        Kind::Struct(vec![field(&o, None, union)]),
    )
}

/// Nine types of 57 paths, and one that calls them all: 513 entries.
fn full() -> Set {
    let mut set = Vec::new();
    let mut fields = Vec::new();
    for i in 0..9 {
        let name = i.to_string();
        let paths: Vec<String> = (0..57).map(|k| format!("{k:02}")).collect();
        let paths: Vec<&str> = paths.iter().map(String::as_str).collect();
        set.push(ty(&name, Some(0), &[(&name, &paths)], Kind::Primitive));
        fields.push(field("f", None, reference("", &name)));
    }
    set.push(ty("T", None, &[], Kind::Struct(fields)));
    set
}

/// One type of long paths, called by three.
fn big() -> Set {
    let paths: Vec<String> = (0..64)
        .map(|k| format!("{k:02}{}", "x".repeat(200)))
        .collect();
    let paths: Vec<&str> = paths.iter().map(String::as_str).collect();
    let mut set = vec![ty("M", Some(0), &[("o", &paths)], Kind::Primitive)];
    set.extend(["A", "B"].iter().map(|n| reference(n, "M")));
    set
}

fn intended_runs() -> Vec<Finding> {
    let above = two(134, number(u64::MAX), number(1));
    let back = two(135, above.clone(), number(1));
    let shift = two(142, number(1 << 63), number(127));
    let call = |i: usize| Node::new(1, Body::Call(format!("{i:02}"), vec![]));
    let mut chain: Layout = (0..17)
        .map(|i| tree(&format!("{i:02}"), call(i + 1)))
        .collect();
    chain.push(tree("17", number(5)));
    let itself = Node::new(1, Body::Call("L".to_string(), vec![]));
    let mut endless = of_layout(
        "27 a type that calls itself",
        vec![tree("L", itself)],
        vec![run("L", 9, &[])],
    );
    endless.ends = false;
    vec![
        of_layout(
            "26 a sum of 2^64",
            vec![tree("L", above)],
            vec![run("L", u64::MAX, &[])],
        ),
        of_layout(
            "26 on the way",
            vec![tree("L", back)],
            vec![run("L", u64::MAX, &[])],
        ),
        of_layout(
            "26 2^63 left 127",
            vec![tree("L", shift)],
            vec![run("L", 9, &[])],
        ),
        endless,
        of_layout(
            "27 the 17th open call",
            chain,
            vec![run("00", 9, &[]), run("01", 9, &[])],
        ),
        of_layout("20 the asked name", vec![], vec![run("L", 9, &[])]),
    ]
}

fn registry() -> Vec<Finding> {
    let array_of = |owner, text| {
        let size = array(false, byte(), path(text));
        vec![ty("T", None, &[(owner, &["p::q.r"])], size)]
    };
    let collide = ty("T", None, &[("T", &["variant"])], Kind::Union(vec![]));
    let refs = &[("a", &["b.c"][..]), ("a.b", &["c"][..])];
    let one_name = ty("T", None, refs, Kind::Union(vec![]));
    let itself = array_of("q", "p::q.r");
    let ask = vec![run("T", 0, &[("T.variant", 0)])];
    let dotted = "one key, two names: empty and owner with a dot";
    vec![
        of_set("alias not normalised", array_of("q", "q.r"), vec![]),
        of_set("alias not normalised: the path itself", itself, vec![]),
        of_set("alias found", array_of("o", "q.r"), vec![]),
        two_names(dotted, "a", &["", "a."], ("a", 1)),
        two_names(
            "one key, two names: an alias",
            "o",
            &["p::q", "q"],
            ("o.p::q", 1),
        ),
        of_set("a made name meets a path's name", vec![collide], ask),
        of_set("one name of two owners", vec![one_name], vec![]),
        lost_below(),
        handed_down(),
    ]
}

fn two_names(name: &'static str, owner: &str, paths: &[&str], value: (&str, u64)) -> Finding {
    let callee = ty("C", Some(0), &[(owner, paths)], Kind::Primitive);
    let set = vec![callee, reference("T", "C")];
    of_set(name, set, vec![run("T", 0, &[value])])
}

/// A calls B, B calls C; C asks for x.n, which B does not list.
fn lost_below() -> Finding {
    let x = &[("x", &["n"][..])];
    let asks = ty("C", None, x, array(false, byte(), path("n")));
    let mut set = vec![reference("A", "B"), reference("B", "C"), asks];
    set[0].refs = ty("", None, x, Kind::Primitive).refs;
    let mut layout = build::build_set(&set).unwrap();
    // A build lists what a callee needs; a layout from elsewhere may not.
    layout[1].params.clear();
    if let Body::Call(_, arguments) = &mut layout[1].root.body {
        arguments.clear();
    }
    of_layout("lost below", layout, vec![run("A", 9, &[("x.n", 3)])])
}

/// `__buffer_size` does not reach a called type that does not list it.
fn handed_down() -> Finding {
    let size = path("__buffer_size");
    let root = ty("C", None, &[("o", &[])], array(false, byte(), size));
    let set = vec![root, reference("T", "C")];
    of_set(
        "__buffer_size below a call",
        set,
        vec![run("C", 9, &[]), run("T", 9, &[])],
    )
}

fn size_n() -> Expr {
    path("n")
}

fn jagged_arrays() -> Vec<Finding> {
    let refs = &[("l", &["element.n"][..])];
    let one = |size, ty| field("l", None, Type { size, ..ty });
    let jagged = ty("", None, &[], array(true, byte(), path("element.n")));
    let still = ty("", None, &[], array(true, byte(), size_n()));
    let dropped = ty("T", None, refs, Kind::Struct(vec![one(None, jagged)]));
    let constant = ty("T", Some(1), refs, Kind::Struct(vec![one(Some(1), still)]));
    let values = &[("l.element.n", 3)];
    let constant_name = "jagged element dropped in a constant struct";
    vec![
        of_set(
            "jagged element dropped",
            vec![dropped],
            vec![run("T", 9, values)],
        ),
        of_set(constant_name, vec![constant], vec![]),
    ]
}

fn nested_arrays() -> Vec<Finding> {
    let owned = |paths: &[&str], kind| vec![ty("T", None, &[("array", paths)], kind)];
    let inner = |size| ty("", None, &[], array(false, byte(), size));
    let nothing = Expr::Path(vec![]);
    let nested = owned(&["n"], array(true, inner(size_n()), size_n()));
    let plain = owned(&["element.n", "n"], array(false, inner(size_n()), size_n()));
    let summed = owned(&["n"], array(true, reference("", "T"), size_n()));
    let empty = array(false, inner(nothing.clone()), nothing);
    let element = owned(&["", "element"], empty);
    let never = owned(&["n"], array(false, inner(path("__buffer_size")), size_n()));
    let ask = vec![run("T", 9, &[])];
    vec![
        of_set("jagged array of a variable array", nested, vec![]),
        of_set("array of a variable array", plain, vec![]),
        of_set("jagged array of a variable type reference", summed, ask),
        of_set("element before an empty path", element, vec![]),
        of_set("__buffer_size never prefixed", never, vec![]),
    ]
}

fn array_owners() -> Vec<Finding> {
    let two = || array(false, byte(), Expr::Literal(3, 2));
    let no_paths = vec![ty("T", None, &[("o", &[])], two())];
    let no_owner = vec![ty("T", None, &[], two())];
    let owners = &[("T", &["n"][..]), ("a", &["n"][..]), ("array", &["n"][..])];
    let of = |name, refs| vec![ty(name, None, refs, array(false, byte(), size_n()))];
    let two_owners = of("a", &owners[..2]);
    vec![
        of_set(
            "root array, owner without paths",
            no_paths,
            vec![run("T", 2, &[])],
        ),
        of_set("root array, no owner", no_owner, vec![]),
        of_set("array owner: array first", of("T", owners), vec![]),
        of_set("array owner: then the type's name", two_owners, vec![]),
        of_set(
            "array owner: behind the last ::",
            of("p::a", owners),
            vec![],
        ),
    ]
}

fn sums() -> Vec<Finding> {
    let union = ty("u", None, &[], Kind::Union(vec![field("v", None, byte())]));
    let summed = ty(
        "T",
        None,
        &[("f", &["n"])],
        Kind::Struct(vec![field("f", None, union.clone())]),
    );
    let unpathed = ty(
        "T",
        None,
        &[("f", &[])],
        Kind::Struct(vec![field("f", None, union)]),
    );
    let sized = SizedVariant {
        name: "v".to_string(),
        size: 2,
        ty: byte(),
    };
    let sized = ty("u", None, &[], Kind::Sized(vec![sized]));
    let switch = ty("T", None, &[], Kind::Struct(vec![field("f", None, sized)]));
    let empty = ty("T", None, &[], Kind::Struct(vec![]));
    vec![
        of_set(
            "variable union as a field",
            vec![summed],
            vec![run("T", 9, &[("f.n", 3)])],
        ),
        of_set(
            "sized union as a field",
            vec![switch],
            vec![run("T", 9, &[("u.payload_size", 2)])],
        ),
        of_set("struct without fields", vec![empty], vec![]),
        of_set("owner without paths in a sum", vec![unpathed], vec![]),
    ]
}

fn enumeration(name: &str, refs: &[(&str, &[&str])], tag: Expr) -> Type {
    ty(name, None, refs, Kind::Enum(tag, vec![]))
}

fn both(kind: u16, left: Expr, right: Expr) -> Expr {
    Expr::Two(kind, Box::new(left), Box::new(right))
}

fn tags() -> Vec<Finding> {
    let of = |name, path: &str, tag| {
        let marked = enumeration("T", &[("T", &[path])], tag);
        of_set(name, vec![marked], vec![])
    };
    let of_two = |name, kind| of(name, "n", both(kind, path("n"), path("n")));
    let one = |kind, e| Expr::One(kind, Box::new(e));
    let empty = Expr::Path(vec![String::new()]);
    let buffer = enumeration("T", &[], path("__buffer_size"));
    let parent = enumeration("p::T", &[("p::T", &["p::a::b"])], path("a::b"));
    vec![
        of("marks: not (81)", "n", one(81, path("n"))),
        of_two("marks: power (73)", 73),
        of_two("marks: comparison (83)", 83),
        of_two("marks: logical exclusive or (91)", 91),
        of("marks: no segments", "", one(79, Expr::Path(vec![]))),
        of("marks: one empty segment", "", one(79, empty)),
        of_set("__buffer_size in a tag", vec![buffer], vec![]),
        of_set("parent path", vec![parent], vec![]),
    ]
}

fn payload_sizes() -> Vec<Finding> {
    let of = |refs: &[(&str, &[&str])]| {
        let inner = enumeration("e", &[], path("n"));
        vec![ty(
            "T",
            None,
            refs,
            Kind::Struct(vec![field("f", None, inner)]),
        )]
    };
    let own = of(&[("f", &["x.payload_size"])]);
    let ask = vec![run("T", 9, &[("f.x.payload_size", 3)])];
    vec![
        of_set("payload-size enum", own, ask),
        of_set("the same without the payload size", of(&[]), vec![]),
    ]
}

fn structs() -> Vec<Finding> {
    let prim = ty("", None, &[], Kind::Primitive);
    let refs = &[("f", &["n"][..])];
    let still = Kind::Struct(vec![
        field("f", Some(0), prim.clone()),
        field("g", Some(4), byte()),
    ]);
    let back = Kind::Struct(vec![
        field("a", Some(4), byte()),
        field("b", Some(0), byte()),
        field("f", Some(2), prim),
    ]);
    vec![
        of_set(
            "a variable field does not move the prefix",
            vec![ty("T", None, refs, still)],
            vec![],
        ),
        of_set(
            "a lower offset moves the prefix back",
            vec![ty("T", None, refs, back)],
            vec![],
        ),
    ]
}

impl Finding {
    fn layout(&self) -> Option<Layout> {
        match (&self.set, &self.layout) {
            (Some(set), _) => build::build_set(set).ok(),
            (None, layout) => layout.clone(),
        }
    }

    /// The calls as they go into the stored list.
    pub fn calls(&self) -> Vec<Call> {
        let mut out = Vec::new();
        if let Some(set) = &self.set {
            out.push(Call::Build {
                words: WORDS,
                room: LIMIT as u64,
                set: write::set(set),
            });
        }
        if let Some(layout) = self.layout() {
            out.extend(self.runs.iter().map(|r| Call::Validate {
                words: WORDS,
                length: r.length,
                layout: write::layout(&layout),
                name: r.name.as_bytes().to_vec(),
                values: write::values(&r.values),
            }));
        }
        out
    }

    fn show(&self) {
        println!("## {}", self.name);
        if let Some(set) = &self.set {
            let bytes = write::set(set);
            println!("set ({} bytes) {}", bytes.len(), hex(&bytes));
            show_build(set, &bytes);
        }
        if let Some(layout) = &self.layout {
            let bytes = write::layout(layout);
            println!("layout ({} bytes) {}", bytes.len(), hex(&bytes));
        }
        if let Some(layout) = self.layout() {
            self.runs
                .iter()
                .for_each(|r| show_run(&layout, r, self.ends));
        }
    }
}

fn show_build(set: &Set, bytes: &[u8]) {
    match build::build(bytes, WORDS, LIMIT as u64) {
        Ok(layout) => println!("  rules: layout of {} bytes", layout.len()),
        Err(no) => println!("  rules: {no:?}"),
    }
    match catch_unwind(|| rust::build(set, usize::MAX)) {
        Err(_) => println!("  Rust: panic"),
        Ok(Err(e)) => println!("  Rust: number and place {e:?}"),
        Ok(Ok(layout)) => {
            println!("  Rust: layout of {} bytes", write::layout(&layout).len());
            if bytes.len() < 600 {
                layout.iter().for_each(|t| println!("    {}", show_tree(t)));
            }
        }
    }
}

fn show_run(layout: &Layout, run: &Run, ends: bool) {
    let bytes = write::layout(layout);
    let read = read::layout(&bytes).unwrap();
    println!(
        "  run {} length {} values {:?}",
        run.name, run.length, run.values
    );
    let ours = eval::required(&read, run.name.as_bytes(), run.length, &run.values);
    println!("    rules: {ours:?}");
    if !ends {
        return println!("    Rust: not run, it would not end");
    }
    let judge = rust::Judge::new(layout);
    let theirs = judge.validate(run.name.as_bytes(), run.length, &run.values);
    println!("    Rust: {theirs:?}");
}

pub fn show_all() -> Result<(), String> {
    // The Rust's panic on 16 is told in one word.
    std::panic::set_hook(Box::new(|_| {}));
    all().iter().for_each(Finding::show);
    show_wide();
    Ok(())
}

/// A value of 128 bits can't stand in a block: the Rust alone is asked.
fn show_wide() {
    let case = Case {
        tag: 5,
        node: number(1),
        params: Vec::new(),
    };
    let switch = Body::Switch("t".to_string(), vec![case], None);
    let layout = vec![tree("L", Node::new(1, switch))];
    println!("## values of 128 bits");
    println!("layout {}", hex(&write::layout(&layout)));
    let values = [("t".to_string(), (1 << 64) + 5)].into();
    let theirs = rust::Judge::new(&layout).validate_wide(b"L", 9, &values);
    println!("  run L length 9 values t = 2^64 + 5\n    Rust: {theirs:?}");
}
