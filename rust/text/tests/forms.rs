//! Every form of the text beside the bytes that it stands for.

mod common;

use common::{block, blocks, name, show};

/// A set with one array whose count is an expression, around the expression's bytes.
fn with_count(expr: &[u8]) -> Vec<u8> {
    let byte = typed(1, "b", Some(1), 1, &[]);
    let parts = [&[0][..], &byte, expr].concat();
    block(36, &[&[1, 0][..], &typed(5, "A", None, 1, &parts)].concat())
}

/// A type without owners: kind, name, size, alignment, what stands behind the head.
fn typed(kind: u16, title: &str, size: Option<u64>, align: u64, behind: &[u8]) -> Vec<u8> {
    let mut body = name(title);
    body.push(u8::from(size.is_none()));
    body.extend(size.iter().flat_map(|s| s.to_le_bytes()));
    body.extend(align.to_le_bytes());
    body.extend(block(32, &[0, 0]));
    body.extend(behind);
    block(kind, &body)
}

fn literal(code: u8, number: u64) -> Vec<u8> {
    block(64, &[&[code][..], &number.to_le_bytes()].concat())
}

fn path(segments: &[&str]) -> Vec<u8> {
    let mut body = (segments.len() as u16).to_le_bytes().to_vec();
    body.extend(segments.iter().flat_map(|s| name(s)));
    block(65, &body)
}

/// The expression stands for these bytes, both ways.
fn is(text: &str, expr: Vec<u8>) {
    let whole = format!("set\n  array A variable count {text}\n    element primitive b size 1\n");
    let bytes = with_count(&expr);
    assert_eq!(blocks(&whole), bytes, "{text}");
    assert_eq!(show(&bytes), whole);
}

/// The expression stands for the same bytes as its one form.
fn reads_as(text: &str, form: &str) {
    let whole =
        |e: &str| format!("set\n  array A variable count {e}\n    element primitive b size 1\n");
    assert_eq!(show(&blocks(&whole(text))), whole(form));
}

#[test]
fn literals() {
    is("18446744073709551615u64", literal(0, u64::MAX));
    is("4294967295u32", literal(1, u32::MAX.into()));
    is("65535u16", literal(2, u16::MAX.into()));
    is("255u8", literal(3, u8::MAX.into()));
    is("9223372036854775807i64", literal(4, i64::MAX as u64));
    is("-9223372036854775808i64", literal(4, i64::MIN as u64));
    is("-2147483648i32", literal(5, i64::from(i32::MIN) as u64));
    is("-32768i16", literal(6, i64::from(i16::MIN) as u64));
    is("-128i8", literal(7, -128_i64 as u64));
    is("0i8", literal(7, 0));
    reads_as("-0i8", "0i8");
}

#[test]
fn paths() {
    is("n", path(&["n"]));
    is("a.b.c", path(&["a", "b", "c"]));
    is("\"a.b\".c", path(&["a.b", "c"]));
    is("\"a.b.c\"", path(&["a.b.c"]));
    is("p::q.r", path(&["p::q", "r"]));
    is("\"\"", path(&[""]));
    is("\"\".\"\"", path(&["", ""]));
    is(".", path(&[]));
    is("\"0\".\"a b\"", path(&["0", "a b"]));
    is(r#""say \"\\\"""#, path(&["say \"\\\""]));
    is("\"#\".x", path(&["#", "x"]));
    is(
        "\"sizeof\".\"popcount\".\"alignof\"",
        path(&["sizeof", "popcount", "alignof"]),
    );
    is("sizeofs.a_1", path(&["sizeofs", "a_1"]));
    is("\":a\"._", path(&[":a", "_"]));
}

#[test]
fn names_in_parentheses() {
    is("sizeof(Trip)", block(66, &name("Trip")));
    is("alignof(a.b::c)", block(67, &name("a.b::c")));
    is("sizeof(\"\")", block(66, &name("")));
    is("alignof(\"a)\")", block(67, &name("a)")));
    reads_as("sizeof( Trip )", "sizeof(Trip)");
}

/// Each operator between two operands, and its kind.
const BETWEEN: [(&str, u16); 20] = [
    ("+", 68),
    ("-", 69),
    ("*", 70),
    ("/", 71),
    ("%", 72),
    ("**", 73),
    ("&", 74),
    ("|", 75),
    ("^", 76),
    ("<<", 77),
    (">>", 78),
    ("==", 83),
    ("!=", 84),
    ("<", 85),
    (">", 86),
    ("<=", 87),
    (">=", 88),
    ("&&", 89),
    ("||", 90),
    ("^^", 91),
];

#[test]
fn operators_between() {
    let (n, four) = (path(&["n"]), literal(3, 4));
    for (sign, kind) in BETWEEN {
        let two = block(kind, &[&n[..], &four].concat());
        is(&format!("n {sign} 4u8"), two.clone());
        reads_as(&format!("n{sign}4u8"), &format!("n {sign} 4u8"));
        reads_as(&format!("((n)){sign}(4u8)"), &format!("n {sign} 4u8"));
        is(
            &format!("(n {sign} 4u8) + n"),
            block(68, &[&two[..], &n].concat()),
        );
        is(
            &format!("n + (n {sign} 4u8)"),
            block(68, &[&n[..], &two].concat()),
        );
    }
}

#[test]
fn operators_before() {
    let (n, four) = (path(&["n"]), literal(3, 4));
    for (sign, kind) in [("~", 79), ("-", 80), ("!", 81)] {
        let one = block(kind, &n);
        is(&format!("{sign}n"), one.clone());
        is(&format!("{sign}({sign}n)"), block(kind, &one));
        is(
            &format!("{sign}(n + 4u8)"),
            block(kind, &block(68, &[&n[..], &four].concat())),
        );
        is(
            &format!("({sign}n) + 4u8"),
            block(68, &[&one[..], &four].concat()),
        );
        reads_as(&format!("{sign} n"), &format!("{sign}n"));
    }
    is("popcount(n)", block(82, &n));
    is(
        "popcount(n) + n",
        block(68, &[&block(82, &n)[..], &n].concat()),
    );
    is(
        "-popcount(n + 4u8)",
        block(80, &block(82, &block(68, &[&n[..], &four].concat()))),
    );
}

/// A minus before a digit belongs to the literal.
#[test]
fn signs_of_literals() {
    let (n, minus) = (path(&["n"]), literal(7, -3_i64 as u64));
    is("-3i8", minus.clone());
    is("-(3i8)", block(80, &literal(7, 3)));
    is("-(-3i8)", block(80, &minus));
    is("~-3i8", block(79, &minus));
    is("n - -3i8", block(69, &[&n[..], &minus].concat()));
    is("-3i8 - n", block(69, &[&minus[..], &n].concat()));
    reads_as("n -3i8", "n - 3i8");
    reads_as("n--3i8", "n - -3i8");
}

const TYPES: &str = "\
set
  primitive \"\" variable align 0
  struct S size 0 align 8
    field a primitive u8 size 1
    field \"\" at 7 primitive u8 size 1
  union U variable
    field at primitive u8 size 1
  enum E variable tag n
    variant v tag 9 primitive u8 size 1
  array J variable jagged count n
    element primitive u8 size 1
  sized-union Z variable
    variant v size 4 primitive u8 size 1
  reference R size 18446744073709551615 to \"S x\"
";

/// Every kind of type, each with its parts.
#[test]
fn types() {
    let byte = typed(1, "u8", Some(1), 1, &[]);
    let field = |title: &str, offset: &[u8]| block(33, &[&name(title)[..], offset, &byte].concat());
    let variant = |kind, number: u64| {
        block(
            kind,
            &[&name("v")[..], &number.to_le_bytes(), &byte].concat(),
        )
    };
    let n = path(&["n"]);
    let at_7 = field("", &[1, 7, 0, 0, 0, 0, 0, 0, 0]);
    let fields = [&[2, 0][..], &field("a", &[0]), &at_7].concat();
    let variants = [&n[..], &[1, 0], &variant(34, 9)].concat();
    let types = [
        typed(1, "", None, 0, &[]),
        typed(2, "S", Some(0), 8, &fields),
        typed(3, "U", None, 1, &[&[1, 0][..], &field("at", &[0])].concat()),
        typed(4, "E", None, 1, &variants),
        typed(5, "J", None, 1, &[&[1][..], &byte, &n].concat()),
        typed(6, "Z", None, 1, &[&[1, 0][..], &variant(35, 4)].concat()),
        typed(7, "R", Some(u64::MAX), 1, &name("S x")),
    ];
    let set = block(36, &[&[7, 0][..], &types.concat()].concat());
    assert_eq!(blocks(TYPES), set);
    assert_eq!(show(&set), TYPES);
}

/// Owners below every kind of type, with and without paths.
const OWNERS: &str = "\
set
  primitive a size 1
    owner \"\"
    owner o paths \"\" n p::q.r
  struct b size 1
    owner o paths paths
    field owner primitive u8 size 1
      owner field paths align
  union c size 1
    owner o
  enum d size 1 tag n
    owner o
  array e size 1 count n
    owner o
    element array f size 1 count n
      owner o
      element primitive u8 size 1
        owner o
  sized-union g size 1
    owner o
  reference h size 1 to a
    owner o
";

#[test]
fn owners() {
    assert_eq!(show(&blocks(OWNERS)), OWNERS);
    let owner = block(
        37,
        &[
            &name("o")[..],
            &[3, 0],
            &name(""),
            &name("n"),
            &name("p::q.r"),
        ]
        .concat(),
    );
    let bytes = blocks(OWNERS);
    assert!(bytes.windows(owner.len()).any(|w| w == owner));
}

/// A node: kind, metadata, parts.
fn node(kind: u16, align: u64, text: Option<&str>, parts: &[u8]) -> Vec<u8> {
    let mut body = align.to_le_bytes().to_vec();
    body.push(u8::from(text.is_some()));
    body.extend(text.iter().flat_map(|t| name(t)));
    body.extend(parts);
    block(kind, &body)
}

fn layout(root: &[u8]) -> Vec<u8> {
    let body = [&name("T")[..], &1u64.to_le_bytes(), root, &[0, 0]].concat();
    block(160, &[&[1, 0][..], &block(161, &body)].concat())
}

/// The node's text, below a type, stands for these bytes, both ways.
fn is_node(text: &str, root: Vec<u8>) {
    let whole = format!("layout\n  type T\n{text}");
    assert_eq!(blocks(&whole), layout(&root), "{text}");
    assert_eq!(show(&layout(&root)), whole);
}

#[test]
fn nodes_without_nodes() {
    is_node("    zero-size\n", node(128, 1, None, &[]));
    is_node(
        "    zero-size align 4 text \"\"\n",
        node(128, 4, Some(""), &[]),
    );
    is_node(
        "    const 7 align 0 text legs:n\n",
        node(129, 0, Some("legs:n"), &7u64.to_le_bytes()),
    );
    let parts = [&name("n")[..], &[1], &name("legs.n")].concat();
    is_node(
        "    field-ref n parameter legs.n\n",
        node(130, 1, None, &parts),
    );
    let parts = [&name("parameter")[..], &[0]].concat();
    is_node(
        "    field-ref parameter text align\n",
        node(130, 1, Some("align"), &parts),
    );
    let parts = [&name("Leg")[..], &[0, 0]].concat();
    is_node("    call-nested Leg\n", node(133, 1, None, &parts));
    let argument = block(164, &[name("from"), name("x y")].concat());
    let parts = [&name("Leg")[..], &[1, 0], &argument].concat();
    let text = "    call-nested Leg align 2\n      argument from from \"x y\"\n";
    is_node(text, node(133, 2, None, &parts));
}

#[test]
fn nodes_with_nodes() {
    let zero = node(128, 1, None, &[]);
    let parts = [&8u64.to_le_bytes()[..], &zero].concat();
    is_node(
        "    align-up 8 align 4\n      zero-size\n",
        node(131, 4, None, &parts),
    );
    let words = [
        "add-checked",
        "sub-checked",
        "mul-checked",
        "div-checked",
        "mod-checked",
        "bit-and",
        "bit-or",
        "bit-xor",
        "left-shift",
        "right-shift",
    ];
    let two = node(129, 1, None, &2u64.to_le_bytes());
    for (kind, word) in (134..).zip(words) {
        let text = format!("    {word}\n      zero-size\n      const 2\n");
        is_node(&text, node(kind, 1, None, &[&zero[..], &two].concat()));
    }
    let parts = [&zero[..], &name("Leg"), &name("legs")].concat();
    let text = "    sum-over-array element Leg field legs\n      zero-size\n";
    is_node(text, node(144, 1, None, &parts));
}

#[test]
fn switches() {
    let zero = node(128, 1, None, &[]);
    let parts = [&name("k")[..], &[0, 0, 0]].concat();
    is_node("    switch k\n", node(132, 1, None, &parts));
    let parameter = block(
        162,
        &[&name("p")[..], &[1], &name("its text"), &[1]].concat(),
    );
    let case =
        |tag: u64, behind: &[u8]| block(163, &[&tag.to_le_bytes()[..], &zero, behind].concat());
    let parts = [
        &name("k")[..],
        &[2, 0],
        &case(3, &[0, 0]),
        &case(3, &[&[1, 0][..], &parameter].concat()),
        &[1],
        &zero,
    ];
    let text = "    switch k
      case 3
        zero-size
      case 3
        zero-size
        parameter p description \"its text\" derived
      default
        zero-size
";
    is_node(text, node(132, 1, None, &parts.concat()));
}

#[test]
fn parameters_of_types() {
    let text = "\
layout
  type \"\" align 16
    zero-size
    parameter \"\"
    parameter description description derived
    parameter derived derived
    parameter q description \"with # and \\\\\"
  type T
    zero-size

layout
";
    assert_eq!(show(&blocks(text)), text);
    let plain = block(162, &[&name("")[..], &[0, 0]].concat());
    let described = block(
        162,
        &[&name("description")[..], &[1], &name("derived"), &[0]].concat(),
    );
    let derived = block(162, &[&name("derived")[..], &[0, 1]].concat());
    let bytes = blocks(text);
    for parameter in [plain, described, derived] {
        assert!(bytes.windows(parameter.len()).any(|w| w == parameter));
    }
}

const VALUES: &str = "\
values
  value \"\" 0
  value a.b 18446744073709551615
  value value 7

run \"\" length 18446744073709551615

run length length 0
  value \"a b\" 1

values

set
";

#[test]
fn values_and_runs() {
    let entries = [
        &[3, 0][..],
        &name(""),
        &0u64.to_le_bytes(),
        &name("a.b"),
        &u64::MAX.to_le_bytes(),
        &name("value"),
        &7u64.to_le_bytes(),
    ];
    let none = block(192, &[0, 0]);
    let one = block(
        192,
        &[&[1, 0][..], &name("a b"), &1u64.to_le_bytes()].concat(),
    );
    let bytes = [
        block(192, &entries.concat()),
        block(
            193,
            &[&name("")[..], &u64::MAX.to_le_bytes(), &none].concat(),
        ),
        block(
            193,
            &[&name("length")[..], &0u64.to_le_bytes(), &one].concat(),
        ),
        none,
        block(36, &[0, 0]),
    ];
    assert_eq!(blocks(VALUES), bytes.concat());
    assert_eq!(show(&bytes.concat()), VALUES);
}

/// What may stand around the words: comments, empty lines, spaces, other line ends, a mark at the
/// start, no line end at the end.
#[test]
fn around_the_words() {
    let plain = "run Trip length 8\n  value legs.n 3\n";
    let dressed = [
        "run Trip length 8\r\n  value legs.n 3\r\n",
        "run Trip length 8\n  value legs.n 3",
        "\u{feff}run Trip length 8\n  value legs.n 3\n",
        "# Straße\n\nrun   Trip  length 8 # é \" \t\n   # odd\n  value legs.n 3#\n\n  \n",
        "run \"Trip\" length 8   \n  value \"legs.n\" 3\n",
    ];
    for text in dressed {
        assert_eq!(show(&blocks(text)), plain);
    }
    // A backslash before the closing quote does not keep it open.
    let slash = "run \"a\\\\\" length 8";
    assert_eq!(
        show(&blocks(&format!("{slash} # \"\n"))),
        format!("{slash}\n")
    );
}
