//! What the drawing of a layout says of each node, and what an answer in words says.

mod common;

use ciztarmo::Work;
use ciztarmo_text::commands;
use ciztarmo_text::model::{Shape, Type};
use common::stored_sets;

fn drawn(layout: &str) -> String {
    let done = commands::tree("t", layout.as_bytes()).unwrap();
    String::from_utf8(done.output).unwrap()
}

/// The lines below a type `T` of these nodes.
fn nodes(lines: &str, drawing: &str) {
    let whole = format!("layout\n  type T align 8\n{lines}");
    assert_eq!(drawn(&whole), format!("T, alignment 8\n{drawing}"));
}

#[test]
fn nodes_without_nodes() {
    nodes("    zero-size\n", "  count = 0\n  └─ no bytes\n");
    nodes("    const 4\n", "  count = 4\n  └─ constant 4\n");
    nodes("    field-ref n\n", "  count = n\n  └─ value n\n");
    nodes(
        "    field-ref n parameter a.n\n",
        "  count = a.n\n  └─ value a.n, path n\n",
    );
    nodes("    call-nested T\n", "  count = count(T)\n  └─ call T\n");
    nodes(
        "    call-nested \"T x\"\n      argument a from a\n      argument b from \"\"\n",
        "  count = count(\"T x\")\n  └─ call \"T x\" with a, b from \"\"\n",
    );
}

#[test]
fn two_operands() {
    let words = [
        ("add-checked", "add", "+"),
        ("sub-checked", "subtract", "-"),
        ("mul-checked", "multiply", "*"),
        ("div-checked", "divide", "/"),
        ("mod-checked", "remainder", "%"),
        ("bit-and", "bits and", "&"),
        ("bit-or", "bits or", "|"),
        ("bit-xor", "bits exclusive or", "^"),
        ("left-shift", "shift left", "<<"),
        ("right-shift", "shift right", ">>"),
    ];
    for (node, word, sign) in words {
        nodes(
            &format!("    {node}\n      const 1\n      field-ref n\n"),
            &format!(
                "  count = 1 {sign} n\n  └─ {word}: 1 {sign} n\n     ├─ constant 1\n     └─ value n\n"
            ),
        );
    }
}

#[test]
fn alignment_and_sums() {
    nodes(
        "    align-up 8\n      align-up 0\n        const 3\n",
        "  count = up(3, 8)\n  └─ align up to 8\n     └─ align up to 0\n        └─ constant 3\n",
    );
    nodes(
        "    add-checked\n      add-checked\n        const 1\n        const 2\n      add-checked\n        const 3\n        const 4\n",
        "  count = 1 + 2 + (3 + 4)
  └─ sum of these 3: 1 + 2 + (3 + 4)
     ├─ constant 1
     ├─ constant 2
     └─ add: 3 + 4
        ├─ constant 3
        └─ constant 4
",
    );
    nodes(
        "    sub-checked\n      sub-checked\n        const 3\n        const 2\n      const 1\n",
        "  count = (3 - 2) - 1
  └─ subtract: (3 - 2) - 1
     ├─ subtract: 3 - 2
     │  ├─ constant 3
     │  └─ constant 2
     └─ constant 1
",
    );
    nodes(
        "    sum-over-array element E field legs\n      field-ref n\n",
        "  count = sum(legs)
  └─ sum of the elements E of legs, always refused (24)
     └─ count: value n
",
    );
}

#[test]
fn switches_and_parameters() {
    nodes(
        "    switch k\n      case 1\n        const 4\n      case 2\n        zero-size\n        parameter a\n        parameter b\n      default\n        align-up 2\n          const 9\n    parameter k description \"the kind\" derived\n    parameter a\n",
        "  parameter k, derived: the kind
  parameter a
  count = switch(k; 1: 4, 2: 0, any: up(9, 2))
  └─ switch on k
     ├─ 1: constant 4
     ├─ 2 (a, b): no bytes
     └─ any other: align up to 2
        └─ constant 9
",
    );
    nodes(
        "    switch k\n      case 1\n        const 4\n      case 1\n        const 5\n",
        "  count = switch(k; 1: 4, 1: 5)\n  └─ switch on k\n     ├─ 1: constant 4\n     └─ 1: constant 5\n",
    );
}

/// A formula that would be long is left out, the nodes are not.
#[test]
fn long_formulas() {
    let name = "a".repeat(40);
    let lines = format!("    add-checked\n      field-ref {name}\n      field-ref {name}\n");
    nodes(
        &lines,
        &format!(
            "  count = {name} + {name}\n  └─ add\n     ├─ value {name}\n     └─ value {name}\n"
        ),
    );
    let name = "a".repeat(80);
    let lines = format!("    add-checked\n      field-ref {name}\n      field-ref {name}\n");
    nodes(
        &lines,
        &format!("  └─ add\n     ├─ value {name}\n     └─ value {name}\n"),
    );
}

#[test]
fn several_types() {
    let two = "layout\n  type A\n    zero-size\n  type B\n    zero-size\n";
    let both = "A, alignment 1\n  count = 0\n  └─ no bytes\n\nB, alignment 1\n  count = 0\n  └─ no bytes\n";
    assert_eq!(drawn(two), both);
    assert_eq!(
        drawn(&format!("{two}layout\n{two}")),
        format!("{both}\n{both}")
    );
}

/// The lines of a set's only type that end with a name of the set, without their margins.
fn named(set: &str) -> Vec<String> {
    let tree = drawn(&format!("set\n{set}"));
    let named = tree.lines().filter(|l| l.ends_with(']'));
    let bare = |line: &str| {
        line.trim_start_matches([' ', '│', '├', '└', '─'])
            .to_string()
    };
    named.map(bare).collect()
}

#[test]
fn names_of_fields() {
    let set = "  struct T variable
    owner v paths m n
    field v primitive text variable
    field a at 2 primitive p size 0
    field \"b c\" at 3 primitive p size 2
    field late array r variable count 1u8
      owner late
      element primitive p size 4
";
    // The two values of the first field are added, like the fields.
    let lines = [
        "value v.m, path m  [field v at 0]",
        "value v.n, path n  [field v]",
        "align up to 1  [padding]",
        "no bytes  [field a, drawn at 2]",
        "align up to 1  [padding]",
        "align up to 1  [field \"b c\", drawn at 3]",
        "align up to 1  [field late]",
        "constant 4  [element]",
    ];
    assert_eq!(named(set), lines);
}

#[test]
fn offsets_of_fields() {
    let set = "  struct T variable
    field a at 0 primitive p size 3 align 4
    field b at 2 primitive p size 1
    field c primitive p size 1
    field d at 8 primitive p size 1
";
    let lines = [
        "align up to 4  [field a at 0]",
        "align up to 1  [field b at 4, drawn at 2]",
        "align up to 1  [field c at 5]",
        "align up to 1  [padding at 6]",
        "align up to 1  [field d at 11, drawn at 8]",
    ];
    assert_eq!(named(set), lines);
}

#[test]
fn names_of_variants() {
    let union = "  union T variable
    owner v paths n
    field u primitive p size 2
    field v primitive p variable
";
    let lines = [
        "0: align up to 1  [variant u]",
        "1 (v.n): align up to 1  [variant v]",
    ];
    assert_eq!(named(union), lines);
    // A payload-size enum is a sum; a union as a field is one too.
    let sums = "  struct T variable
    owner e paths x.payload_size
    owner u paths n
    field e enum e variable tag k
      variant a tag 1 primitive p size 1
    field u union u variable
      field b primitive p size 1
";
    let lines = [
        "align up to 1  [field e at 0]",
        "value u.n, path n  [field u]",
    ];
    assert_eq!(named(sums), lines);
}

/// On every stored set: what a node's line says is the same with and without the set, and each field
/// of a variable struct is named.
#[test]
fn names_beside_stored_trees() {
    let mut work = Work::new();
    let mut seen = 0;
    for (set, types) in stored_sets() {
        let Ok(layout) = work.build_set(&set) else {
            continue;
        };
        let tree =
            |input: &[u8]| String::from_utf8(commands::tree("t", input).unwrap().output).unwrap();
        let (named, bare) = (tree(&set), tree(&layout));
        assert_eq!(named.lines().count(), bare.lines().count());
        for (named, bare) in named.lines().zip(bare.lines()) {
            let role = named
                .strip_prefix(bare)
                .unwrap_or_else(|| panic!("{named}\n{bare}"));
            assert!(role.is_empty() || role.starts_with("  [") && role.ends_with(']'));
        }
        let fields = |ty: &Type| match (&ty.shape, ty.size) {
            (Shape::Struct(fields), None) => fields.len(),
            _ => 0,
        };
        let fields: usize = types.iter().map(fields).sum();
        let shown = named
            .lines()
            .filter(|l| l.ends_with(']') && l.contains("  [field "))
            .count();
        assert!(shown >= fields, "{named}");
        seen += fields;
    }
    assert!(seen > 100, "{seen}");
}

/// A set whose types ask for each operation.
const SET: &str = "\
set
  array Minus variable count n - 1u8
    owner Minus paths n
    element primitive u8 size 1
  array Times variable count n * n
    owner Times paths n
    element primitive u8 size 1
  array Plus variable count n + 1u8
    owner Plus paths n
    element primitive u8 size 1
  array Over variable count 8u8 / n
    owner Over paths n
    element primitive u8 size 1
  array Left variable count 1u8 << n
    owner Left paths n
    element primitive u8 size 1
  array Right variable count 1u8 >> n
    owner Right paths n
    element primitive u8 size 1
  array Up variable align 8 count n
    owner Up paths n
    element primitive u8 size 1
  struct Jagged variable
    owner legs paths n
    field legs array l variable jagged count n
      element reference e variable to Plus
  enum Kind variable tag k
    owner Kind paths k
    variant one tag 1 primitive u8 size 1
  reference Kinds variable to Kind
  reference Loop variable to Loop

";

/// The answer to a run behind this set, in words.
fn answer(run: &str, said: &str) {
    let told = commands::lengths("t", format!("{SET}run {run}").as_bytes()).unwrap();
    let told = String::from_utf8(told.output).unwrap();
    let name = run.split(' ').next().unwrap();
    assert_eq!(told, format!("t:33: {name}: {said}\n"));
}

#[test]
fn answers() {
    answer("Minus length 9\n  value Minus.n 9\n", "8 bytes of 9");
    answer("Minus length 9\n  value Minus.n 2\n", "1 byte of 9");
    answer(
        "Minus length 9\n",
        "refused 21: the value Minus.n is missing",
    );
    answer(
        "Minus length 9\n  value Minus.n 0\n",
        "refused 23: a difference is below zero",
    );
    answer(
        "Over length 9\n  value Over.n 0\n",
        "refused 23: a divisor is zero",
    );
    answer(
        "Left length 9\n  value Left.n 128\n",
        "refused 23: a shift is by 128 or more",
    );
    answer(
        "Right length 9\n  value Right.n 128\n",
        "refused 23: a shift is by 128 or more",
    );
}

#[test]
fn answers_too_large() {
    answer(
        "Left length 9\n  value Left.n 64\n",
        "refused 26: a left shift reaches 2^64",
    );
    answer(
        "Times length 9\n  value Times.n 4294967296\n",
        "refused 26: a product reaches 2^64",
    );
    let top = "18446744073709551615";
    answer(
        &format!("Plus length 9\n  value Plus.n {top}\n"),
        "refused 26: a sum reaches 2^64",
    );
    answer(
        &format!("Up length 9\n  value Up.n {top}\n"),
        "refused 26: an aligned count reaches 2^64",
    );
    answer(
        "Jagged length 9\n  value legs.n 1\n",
        "refused 24: the jagged array legs can't be summed",
    );
    answer(
        "Plus length 1\n  value Plus.n 1\n",
        "refused 25: 2 bytes are needed and 1 are there",
    );
    answer("Nobody length 1\n", "refused 20: no type has this name");
}

#[test]
fn answers_below_calls() {
    answer("Kind length 9\n", "refused 21: the value Kind.k is missing");
    answer(
        "Kind length 9\n  value Kind.k 7\n",
        "refused 22: no case for the value 7 of Kind.k",
    );
    answer(
        "Kinds length 9\n",
        "refused 21: the value Kind.k is missing",
    );
    answer(
        "Kinds length 9\n  value Kind.k 7\n",
        "refused 22: no case for the value 7 of Kind.k (in Kind)",
    );
    answer(
        "Loop length 9\n",
        "refused 27: the call of Loop would be the 17th open",
    );
}
