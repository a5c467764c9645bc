//! From a refusal of the proved calls to the line of the text that it is about, and to the byte of
//! a file of blocks.

mod common;

use ciztarmo_text::commands;
use common::{block, blocks, name, unbuilt, wrong};

/// The message for a text that reads well and whose blocks are refused.
fn refused(text: &str, message: &str) {
    assert_eq!(wrong(text), format!("t:{message}"));
    // Unchecked, it is written, and that is said.
    let done = commands::blocks("t", text.as_bytes(), true).unwrap();
    assert!(!done.output.is_empty());
    let remark = format!("t:{message}; written all the same (--unchecked)");
    assert_eq!(done.remarks, [remark]);
}

const LONG: &str = "3: a name or text is longer than 255 bytes, is not UTF-8, or has a byte below 0x20 or the byte 0x7F";

/// Lines, one for each number.
fn lines(count: usize, line: impl Fn(usize) -> String) -> String {
    (0..count).map(line).collect()
}

#[test]
fn too_long_an_input() {
    // 200 bytes and more for each type: far above 65,536, and below 256 types.
    let name = "x".repeat(250);
    let types = lines(250, |i| format!("  primitive {name}{i} size 1\n"));
    refused(
        &format!("values\n\nset\n{types}"),
        "3: refused 1: longer than 65,536 bytes",
    );
}

#[test]
fn long_names() {
    let long = "x".repeat(256);
    let fits = "x".repeat(255);
    blocks(&format!("run {fits} length 1\n"));
    refused(
        &format!("\n\nrun {long} length 1\n"),
        &format!("3: refused {LONG}"),
    );
    refused(
        &format!("set\n  primitive a size 1\n  primitive {long} size 1\n"),
        &format!("3: refused {LONG}"),
    );
    refused(
        &format!("set\n  primitive a size 1\n    owner o paths n {long}\n"),
        &format!("3: refused {LONG}"),
    );
    refused(
        &format!("run T length 1\n  value a 1\n\n  value {long} 1\n"),
        &format!("4: refused {LONG}"),
    );
    refused(
        &format!("set\n  array A variable count n + a.{long}\n    element primitive b size 1\n"),
        &format!("2: refused {LONG} (column 30)"),
    );
    refused(
        &format!("layout\n  type T\n    align-up 8\n      zero-size text {long}\n"),
        &format!("4: refused {LONG}"),
    );
    refused(
        &format!("layout\n  type T\n    switch k\n      case 1\n        zero-size\n        parameter {long}\n"),
        &format!("6: refused {LONG}"),
    );
    refused(
        &format!("layout\n  type T\n    call-nested T\n      argument a from b\n      argument a from {long}\n"),
        &format!("5: refused {LONG}"),
    );
}

#[test]
fn too_many_in_sets() {
    let field = |i| format!("    field f{i} primitive u8 size 1\n");
    blocks(&format!("set\n  struct S variable\n{}", lines(64, field)));
    let open = ", or more than 32 blocks open together";
    refused(
        &format!(
            "set\n  primitive a size 1\n  struct S variable\n{}",
            lines(65, field)
        ),
        &format!("3: refused 4: more than 64 fields{open}"),
    );
    refused(
        &format!("set\n  union U variable\n{}", lines(65, field)),
        &format!("2: refused 4: more than 64 fields{open}"),
    );
    let variant = |i| format!("    variant v tag {i} primitive u8 size 1\n");
    refused(
        &format!("set\n  enum E variable tag n\n{}", lines(65, variant)),
        &format!("2: refused 4: more than 64 variants{open}"),
    );
    let ty = |i| format!("  primitive t{i} size 1\n");
    refused(
        &format!("# the set\nset\n{}", lines(257, ty)),
        &format!("2: refused 4: more than 256 types{open}"),
    );
}

#[test]
fn too_many_small_parts() {
    let open = ", or more than 32 blocks open together";
    let owner = |i| format!("    owner o{i:02}\n");
    refused(
        &format!("set\n  primitive a size 1\n{}", lines(65, owner)),
        &format!("2: refused 4: more than 64 owners{open}"),
    );
    let paths = lines(33, |i| format!(" p{i:02}"));
    refused(
        &format!("set\n  primitive a size 1\n    owner o paths{paths}\n    owner p paths{paths}\n"),
        &format!("4: refused 4: more than 64 paths among the owners of one type{open}"),
    );
    let path = vec!["s"; 65].join(".");
    refused(
        &format!("set\n  enum E variable tag 1u8 + {path}\n"),
        &format!("2: refused 4: more than 64 segments{open} (column 29)"),
    );
}

#[test]
fn too_many_in_layouts() {
    let open = ", or more than 256 blocks open together";
    let case = |i| format!("      case {i}\n        zero-size\n");
    refused(
        &format!("layout\n  type T\n    switch k\n{}", lines(65, case)),
        &format!("3: refused 4: more than 64 cases{open}"),
    );
    let argument = |i| format!("      argument a{i} from b\n");
    refused(
        &format!(
            "layout\n  type T\n    call-nested T\n{}",
            lines(513, argument)
        ),
        &format!("3: refused 4: more than 512 arguments{open}"),
    );
    let parameter = |i| format!("    parameter p{i}\n");
    refused(
        &format!(
            "layout\n  type S\n    zero-size\n  type T\n    zero-size\n{}",
            lines(513, parameter)
        ),
        &format!("4: refused 4: more than 512 parameters{open}"),
    );
    let value = |i| format!("  value v{i:03} 1\n");
    refused(
        &format!("run T length 1\n{}", lines(513, value)),
        "514: refused 4: more than 512 values",
    );
}

/// `align-up` in `align-up`, and a node inside.
fn deep_layout(deep: usize) -> String {
    let up = |i: usize| format!("{}align-up 1\n", "  ".repeat(2 + i));
    let zero = format!("{}zero-size\n", "  ".repeat(2 + deep));
    format!("layout\n  type T\n{}{zero}", lines(deep, up))
}

#[test]
fn too_deep() {
    let count = |deep: usize| {
        let expr = format!("{}n{}", "~(".repeat(deep), ")".repeat(deep));
        format!("set\n  array A variable count {expr}\n    element primitive b size 1\n")
    };
    // Set, array and 30 expressions are 32 blocks.
    blocks(&count(29));
    refused(
        &count(30),
        "2: refused 4: more than 64 segments, or more than 32 blocks open together (column 86)",
    );
    // Layout, type and 254 nodes are 256 blocks.
    blocks(&deep_layout(253));
    refused(
        &deep_layout(254),
        "257: refused 4: more than 256 blocks open together",
    );
}

#[test]
fn literals_outside_their_types() {
    let with = |literal: &str| {
        let head = "set\n  primitive a size 1\n  array A variable count";
        format!("{head} n + {literal}\n    element primitive b size 1\n")
    };
    for literal in [
        "256u8",
        "65536u16",
        "4294967296u32",
        "128i8",
        "-129i8",
        "32768i16",
        "-32769i16",
        "2147483648i32",
        "-2147483649i32",
    ] {
        refused(
            &with(literal),
            "3: refused 5: a literal is outside its type (column 30)",
        );
    }
}

#[test]
fn names_out_of_order() {
    let order = "owners, and the paths of one owner, must ascend in byte order, each once";
    refused(
        "set\n  primitive a size 1\n    owner b\n    owner a\n",
        &format!("4: refused 6: {order}"),
    );
    refused(
        "set\n  struct s variable\n    field f primitive a size 1\n      owner a paths n m\n",
        &format!("4: refused 6: {order}"),
    );
    let twice = "an earlier type has the same name";
    refused(
        "set\n  primitive a size 1\n\n  struct a size 1\n",
        &format!("4: refused 6: {twice}"),
    );
    refused(
        "layout\n  type a\n    zero-size\n  type a\n    zero-size\n",
        &format!("4: refused 6: {twice}"),
    );
    let values = "the names of values must ascend in byte order, each once";
    refused(
        "values\n  value b 1\n  value a 1\n",
        &format!("3: refused 6: {values}"),
    );
    refused(
        "run T length 1\n  value a 1\n  # again\n  value a 1\n",
        &format!("4: refused 6: {values}"),
    );
}

/// A refusal of the build, in the set's second type, from line 3 on.
fn at(types: &str, message: &str) {
    let text = format!("set\n  primitive first size 1\n{types}");
    let told = unbuilt(&text);
    assert!(told.starts_with(&format!("t:{message}")), "{told}");
}

/// Each number of a build; tests/stumbles.rs has what is told behind it.
#[test]
fn builds() {
    at(
        "  primitive a variable\n",
        "3: refused 10: a type of this shape has no variable size: ",
    );
    at(
        "  struct a variable\n",
        "3: refused 11: references that the layout needs are missing: ",
    );
    at(
        "  enum a variable tag n\n",
        "3: refused 12: a path names no parameter: ",
    );
    let array = "  array a variable count n\n    owner array paths n\n    element";
    at(
        &format!("{array} primitive b variable\n"),
        "5: refused 13: an array can't have elements of this shape: ",
    );
    let array = "  array a variable count -1i8\n    owner array\n    element primitive b size 1\n";
    at(
        array,
        "3: refused 14: an expression of this kind can't be a size: ",
    );
    at(
        "  reference a variable to b\n",
        "3: refused 15: a type that is referred to is not in the set: ",
    );
}

#[test]
fn builds_too_large() {
    let field = "    field f at 18446744073709551615 primitive b size 1\n";
    at(
        &format!("  struct a variable\n{field}"),
        "4: refused 16: a field's offset and size together reach 2^64: ",
    );
    let owner = "x".repeat(200);
    at(
        &format!("  union a variable\n    owner {owner} paths {owner}y\n"),
        "3: refused 17: a name or text of more than 255 bytes, or more than 512 parameters or \
            arguments, would be written: ",
    );
    let fields = lines(64, |i| format!("    field f{i} primitive u8 size 1\n"));
    let structs = lines(20, |i| format!("  struct s{i:02} variable\n{fields}"));
    at(
        &structs,
        "1: refused 18: the layout is longer than 65,536 bytes, or could not be read back",
    );
}

fn says(bytes: &[u8], message: &str) {
    let got = commands::show("b", bytes, false).unwrap_err();
    assert_eq!(got, format!("b: {message}"));
}

/// What is said of blocks has the byte in the file, behind other blocks too.
#[test]
fn blocks_in_files() {
    let run = blocks("run T length 1\n");
    let start = run.len();
    let values = [&[2, 0][..], &name("b"), &[0; 8], &name("a"), &[0; 8]].concat();
    let behind = [&run[..], &block(192, &values)].concat();
    let order = "the names of values must ascend in byte order, each once";
    says(&behind, &format!("byte {start}: refused 6: {order}"));
    let zeros = block(
        193,
        &[&name("T")[..], &[0; 8], &block(192, &[0, 0, 0])].concat(),
    );
    let fit = "a block does not lie inside its parent, may not stand here, or has too many parts";
    says(
        &[&run[..], &zeros].concat(),
        &format!("byte {}: refused 2: {fit}", start + 17),
    );
}

#[test]
fn files_that_are_cut() {
    let run = blocks("run T length 1\n");
    let start = run.len();
    says(
        &run[..start - 1],
        "byte 0: refused 2: the file ends inside this block",
    );
    says(
        &[&run[..], &[0, 0]].concat(),
        &format!("byte {start}: refused 2: the file ends inside this block"),
    );
    says(
        &[1, 0, 0, 0, 36],
        "byte 0: refused 2: this block has no room for its kind",
    );
    says(
        &block(99, &[0, 0]),
        "byte 0: refused 2: a block of this kind can't stand outermost",
    );
    // 65,533 and 4 bytes are one too many; 65,532 and 4 are not.
    let long = "byte 0: refused 1: this block is longer than 65,536 bytes";
    says(&[0xfd, 0xff, 0, 0, 36, 0], long);
    says(&[0xff, 0xff, 0xff, 0xff, 36, 0], long);
    says(
        &[0xfc, 0xff, 0, 0, 36, 0],
        "byte 0: refused 2: the file ends inside this block",
    );
    says(b"", "byte 0: refused 2: no block begins here");
    says(
        b"set\n  x",
        "this is text, not blocks: `text blocks` writes it as blocks",
    );
    let texts = commands::blocks("t", &run, false).unwrap_err();
    let message = "t: these are blocks (a run first), not text: `text show` writes them as text";
    assert_eq!(texts, message);
}

/// Refused blocks can be shown unchecked as far as they have a text.
#[test]
fn shown_unchecked() {
    let values = [&[2, 0][..], &name("b"), &[0; 8], &name("a"), &[0; 8]].concat();
    let done = commands::show("b", &block(192, &values), true).unwrap();
    assert_eq!(done.output, b"values\n  value b 0\n  value a 0\n");
    assert_eq!(done.remarks.len(), 1);
}

/// What has no text is not shown even so.
#[test]
fn without_a_text() {
    let faulty = |bytes: Vec<u8>, message: &str| {
        let got = commands::show("b", &bytes, true).unwrap_err();
        assert_eq!(got, format!("b: {message}"));
    };
    let past = "it has no text: a part runs past the end of its block";
    faulty(
        block(192, &[0, 0, 7]),
        "byte 0: it has no text: the body is not used up",
    );
    faulty(block(192, &[1, 0]), &format!("byte 0: {past}"));
    let behind = [block(192, &[0, 0]), block(192, &[1, 0])].concat();
    faulty(behind, &format!("byte 8: {past}"));
    let accented = [&[1, 0][..], &[1, 0, 0xe9], &[0; 8]].concat();
    faulty(
        block(192, &accented),
        "byte 0: it has no text: a name is not UTF-8 at its byte 0xe9",
    );
    let control = [&[1, 0][..], &[3, 0, 0xc3, 0xa9, 0x7f], &[0; 8]].concat();
    faulty(
        block(192, &control),
        "byte 0: it has no text: a name has the byte 0x7f",
    );
    let unknown = [&[1, 0][..], &block(9, &[])].concat();
    faulty(block(36, &unknown), &format!("byte 8: {past}"));
    let set_in_run = [&name("")[..], &[0; 8], &block(36, &[0, 0])].concat();
    faulty(
        block(193, &set_in_run),
        "byte 16: it has no text: kind 36 where 192 must stand",
    );
    // The count of parameters is cut: a part of the type, behind its node.
    let zero = block(128, &[0; 9]);
    let tree = block(161, &[&name("")[..], &[0; 8], &zero, &[0]].concat());
    let layout = block(160, &[&[1, 0][..], &tree].concat());
    faulty(layout, &format!("byte 8: {past}"));
}
