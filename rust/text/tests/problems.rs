//! What is said of a text that can't be read, with its line and column.

mod common;

use common::wrong;

/// The message for a text, which names its file `t`.
fn says(text: impl AsRef<[u8]>, message: &str) {
    assert_eq!(wrong(text), format!("t:{message}"));
}

/// The message for a set with an array whose count is this expression; the expression begins at
/// line 2, column 26.
fn counts(expr: &str, message: &str) {
    let text = format!("set\n  array A variable count {expr}\n    element primitive b size 1\n");
    says(text, &format!("2:{message}"));
}

/// The message for a layout with a type `T` and these lines below it, from line 3.
fn nodes(lines: &str, message: &str) {
    says(format!("layout\n  type T\n{lines}"), message);
}

#[test]
fn outermost() {
    let empty = "1:1: no block stands in this text (set, layout, values or run)";
    says("", empty);
    says("\n\n  # nothing\n", empty);
    says(
        "trip\n",
        "1:1: `trip` where one of `set`, `layout`, `values`, `run` must stand",
    );
    says("set set\n", "1:5: `set` is more than belongs here");
    says(
        "set \"x\"\n",
        "1:5: a quoted name is more than belongs here",
    );
    says("values 3\n", "1:8: `3` is more than belongs here");
    says(
        "\"set\"\n",
        "1:1: a quoted name where one of `set`, `layout`, `values`, `run` must stand",
    );
}

#[test]
fn indentation() {
    says(
        "  set\n",
        "1:3: indented too deep: at most 0 spaces may stand here",
    );
    says(
        "set\n primitive a size 1\n",
        "2:2: indented by an odd number of spaces, 1: each level takes two",
    );
    says(
        "set\n    primitive a size 1\n",
        "2:5: indented too deep: at most 2 spaces may stand here",
    );
    says(
        "run T length 1\n  value a 1\n    value b 2\n",
        "3:5: indented too deep: at most 2 spaces may stand here",
    );
    says("set\n\tprimitive a size 1\n", "2:1: a tab: write spaces");
    says("set\n  primitive a\tsize 1\n", "2:14: a tab: write spaces");
}

const QUOTED: &str =
    "may stand only in quotes or in a comment: a name without quotes has letters, digits, `_`, `.` and `:` only";
const UTF_8: &str = "may stand only in a comment: save the text as UTF-8";

#[test]
fn bytes() {
    says("run 🚌 length 1\n", &format!("1:5: U+1F68C {QUOTED}"));
    says("run Kö🚌 length 1\n", &format!("1:7: U+1F68C {QUOTED}"));
    // An accent that is a character of its own.
    says("run e\u{301} length 1\n", &format!("1:6: U+0301 {QUOTED}"));
    says(
        "run “T” length 1\n",
        &format!("1:5: `“` (U+201C) {QUOTED}; a name in quotes has \" around it"),
    );
    says(
        "run\u{a0}T length 1\n",
        &format!("1:4: U+00A0 {QUOTED}; between words stand spaces (0x20)"),
    );
    // Latin-1, also at the line's end and in quotes, and a character that is cut.
    says(
        b"run a\xe9",
        &format!("1:6: the byte 0xe9, which is not UTF-8, {UTF_8}"),
    );
    says(
        b"run \"\xc3\xa9\xc3\" length 1\n",
        &format!("1:7: the byte 0xc3, which is not UTF-8, {UTF_8}"),
    );
    says(
        b"run \"\xed\xa0\x80\" length 1\n",
        &format!("1:6: the byte 0xed, which is not UTF-8, {UTF_8}"),
    );
}

#[test]
fn control_bytes() {
    says(
        "set\n  primitive a size 1\r \n",
        "2:21: the byte 0x0d may stand only in a comment",
    );
    says(
        b"set\n  primitive a\x7f size 1\n",
        "2:14: the byte 0x7f may stand only in a comment",
    );
    says(
        "set\n  primitive \"é\u{1f}\" size 1\n",
        "2:15: the byte 0x1f may stand only in a comment",
    );
}

/// A column counts characters, however many bytes they have.
#[test]
fn columns() {
    says("run 駅é length x\n", "1:15: `x` where a number must stand");
    says(
        "run \"🚌é\" length 1 2\n",
        "1:19: `2` is more than belongs here",
    );
    says(
        "set\n  array a variable count é + + b\n    element primitive b size 1\n",
        "2:30: `+` where an operand must stand",
    );
    says(
        "run é\"b\" length 1\n",
        "1:6: a quoted name without a space before it",
    );
    says("run ²é length 1\n", "1:5: the name `²é` needs quotes");
}

#[test]
fn names() {
    says("run\n", "1:4: the end of the line where a name must stand");
    says("run a-b length 1\n", "1:5: the name `a-b` needs quotes");
    says(
        "run\"a\" length 1\n",
        "1:4: a quoted name without a space before it",
    );
    says("run 7 length 1\n", "1:5: the name `7` needs quotes");
    says("run .a length 1\n", "1:5: the name `.a` needs quotes");
    says(
        "run \"a length 1\n",
        "1:5: this quote is not closed on its line",
    );
    says(
        "run \"a\\\" length 1\n",
        "1:5: this quote is not closed on its line",
    );
    says(
        "run \"a\\n\" length 1\n",
        "1:7: behind \\ in quotes stands \" or \\",
    );
    says(
        "run \"a\"b length 1\n",
        "1:8: `b` without a space before it",
    );
    says(
        "run a\"b\" length 1\n",
        "1:6: a quoted name without a space before it",
    );
    says(
        &format!("run {} length 1\n", "é-".repeat(30)),
        &format!("1:5: the name `{}..` needs quotes", "é-".repeat(20)),
    );
    let long = "x-".repeat(30);
    let cut = &long[..40];
    says(
        format!("run {long} length 1\n"),
        &format!("1:5: the name `{cut}..` needs quotes"),
    );
}

#[test]
fn numbers() {
    says(
        "run a length\n",
        "1:13: the end of the line where a number must stand",
    );
    says("run a length x\n", "1:14: `x` where a number must stand");
    says("run a length -1\n", "1:14: `-1` where a number must stand");
    says(
        "run a length \"1\"\n",
        "1:14: a quoted name where a number must stand",
    );
    says(
        "run a length 0x10\n",
        "1:14: `0x10` where a number must stand",
    );
    says("run a length 007\n", "1:14: the number 007 begins with 0");
    says(
        "run a length 18446744073709551616\n",
        "1:14: the number 18446744073709551616 is not below 2^64",
    );
    let huge = "9".repeat(1000);
    let cut = &huge[..40];
    says(
        format!("run a length {huge}\n"),
        &format!("1:14: the number {cut}.. is not below 2^64"),
    );
}

#[test]
fn types() {
    let kinds = "`primitive`, `struct`, `union`, `enum`, `array`, `sized-union`, `reference`";
    says(
        "set\n  strukt a size 1\n",
        &format!("2:3: `strukt` where one of {kinds} must stand"),
    );
    says(
        "set\n  struct a\n",
        "2:11: the end of the line where one of `size`, `variable` must stand",
    );
    says(
        "set\n  struct a size\n",
        "2:16: the end of the line where a number must stand",
    );
    says(
        "set\n  struct a size 1 aling 2\n",
        "2:19: `aling` is more than belongs here",
    );
    says(
        "set\n  enum a variable\n",
        "2:18: the end of the line where `tag` must stand",
    );
    says(
        "set\n  array a variable n\n",
        "2:20: `n` where `count` must stand",
    );
    says(
        "set\n  reference a variable b\n",
        "2:24: `b` where `to` must stand",
    );
    says(
        "set\n  reference a variable to\n",
        "2:26: the end of the line where a name must stand",
    );
    says(
        "set\n  reference a variable to b c\n",
        "2:29: `c` is more than belongs here",
    );
}

#[test]
fn below_types() {
    let field = "    field f primitive u8 size 1\n";
    says(
        format!("set\n  primitive a size 1\n{field}"),
        "3:5: `field` where `owner` must stand",
    );
    says(
        format!("set\n  reference a size 1 to b\n{field}"),
        "3:5: `field` where `owner` must stand",
    );
    says(
        format!("set\n  enum a variable tag n\n{field}"),
        "3:5: `field` where `variant` must stand",
    );
    says(
        format!("set\n  struct a variable\n{field}    owner o\n"),
        "4:5: `owner` where `field` must stand",
    );
    says(
        "set\n  array a variable count n\n",
        "2:3: this array has no element below it",
    );
    says(
        format!("set\n  array a variable count n\n{field}"),
        "3:5: `field` where one of `owner`, `element` must stand",
    );
    says(
        format!("set\n  array a variable count n\n    element primitive u8 size 1\n{field}"),
        "4:5: `field` is more than belongs here",
    );
}

#[test]
fn parts_of_types() {
    let kinds = "`primitive`, `struct`, `union`, `enum`, `array`, `sized-union`, `reference`";
    says(
        "set\n  struct a variable\n    field f at\n",
        "3:15: the end of the line where a number must stand",
    );
    says(
        "set\n  struct a variable\n    field f at 3 u8\n",
        &format!("3:18: `u8` where one of {kinds} must stand"),
    );
    says(
        "set\n  enum a variable tag n\n    variant v size 1\n",
        "3:15: `size` where `tag` must stand",
    );
    says(
        "set\n  sized-union a variable\n    variant v tag 1\n",
        "3:15: `tag` where `size` must stand",
    );
    says(
        "set\n  primitive a size 1\n    owner o n\n",
        "3:13: `n` is more than belongs here",
    );
    says(
        "set\n  primitive a size 1\n    owner o paths\n",
        "3:18: the end of the line where a name must stand",
    );
}

#[test]
fn expressions() {
    counts("", "26: the end of the line where an operand must stand");
    counts("n +", "29: the end of the line where an operand must stand");
    counts("* n", "26: `*` where an operand must stand");
    counts("n m", "28: `m` where an operator must stand");
    counts("n \"m\"", "28: a quoted name where an operator must stand");
    counts("n = m", "28: `=` where an operator must stand");
    let meet = "two operators meet: put parentheses around one of them";
    counts("n + m + n", &format!("32: {meet}"));
    counts("-n + m", &format!("29: {meet}"));
    counts("n + -m", &format!("30: {meet}"));
    counts("n + ~m", &format!("30: {meet}"));
    counts("!!n", &format!("27: {meet}"));
    counts("(n + m", "26: this parenthesis is not closed on its line");
    counts(
        "popcount(n",
        "34: this parenthesis is not closed on its line",
    );
    counts("sizeof(T", "32: this parenthesis is not closed on its line");
    counts("n + m)", "31: this parenthesis was not opened");
    counts("(n m)", "29: `m)` where ) must stand");
    counts("()", "27: `)` where an operand must stand");
}

#[test]
fn words_of_expressions() {
    counts(
        "sizeof",
        "26: sizeof needs parentheses behind it; as a segment it needs quotes",
    );
    counts(
        "popcount n",
        "26: popcount needs parentheses behind it; as a segment it needs quotes",
    );
    counts("a.alignof", "28: the segment alignof needs quotes");
    counts(
        "sizeof()",
        "33: a name must stand here, in quotes if it is not plain",
    );
    counts(
        "sizeof(3)",
        "33: a name must stand here, in quotes if it is not plain",
    );
    counts(
        "a.",
        "28: a segment must stand here, in quotes if it is not plain",
    );
    counts(
        "a..b",
        "28: a segment must stand here, in quotes if it is not plain",
    );
    counts(
        "a.3",
        "28: a segment must stand here, in quotes if it is not plain",
    );
    counts(".a", "26: a path does not begin with a dot");
    counts("..", "26: a path does not begin with a dot");
    counts("\"a", "26: this quote is not closed on its line");
    counts("$", "26: `$` where an operand must stand");
}

#[test]
fn literals() {
    let types = "(u64, u32, u16, u8, i64, i32, i16, i8)";
    counts(
        "4",
        &format!("26: a literal needs its type behind its digits {types}"),
    );
    counts(
        "4u128",
        &format!("26: a literal needs its type behind its digits {types}"),
    );
    counts(
        "n + 4x",
        &format!("30: a literal needs its type behind its digits {types}"),
    );
    counts("-4u8", "26: a literal of an unsigned type has no sign");
    counts(
        "- 4i8",
        "26: write -3i8 for the literal and -(3i8) for its negation",
    );
    counts(
        "n - - 4i8",
        "30: write -3i8 for the literal and -(3i8) for its negation",
    );
    counts("04u8", "26: the number 04 begins with 0");
    counts(
        "18446744073709551616u64",
        "26: the number 18446744073709551616 is not below 2^64",
    );
    let signed = "26: a literal of a signed type lies from -2^63 to 2^63 - 1";
    counts("9223372036854775808i64", signed);
    counts("-9223372036854775809i64", signed);
}

#[test]
fn layouts() {
    says("layout\n  trip T\n", "2:3: `trip` where `type` must stand");
    nodes("", "2:3: this type has no node below it");
    let words = "`zero-size`, `const`, `field-ref`, `align-up`, `switch`, `call-nested`, \
        `add-checked`, `sub-checked`, `mul-checked`, `div-checked`, `mod-checked`, `bit-and`, \
        `bit-or`, `bit-xor`, `left-shift`, `right-shift`, `sum-over-array`";
    nodes(
        "    add\n",
        &format!("3:5: `add` where one of {words} must stand"),
    );
    nodes(
        "    zero-size\n    zero-size\n",
        "4:5: `zero-size` where `parameter` must stand",
    );
    nodes(
        "    zero-size\n      zero-size\n",
        "4:7: `zero-size` is more than belongs here",
    );
    nodes(
        "    const\n",
        "3:10: the end of the line where a number must stand",
    );
    nodes(
        "    const 1 text t align 1\n",
        "3:20: `align` is more than belongs here",
    );
}

#[test]
fn below_nodes() {
    nodes(
        "    align-up 8\n",
        "3:5: this align-up has no node below it",
    );
    nodes("    bit-or\n", "3:5: this bit-or has no node below it");
    nodes(
        "    bit-or\n      zero-size\n",
        "3:5: this bit-or has one node below it and needs two",
    );
    nodes(
        "    bit-or\n      zero-size\n      zero-size\n      zero-size\n",
        "6:7: `zero-size` is more than belongs here",
    );
    nodes(
        "    sum-over-array element E\n",
        "3:29: the end of the line where `field` must stand",
    );
    nodes(
        "    sum-over-array element E field f\n",
        "3:5: this sum-over-array has no count node below it",
    );
    nodes(
        "    call-nested T\n      zero-size\n",
        "4:7: `zero-size` where `argument` must stand",
    );
    nodes(
        "    call-nested T\n      argument a b\n",
        "4:18: `b` where `from` must stand",
    );
    nodes(
        "    zero-size\n    parameter p derived description d\n",
        "4:25: `description` is more than belongs here",
    );
}

#[test]
fn switches() {
    nodes(
        "    switch k\n      case x\n",
        "4:12: `x` where a number must stand",
    );
    nodes(
        "    switch k\n      case 1\n",
        "4:7: this case has no node below it",
    );
    nodes(
        "    switch k\n      default\n",
        "4:7: this default has no node below it",
    );
    nodes(
        "    switch k\n      default 1\n",
        "4:15: `1` is more than belongs here",
    );
    nodes(
        "    switch k\n      zero-size\n",
        "4:7: `zero-size` where one of `case`, `default` must stand",
    );
    let default = "      default\n        zero-size\n";
    nodes(
        &format!("    switch k\n{default}{default}"),
        "6:7: `default` is more than belongs here",
    );
    nodes(
        &format!("    switch k\n{default}        zero-size\n"),
        "6:9: `zero-size` is more than belongs here",
    );
    nodes(
        "    switch k\n      case 1\n        zero-size\n        zero-size\n",
        "6:9: `zero-size` where `parameter` must stand",
    );
}

#[test]
fn values_and_runs() {
    says("run a 3\n", "1:7: `3` where `length` must stand");
    says("run a length 3 4\n", "1:16: `4` is more than belongs here");
    says(
        "run a length 3\n  legs.n 3\n",
        "2:3: `legs.n` where `value` must stand",
    );
    says(
        "values\n  value a\n",
        "2:10: the end of the line where a number must stand",
    );
    says(
        "values\n  value a 1 2\n",
        "2:13: `2` is more than belongs here",
    );
}

/// The first line that is wrong is told, even if a later one can't even be split.
#[test]
fn the_first_line_is_told() {
    says(
        "set\n  struct a\n\tx\n",
        "2:11: the end of the line where one of `size`, `variable` must stand",
    );
    says("set\n\tx\n  struct a\n", "2:1: a tab: write spaces");
}

/// Counts and names that two bytes can't say.
#[test]
fn too_many_to_write() {
    let long = "x".repeat(65_536);
    says(
        format!("run T length 1\n\nrun {long} length 1\n"),
        "3:1: a name of 65536 bytes, more than 65535",
    );
    // The name stands behind the count node, and is a part of the sum.
    nodes(
        &format!("    sum-over-array element {long} field f\n      zero-size\n"),
        "3:5: a name of 65536 bytes, more than 65535",
    );
    let paths = " p".repeat(65_536);
    says(
        format!("set\n  primitive a size 1\n    owner o paths{paths}\n"),
        "3:5: 65536 entries, more than the 65535 that a count can say",
    );
}
