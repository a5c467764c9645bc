//! What `check` warns of: what is drawn and not counted. Each case has a run beside it whose count
//! the proved call gives, so that what the warning says is counted is counted.

mod common;

use ciztarmo_text::commands;
use common::{blocks, read, stored_sets};

/// The warnings for a text, without the file's name.
fn warnings(text: &str) -> Vec<String> {
    let done = commands::check("t", text.as_bytes()).unwrap_or_else(|e| panic!("{e}\n{text}"));
    assert!(done.output.is_empty());
    let bare = |remark: &String| remark.strip_prefix("t:").unwrap().to_string();
    done.remarks.iter().map(bare).collect()
}

/// A set and a run of its first type, the count of the run, and the warnings as line, drawn,
/// counted, rule.
fn warns(set: &str, run: &str, count: &str, expected: &[(u32, &str, &str, &str)]) {
    let name = set.split(' ').find(|w| w.starts_with('T')).unwrap();
    let text = format!("set\n{set}run {name} length 1000\n{run}");
    let told = commands::lengths("t", text.as_bytes()).unwrap_or_else(|e| panic!("{e}\n{text}"));
    let told = String::from_utf8(told.output).unwrap();
    assert!(
        told.ends_with(&format!(": {name}: {count}\n")),
        "{told}\n{text}"
    );
    let wanted = expected.iter().map(|(line, drawn, counted, rule)| {
        format!("{line}: warning: drawn: {drawn}; counted: {counted}; rule: {rule}")
    });
    let wanted: Vec<String> = wanted.collect();
    assert_eq!(warnings(&text), wanted, "{text}");
}

const SUM: &str = "it is the sum of its owner's paths, and what is drawn in it is not asked";
const ADDED: &str = "fields are added one behind the other, an offset only adds padding";
const CONSTANT: &str = "a constant size is counted as it stands";
const FIRST: &str = "the first case of a tag is taken";
const NAMES: &str = "an owner's paths are those of all that have its name";
const UNLOOKED: &str = "a constant reference is not looked up";

#[test]
fn the_examples_have_none() {
    for example in ["trip.txt", "trip", "zones.txt", "transfers.txt"] {
        let input = read(&format!("examples/{example}"));
        let done = commands::check("t", &input).unwrap();
        assert!(done.remarks.is_empty(), "{:?}", done.remarks);
    }
}

#[test]
fn variable_fields() {
    warns(
        "  struct T variable\n    owner f paths a b\n    field f struct s variable\n      field x primitive p size 9\n",
        "  value f.a 2\n  value f.b 3\n",
        "5 bytes of 1000",
        &[(4, "field f of struct T is variable, with 1 field in it", "f.a + f.b", SUM)],
    );
    warns(
        "  struct T variable\n    owner f paths a\n    field f union u variable\n      field x primitive p size 9\n      field y primitive p size 7\n",
        "  value f.a 2\n",
        "2 bytes of 1000",
        &[(4, "field f of struct T is variable, with 2 fields in it", "f.a", SUM)],
    );
    // Nothing is drawn in them.
    warns(
        "  struct T variable\n    owner f paths a\n    owner g paths a\n    field f primitive p variable\n    field g struct s variable\n",
        "  value f.a 2\n  value g.a 2\n",
        "4 bytes of 1000",
        &[],
    );
    warns(
        "  struct T variable\n    owner f paths a\n    field f primitive p variable align 4\n",
        "  value f.a 2\n",
        "2 bytes of 1000",
        &[(
            4,
            "field f has the alignment 4",
            "without it",
            "a variable primitive, struct or union as a field is not aligned",
        )],
    );
    warns(
        "  struct T variable\n    owner f paths p.payload_size q\n    field f enum e variable tag k\n      variant v tag 1 primitive p size 9\n",
        "  value f.p.payload_size 2\n",
        "2 bytes of 1000",
        &[(4, "field f of struct T is variable, with 1 variant in it", "f.p.payload_size", SUM)],
    );
}

#[test]
fn variable_variants() {
    let head = "  enum T variable tag k\n    owner T paths k\n    owner v paths n\n";
    let run = "  value T.k 1\n  value v.n 2\n";
    let warned = |line: &str, inside: &str| {
        let drawn = format!("variant v of enum T is variable, with {inside} in it");
        let set = format!("{head}    variant v tag 1 {line}\n");
        warns(&set, run, "2 bytes of 1000", &[(5, &drawn, "v.n", SUM)]);
    };
    warned(
        "struct s variable\n      field x primitive p size 9",
        "1 field",
    );
    warned(
        "array a variable count 3u8\n      element primitive p size 9",
        "an element and a count",
    );
    warned("reference r variable to Nobody", "a reference to Nobody");
    warned(
        "sized-union u variable\n      variant x size 9 primitive p size 9",
        "1 variant",
    );
    warns(
        "  union T variable\n    owner v paths n\n    field v struct s variable\n      field x primitive p size 9\n",
        "  value T.variant 0\n  value v.n 2\n",
        "2 bytes of 1000",
        &[(4, "variant v of union T is variable, with 1 field in it", "v.n", SUM)],
    );
}

#[test]
fn offsets() {
    warns(
        "  struct T variable\n    field a at 0 primitive p size 4\n    field b at 2 primitive p size 4\n",
        "",
        "8 bytes of 1000",
        &[(4, "field b at 2 overlaps field a (bytes 0 to 3)", "at 4", ADDED)],
    );
    // No overlap, but an order that is not kept.
    warns(
        "  struct T variable\n    field a at 4 primitive p size 4\n    field b at 0 primitive p size 4\n",
        "",
        "12 bytes of 1000",
        &[(4, "field b at 0", "at 8", ADDED)],
    );
    // A field without an offset does not move the end from which padding is counted.
    warns(
        "  struct T variable\n    field a primitive p size 4\n    field b at 4 primitive p size 1\n",
        "",
        "9 bytes of 1000",
        &[(4, "field b at 4", "at 8", ADDED)],
    );
    // Nor does what alignment adds.
    warns(
        "  struct T variable\n    field a at 0 primitive p size 3 align 4\n    field b at 4 primitive p size 1\n",
        "",
        "6 bytes of 1000",
        &[(4, "field b at 4", "at 5", ADDED)],
    );
    warns(
        "  struct T variable\n    owner v paths n\n    field v primitive p variable\n    field b at 4 primitive p size 1\n    field c at 5 primitive p size 1\n",
        "  value v.n 7\n",
        "13 bytes of 1000",
        &[
            (5, "field b at 4", "behind field v, with a padding of 4", ADDED),
            (6, "field c at 5", "behind field v", ADDED),
        ],
    );
    // A gap, and a variable field where it is drawn.
    warns(
        "  struct T variable\n    owner v paths n\n    field a at 2 primitive p size 1\n    field b at 4 primitive p size 1\n    field v at 5 primitive p variable\n",
        "  value v.n 7\n",
        "12 bytes of 1000",
        &[],
    );
}

#[test]
fn constants() {
    warns(
        "  struct T size 4\n    field a at 0 primitive p size 3\n    field b at 2 primitive p size 4\n    field c primitive p size 1\n    field d primitive p variable\n",
        "",
        "4 bytes of 1000",
        &[
            (4, "field b at 2 overlaps field a (bytes 0 to 2)", "4 for struct T", CONSTANT),
            (4, "field b of struct T ends at 6, behind the size 4", "4 for struct T", CONSTANT),
            (5, "field c of struct T ends at 7, behind the size 4", "4 for struct T", CONSTANT),
            (6, "field d of struct T is variable", "4 for struct T", CONSTANT),
        ],
    );
    warns(
        "  union T size 4\n    field a primitive p size 4\n    field b primitive p size 5\n",
        "",
        "4 bytes of 1000",
        &[(
            4,
            "field b of union T ends at 5, behind the size 4",
            "4 for union T",
            CONSTANT,
        )],
    );
    warns(
        "  enum T size 4 tag k\n    variant a tag 1 primitive p size 5\n",
        "",
        "4 bytes of 1000",
        &[(
            3,
            "variant a of enum T ends at 5, behind the size 4",
            "4 for enum T",
            CONSTANT,
        )],
    );
    warns(
        "  array T size 4 count 2u8\n    element primitive p size 3\n",
        "",
        "4 bytes of 1000",
        &[(2, "array T has 2 elements of 3", "4", CONSTANT)],
    );
    warns(
        "  array T size 8 align 4 count 2u8\n    element primitive p size 3\n",
        "",
        "8 bytes of 1000",
        &[],
    );
    // Below a field, an element and a variant.
    let inner = "struct s size 1\n      field x primitive p size 2\n";
    let drawn = "field x of struct s ends at 2, behind the size 1";
    warns(
        &format!("  struct T variable\n    field f {inner}"),
        "",
        "1 byte of 1000",
        &[(4, drawn, "1 for struct s", CONSTANT)],
    );
    warns(
        &format!("  array T variable count n\n    owner array paths n\n    element {inner}"),
        "  value array.n 2\n",
        "2 bytes of 1000",
        &[(5, drawn, "1 for struct s", CONSTANT)],
    );
    warns(
        &format!("  sized-union T variable\n    variant v size 1 {inner}"),
        "  value T.payload_size 1\n",
        "1 byte of 1000",
        &[(4, drawn, "1 for struct s", CONSTANT)],
    );
}

#[test]
fn references() {
    let set = |line: &str| {
        format!("  struct T variable\n    field f {line}\n  primitive P size 4\n  array V variable count 1u8\n    owner V\n    element primitive p size 1\n")
    };
    warns(
        &set("reference r size 3 to Nobody"),
        "",
        "3 bytes of 1000",
        &[(
            3,
            "reference r to Nobody, which is not in the set",
            "3",
            UNLOOKED,
        )],
    );
    warns(
        &set("reference r size 3 to P"),
        "",
        "3 bytes of 1000",
        &[(3, "reference r to P, which has the size 4", "3", UNLOOKED)],
    );
    warns(
        &set("reference r size 3 to V"),
        "",
        "3 bytes of 1000",
        &[(3, "reference r to V, which is variable", "3", UNLOOKED)],
    );
    warns(&set("reference r size 4 to P"), "", "4 bytes of 1000", &[]);
    // By itself it is a call.
    warns(
        "  reference T size 3 to P\n  primitive P size 4\n",
        "",
        "4 bytes of 1000",
        &[(
            2,
            "reference T has the size 3",
            "what primitive P counts",
            "a reference by itself is a call",
        )],
    );
}

#[test]
fn switches() {
    warns(
        "  sized-union T variable\n    variant a size 4 primitive p size 9\n    variant b size 5 primitive p variable\n",
        "  value T.payload_size 4\n",
        "4 bytes of 1000",
        &[
            (3, "variant a of size 4 has a type of 9", "4", "a variant of a sized union counts as the size before its type"),
            (4, "variant b of size 5 has a type of variable size", "5", "a variant of a sized union counts as the size before its type"),
        ],
    );
    warns(
        "  enum T variable tag k\n    owner T paths k\n    variant a tag 1 primitive p size 4\n    variant b tag 1 primitive p size 9\n",
        "  value T.k 1\n",
        "4 bytes of 1000",
        &[(5, "variant b of enum T has the tag 1 of variant a", "variant a", FIRST)],
    );
    warns(
        "  sized-union T variable\n    variant a size 1 primitive p size 1\n    variant a size 1 primitive p size 1\n",
        "  value T.payload_size 1\n",
        "1 byte of 1000",
        &[
            (4, "variant a of sized-union T has the size 1 of variant a", "variant a", FIRST),
            (4, "two variants of sized-union T have the name a", "both", NAMES),
        ],
    );
}

#[test]
fn names() {
    warns(
        "  struct T variable\n    owner f paths n\n    field f primitive p variable\n    field f primitive p variable\n",
        "  value f.n 2\n",
        "4 bytes of 1000",
        &[(5, "two fields of struct T have the name f", "both", NAMES)],
    );
}

#[test]
fn arrays() {
    warns(
        "  array T variable count n\n    owner array paths n\n    element primitive p size 3 align 4\n",
        "  value array.n 2\n",
        "6 bytes of 1000",
        &[(4, "elements of 3 with the alignment 4", "3 each", "elements are not aligned, the array is")],
    );
    warns(
        "  array T variable jagged count n\n    owner array paths n\n    element reference r variable to T\n",
        "  value array.n 2\n",
        "refused 24: the jagged array array can't be summed",
        &[(2, "jagged array T of variable elements", "nothing, each record is refused with 24", "a sum over an array can't be counted")],
    );
}

#[test]
fn values() {
    let set = "  struct T variable\n    owner f paths n\n    field f primitive p variable\n    field g reference r variable to Q\n  array Q variable count __buffer_size / m\n    owner array paths m\n    element primitive p size 1\n";
    let passed = "a value that no node asks for is passed over";
    warns(
        set,
        "  value T.n 9\n  value __buffer_size 9\n  value array.m 100\n  value f.n 2\n  value n 3\n",
        "refused 21: the value __buffer_size is missing (in Q)",
        &[
            (
                2,
                "T calls Q, and Q asks for __buffer_size, which never reaches it",
                "nothing, a record that asks for it is refused with 21",
                "a called type sees the call's arguments and what it lists itself",
            ),
            (
                10,
                "the value T.n, which no parameter of T has",
                "nothing",
                passed,
            ),
            (
                14,
                "the value n, which no parameter of T has",
                "nothing",
                passed,
            ),
        ],
    );
    // Of blocks, the run is told; a type that is not there has no parameters to compare.
    let bytes = blocks(
        "set\n  primitive T size 1\nrun T length 1\n  value x 1\nrun U length 1\n  value x 1\n",
    );
    let run = bytes
        .windows(5)
        .position(|w| w == [193, 0, 1, 0, b'T'])
        .unwrap()
        - 4;
    let done = commands::check("b", &bytes).unwrap();
    let drawn = "the value x, which no parameter of T has";
    let message =
        format!("b: byte {run}: warning: drawn: {drawn}; counted: nothing; rule: {passed}");
    assert_eq!(done.remarks, [message]);
}

/// Values that never reach a called type: the buffer length, what is below a jagged array, and a made
/// tag two calls deep.
#[test]
fn calls() {
    let rule = "a called type sees the call's arguments and what it lists itself";
    let nothing = "nothing, a record that asks for it is refused with 21";
    warns(
        "  reference T variable to Rest\n  array Rest variable count __buffer_size\n    owner array\n    element primitive p size 1\n",
        "",
        "refused 21: the value __buffer_size is missing (in Rest)",
        &[(2, "T calls Rest, and Rest asks for __buffer_size, which never reaches it", nothing, rule)],
    );
    let kind = "  union Kind variable\n    field u primitive p size 1\n";
    warns(
        &format!("  reference T variable to B\n  reference B variable to Kind\n{kind}"),
        "  value Kind.variant 0\n",
        "refused 21: the value Kind.variant is missing (in Kind)",
        &[(
            2,
            "T calls B, which calls Kind, and Kind asks for Kind.variant, which never reaches it",
            nothing,
            rule,
        )],
    );
    // One call deep it reaches it.
    warns(
        &format!("  reference T variable to Kind\n{kind}"),
        "  value Kind.variant 0\n",
        "1 byte of 1000",
        &[],
    );
    // An element's count is handed on as an argument, listed or not.
    warns(
        "  reference T variable to J\n  struct J variable\n    owner l paths element.n\n    field l array l variable jagged count element.n\n      element primitive p size 1\n",
        "  value l.element.n 3\n",
        "3 bytes of 1000",
        &[],
    );
    // So is what an argument names otherwise.
    let renamed = "layout\n  type A\n    call-nested B\n      argument y from m\n    parameter m\n  type B\n    call-nested C\n      argument n from y\n  type C\n    field-ref n\n    parameter n\nrun A length 9\n  value m 3\n";
    assert_eq!(warnings(renamed), [""; 0]);
    // Of a layout by itself.
    let layout = "layout\n  type A\n    call-nested B\n  type B\n    field-ref n\n";
    let drawn = "A calls B, and B asks for n, which never reaches it";
    let told = format!("2: warning: drawn: {drawn}; counted: {nothing}; rule: {rule}");
    assert_eq!(warnings(layout), [told]);
}

/// Of blocks, the byte of the part is told.
#[test]
fn in_blocks() {
    let text = "set\n  struct T size 1\n    field x primitive p size 2\n";
    let bytes = blocks(text);
    let field = bytes
        .windows(5)
        .position(|w| w == [33, 0, 1, 0, b'x'])
        .unwrap()
        - 4;
    let done = commands::check("b", &bytes).unwrap();
    let start = format!("b: byte {field}: warning: drawn: field x of struct T ends at 2, ");
    assert!(done.remarks[0].starts_with(&start), "{:?}", done.remarks);
}

/// On every stored set that is built: each warning has its place and its three parts, and where a
/// field is warned of for its offset, the tree has it at another place too.
#[test]
fn stored_warnings() {
    let mut kinds = std::collections::BTreeSet::new();
    let mut offsets = 0;
    for (set, _) in stored_sets() {
        let Ok(done) = commands::check("b", &set) else {
            continue;
        };
        for remark in &done.remarks {
            let (place, words) = remark.split_once(": warning: drawn: ").unwrap();
            let byte = place.strip_prefix("b: byte ").unwrap();
            assert!(byte.parse::<usize>().unwrap() < set.len());
            let (_, rule) = words.split_once("; rule: ").unwrap();
            assert!(words.contains("; counted: "), "{remark}");
            kinds.insert(rule.to_string());
        }
        let moved = done.remarks.iter().filter(|r| r.ends_with(ADDED)).count();
        let tree = commands::tree("b", &set).unwrap().output;
        let tree = String::from_utf8(tree).unwrap();
        let drawn = tree.lines().filter(|l| l.contains(", drawn at ")).count();
        assert_eq!(moved, drawn, "{:?}\n{tree}", done.remarks);
        offsets += moved;
    }
    assert!(kinds.len() >= 8 && offsets > 10, "{offsets} {kinds:?}");
}
