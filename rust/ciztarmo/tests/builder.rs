//! What the builder writes, held against blocks that this test puts together by document 01.

use ciztarmo::{Expr, Field, Literal, Number, Run, Set, SizedVariant, Type, Values, Variant};

fn block(kind: u16, parts: &[&[u8]]) -> Vec<u8> {
    let body = parts.concat();
    let length = u32::try_from(body.len() + 2).expect("a short block");
    [&length.to_le_bytes(), &kind.to_le_bytes()[..], &body].concat()
}

fn name(text: &str) -> Vec<u8> {
    let length = u16::try_from(text.len()).expect("a short name");
    [&length.to_le_bytes(), text.as_bytes()].concat()
}

fn number(n: u64) -> [u8; 8] {
    n.to_le_bytes()
}

/// A type of constant size 1, alignment 1 and no references, as `Type::primitive(text, 1)`.
fn byte(text: &str) -> Vec<u8> {
    let none = block(32, &[&[0, 0]]);
    block(1, &[&name(text), &[0], &number(1), &number(1), &none])
}

/// The head of a type of variable size and alignment 1 without references.
fn variable(text: &str) -> Vec<u8> {
    let none = block(32, &[&[0, 0]]);
    [&name(text)[..], &[1], &number(1), &none].concat()
}

fn set_of(only: &[u8]) -> Vec<u8> {
    block(36, &[&[1, 0], only])
}

/// The builder writes these bytes, and the proved reader takes them.
fn written(built: Type, expected: &[u8]) {
    let bytes = Set::new().with(built).to_bytes().expect("a set");
    assert_eq!(bytes, set_of(expected));
    assert_eq!(ciztarmo::read_set(&bytes), Ok(()));
}

#[test]
fn primitives_and_heads() {
    written(Type::primitive("b", 1), &byte("b"));
    let none = block(32, &[&[0, 0]]);
    let large = [
        &name("p")[..],
        &[0],
        &number(u64::MAX),
        &number(1 << 40),
        &none,
    ];
    written(
        Type::primitive("p", u64::MAX).align(1 << 40),
        &block(1, &large),
    );
    written(
        Type::primitive("v", 9).variable(),
        &block(1, &[&variable("v")]),
    );
}

#[test]
fn references_ascend_and_stand_once() {
    let owner = |text: &str, paths: &[&str]| {
        let paths: Vec<u8> = paths.iter().flat_map(|p| name(p)).collect();
        let count = (paths.len() / 3) as u8;
        block(37, &[&name(text), &[count, 0], &paths])
    };
    let owners = [
        owner("B", &[]),
        owner("a", &["A", "b", "c"]),
        owner("ab", &["n"]),
    ];
    let references = block(32, &[&[3, 0], &owners.concat()]);
    let head = [&name("t")[..], &[0], &number(1), &number(1), &references];
    let built = Type::primitive("t", 1)
        .references("ab", ["n"])
        .references("a", ["c", "A", "c"])
        .references("B", [""; 0])
        .references("a", ["b", "A"]);
    written(built, &block(1, &head));
}

#[test]
fn structures_and_unions() {
    let fields = || {
        [
            Field::new("x", Type::primitive("b", 1)).at(7),
            Field::new("y", Type::primitive("c", 1)),
        ]
    };
    let blocks = [
        block(33, &[&name("x"), &[1], &number(7), &byte("b")]),
        block(33, &[&name("y"), &[0], &byte("c")]),
    ];
    let parts = [&variable("t")[..], &[2, 0], &blocks.concat()];
    written(Type::structure("t", fields()), &block(2, &parts));
    written(Type::union("t", fields()), &block(3, &parts));
}

#[test]
fn enumerations_and_sized_unions() {
    let tag = block(65, &[&[1, 0], &name("k")]);
    let variants = [
        block(34, &[&name("one"), &number(1), &byte("b")]),
        block(34, &[&name("max"), &number(u64::MAX), &byte("c")]),
    ];
    let parts = [&variable("e")[..], &tag, &[2, 0], &variants.concat()];
    let built = [
        Variant::new("one", 1, Type::primitive("b", 1)),
        Variant::new("max", u64::MAX, Type::primitive("c", 1)),
    ];
    written(
        Type::enumeration("e", Expr::field("k"), built),
        &block(4, &parts),
    );
    let sized = block(35, &[&name("short"), &number(1), &byte("b")]);
    let parts = [&variable("s")[..], &[1, 0], &sized];
    let built = [SizedVariant::new("short", 1, Type::primitive("b", 1))];
    written(Type::sized_union("s", built), &block(6, &parts));
}

#[test]
fn arrays_and_type_references() {
    let size = block(65, &[&[2, 0], &name("a"), &name("n")]);
    let path = || Expr::path(["a", "n"]);
    let parts = |jagged: u8| [&variable("l")[..], &[jagged], &byte("b"), &size].concat();
    let element = || Type::primitive("b", 1);
    written(Type::array("l", element(), path()), &block(5, &[&parts(0)]));
    written(
        Type::jagged_array("l", element(), path()),
        &block(5, &[&parts(1)]),
    );
    let parts = [&variable("r")[..], &name("Trip")];
    written(Type::reference("r", "Trip"), &block(7, &parts));
}

/// The expression of an array of constant size, which stands last in the set.
fn expression(built: Expr, expected: &[u8]) {
    let none = block(32, &[&[0, 0]]);
    let head = [&name("l")[..], &[0], &number(4), &number(1), &none].concat();
    let array = Type::array("l", Type::primitive("b", 1), built).size(4);
    written(array, &block(5, &[&head, &[0], &byte("b"), expected]));
}

#[test]
fn literals() {
    let minus = |n: i64| n as u64;
    let literals: [(Literal, u8, u64); 12] = [
        (u64::MAX.into(), 0, u64::MAX),
        (u32::MAX.into(), 1, 0xFFFF_FFFF),
        (u16::MAX.into(), 2, 0xFFFF),
        (u8::MAX.into(), 3, 0xFF),
        (i64::MIN.into(), 4, 1 << 63),
        (i64::MAX.into(), 4, (1 << 63) - 1),
        (i32::MIN.into(), 5, minus(-0x8000_0000)),
        (i32::MAX.into(), 5, 0x7FFF_FFFF),
        (i16::MIN.into(), 6, minus(-0x8000)),
        (i16::MAX.into(), 6, 0x7FFF),
        (i8::MIN.into(), 7, minus(-0x80)),
        (i8::MAX.into(), 7, 0x7F),
    ];
    for (literal, code, bits) in literals {
        let expected = block(64, &[&[code], &number(bits)]);
        expression(Expr::literal(literal), &expected);
    }
    expression(7u16.into(), &block(64, &[&[2], &number(7)]));
}

fn x() -> Expr {
    Expr::field("x")
}

fn y() -> Expr {
    Expr::field("y")
}

/// Every expression of two operands, with its kind.
fn binaries() -> Vec<(u16, Expr)> {
    vec![
        (68, x() + y()),
        (69, x() - y()),
        (70, x() * y()),
        (71, x() / y()),
        (72, x() % y()),
        (73, x().pow(y())),
        (74, x() & y()),
        (75, x() | y()),
        (76, x() ^ y()),
        (77, x() << y()),
        (78, x() >> y()),
        (83, x().equal(y())),
        (84, x().not_equal(y())),
        (85, x().less(y())),
        (86, x().greater(y())),
        (87, x().less_or_equal(y())),
        (88, x().greater_or_equal(y())),
        (89, x().and(y())),
        (90, x().or(y())),
        (91, x().xor(y())),
    ]
}

fn unaries() -> Vec<(u16, Expr)> {
    vec![
        (79, !x()),
        (80, -x()),
        (81, x().logical_not()),
        (82, x().popcount()),
    ]
}

#[test]
fn every_expression_kind() {
    let mut kinds = vec![64, 65, 66, 67];
    let (left, right) = (
        block(65, &[&[1, 0], &name("x")]),
        block(65, &[&[1, 0], &name("y")]),
    );
    expression(x(), &left);
    expression(Expr::path([""; 0]), &block(65, &[&[0, 0]]));
    expression(Expr::size_of("Leg"), &block(66, &[&name("Leg")]));
    expression(Expr::align_of("Leg"), &block(67, &[&name("Leg")]));
    for (kind, built) in unaries() {
        expression(built, &block(kind, &[&left]));
        kinds.push(kind);
    }
    for (kind, built) in binaries() {
        expression(built, &block(kind, &[&left, &right]));
        kinds.push(kind);
    }
    kinds.sort();
    assert_eq!(kinds, (64..=91).collect::<Vec<u16>>());
}

/// A structure whose one field is an array of bytes of this size, with the values x and y.
fn sized_by(size: Expr) -> Type {
    let list = Type::array("l", Type::primitive("b", 1), size);
    Type::structure("T", [Field::new("l", list)]).references("l", ["x", "y"])
}

#[test]
fn operators_count_what_they_say() {
    let values = Values::of([("l.y", 6), ("l.x", 203)]).expect("two values");
    let counts = [
        (68, 209),
        (69, 197),
        (70, 1218),
        (71, 33),
        (72, 5),
        (74, 2),
        (75, 207),
        (76, 205),
        (77, 12_992),
        (78, 3),
    ];
    let mut met = Vec::new();
    for (kind, size) in binaries().into_iter().chain(unaries()) {
        match Set::new().with(sized_by(size)).build() {
            Ok(layout) => {
                let count = layout.length_of("T", &values, u64::MAX);
                met.push((kind, count.expect("a count")));
            }
            Err(error) => {
                let refusal = error.refusal().expect("a refusal");
                assert_eq!(refusal.number(), Number::UnsupportedExpression);
            }
        }
    }
    assert_eq!(met, counts);
    for size in [Expr::size_of("T"), Expr::align_of("T"), Expr::literal(-1)] {
        let error = Set::new().with(sized_by(size)).build().expect_err("14");
        let number = error.refusal().expect("a refusal").number();
        assert_eq!(number, Number::UnsupportedExpression);
    }
}

/// A type, a value for it, and what document 01's rules count: a count, or a refusal's number and
/// value.
type Case = (Type, &'static str, u64, Result<u64, (u8, u64)>);

fn sized(bytes: u64) -> Type {
    Type::primitive("p", bytes)
}

fn fields() -> [Field; 2] {
    [Field::new("a", sized(3)), Field::new("b", sized(20))]
}

/// Types that choose one of two parts.
fn choices() -> Vec<Case> {
    let union = Type::union("U", fields());
    let variants = [
        Variant::new("a", 7, sized(3)),
        Variant::new("b", 9, sized(20)),
    ];
    let fare = Type::enumeration("E", Expr::field("k"), variants.clone()).references("E", ["k"]);
    let computed = Type::enumeration("C", Expr::field("k") & 1, variants);
    let sizes = [
        SizedVariant::new("a", 3, sized(3)),
        SizedVariant::new("b", 20, sized(20)),
    ];
    let by_size = Type::sized_union("Z", sizes);
    vec![
        (union.clone(), "U.variant", 1, Ok(20)),
        (union, "U.variant", 2, Err((22, 2))),
        (fare.clone(), "E.k", 7, Ok(3)),
        (fare.clone(), "E.k", 3, Err((22, 3))),
        (fare, "k", 7, Err((21, 0))),
        (computed, "C.computed_tag", 9, Ok(20)),
        (by_size.clone(), "Z.payload_size", 20, Ok(20)),
        (by_size, "Z.payload_size", 4, Err((22, 4))),
    ]
}

fn other_kinds() -> Vec<Case> {
    let structure = |name: &str| Type::structure(name, fields());
    let array = Type::array("A", sized(4), Expr::field("n")).references("array", ["n"]);
    let inner = Type::array("i", sized(4), Expr::field("n"));
    let nested = Type::array("N", inner, 5).references("array", ["element.n"]);
    let jagged = Type::jagged_array("J", Type::reference("r", "E"), 1).references("o", ["n"]);
    vec![
        (Type::primitive("P", 5), "none", 0, Ok(5)),
        (structure("S"), "none", 0, Ok(23)),
        (structure("S8").align(8), "none", 0, Ok(24)),
        (structure("S9").size(9), "none", 0, Ok(9)),
        (array.clone(), "array.n", 6, Ok(24)),
        (array, "array.n", 1 << 62, Err((26, 0))),
        (nested, "array.element.n", 2, Ok(40)),
        (jagged, "none", 0, Err((24, 0))),
        (Type::reference("R", "Fare"), "Fare.k", 7, Ok(3)),
    ]
}

#[test]
fn every_type_kind_counts() {
    let fare = Variant::new("a", 7, Type::primitive("p", 3));
    let called = Type::enumeration("Fare", Expr::field("k"), [fare]).references("Fare", ["k"]);
    for (asked, value, number, expected) in choices().into_iter().chain(other_kinds()) {
        let name = asked.name().to_string();
        let layout = Set::new().with(called.clone()).with(asked).build();
        let layout = layout.unwrap_or_else(|e| panic!("{name}: {e}"));
        let values = Values::of([(value, number)]).expect("one value");
        let answer = layout.length_of(&name, &values, 1 << 32);
        let told = answer.map_err(|no| (no.number().code(), no.value()));
        assert_eq!(told, expected, "{name} with {value} = {number}");
    }
}

#[test]
fn a_number_may_stand_for_an_expression() {
    assert_eq!(x() + 1u8, x() + Expr::literal(1u8));
    assert_eq!(x() * 4, x() * Expr::literal(Literal::I32(4)));
    assert_eq!(x().less(2u64), x().less(Expr::literal(2u64)));
    let types = |size: Expr| Type::array("l", Type::primitive("b", 1), size);
    let by_number = Type::array("l", Type::primitive("b", 1), 9u16);
    assert_eq!(by_number, types(Expr::literal(9u16)));
}

#[test]
fn values_and_runs() {
    let pairs = [("b", 1), ("ab", u64::MAX), ("B", 3), ("a", 4)];
    let values = Values::of(pairs).expect("four values");
    let entry = |text: &str, n: u64| [&name(text)[..], &number(n)].concat();
    let list = [
        entry("B", 3),
        entry("a", 4),
        entry("ab", u64::MAX),
        entry("b", 1),
    ];
    let expected = block(192, &[&[4, 0], &list.concat()]);
    assert_eq!(values.to_bytes(), expected);
    assert_eq!(ciztarmo::read_values(&expected), Ok(()));
    let run = Run::new("Trip", &values, 77).expect("a run");
    let expected = block(193, &[&name("Trip"), &number(77), &expected]);
    assert_eq!(run.as_bytes(), expected);
    assert_eq!(ciztarmo::read_run(&expected), Ok(()));
    assert_eq!(Values::new().to_bytes(), block(192, &[&[0, 0]]));
}

#[test]
fn sets_keep_their_order() {
    let names = ["b", "a", "c"];
    let set: Set = names.iter().map(|n| Type::primitive(*n, 1)).collect();
    let types: Vec<u8> = names.iter().flat_map(|n| byte(n)).collect();
    let bytes = set.to_bytes().expect("a set");
    assert_eq!(bytes, block(36, &[&[3, 0], &types]));
    assert_eq!(set.build().expect("a layout").type_names(), names);
    let empty = Set::new().build().expect("an empty layout");
    assert_eq!(empty.as_bytes(), block(160, &[&[0, 0]]));
}
