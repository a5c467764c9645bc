//! What the builder can't write, and what it leaves to the proved reader.

use ciztarmo::{Error, Expr, Field, Number, Run, Set, SizedVariant, Type, Values, Variant};

/// The longest name that a block can hold, and one byte more.
fn names() -> (String, String) {
    ("n".repeat(65_535), "n".repeat(65_536))
}

fn byte() -> Type {
    Type::primitive("b", 1)
}

fn bytes_of(only: Type) -> Result<Vec<u8>, Error> {
    Set::new().with(only).to_bytes()
}

/// A type for every place where a name can stand.
fn named(name: &str) -> Vec<Type> {
    let array = |size: Expr| Type::array("l", byte(), size);
    vec![
        Type::primitive(name, 1),
        Type::reference("r", name),
        Type::structure("s", [Field::new(name, byte())]),
        Type::union("u", [Field::new(name, byte())]),
        Type::enumeration("e", 1, [Variant::new(name, 1, byte())]),
        Type::enumeration("e", Expr::field(name), []),
        Type::sized_union("z", [SizedVariant::new(name, 1, byte())]),
        byte().references(name, ["p"]),
        byte().references("o", [name]),
        array(Expr::field(name)),
        array(Expr::path(["a", name])),
        array(Expr::size_of(name)),
        array(Expr::align_of(name)),
        // Deep inside, so that the error is handed up through every kind of part.
        array(Expr::literal(1) + -(Expr::literal(2) * (!Expr::field(name)).pow(3))),
        Type::structure("s", [Field::new("f", array(Expr::field(name)))]),
        Type::enumeration("e", 1, [Variant::new("v", 1, Type::reference("r", name))]),
        Type::sized_union("z", [SizedVariant::new("v", 1, Type::reference("r", name))]),
        Type::jagged_array("j", Type::reference("r", name), 1),
    ]
}

#[test]
fn a_name_above_65535_bytes() {
    let (longest, longer) = names();
    let expected = Error::NameTooLong {
        start: "n".repeat(20),
        length: 65_536,
    };
    for built in named(&longer) {
        assert_eq!(bytes_of(built.clone()), Err(expected.clone()));
        assert_eq!(Set::new().with(built).build(), Err(expected.clone()));
    }
    // One byte less is written; what is wrong with it is for the reader to say.
    for built in named(&longest) {
        let error = Set::new().with(built).build().expect_err("a refusal");
        let number = error.refusal().expect("a refusal").number();
        assert_eq!(number, Number::InputTooLong);
    }
    assert_eq!(named("n").len(), named(&longer).len());
}

#[test]
fn a_name_that_the_reader_refuses() {
    for name in ["n".repeat(256), "\u{7f}".to_string(), "ü".repeat(128)] {
        for built in named(&name) {
            let error = Set::new().with(built).build().expect_err("a refusal");
            let number = error.refusal().expect("a refusal").number();
            assert_eq!(number, Number::InvalidName, "{name}");
        }
    }
    for name in ["n".repeat(255), "Zürich".to_string(), "ü".repeat(127)] {
        for built in named(&name) {
            let bytes = bytes_of(built).expect("a set");
            assert_eq!(ciztarmo::read_set(&bytes), Ok(()), "{name}");
        }
    }
}

/// A type for every list, each with so many entries.
fn listed(count: usize) -> Vec<(&'static str, Type)> {
    let names = || (0..count).map(|i| i.to_string());
    let field = |name: String| Field::new(name, byte());
    let path = Expr::path(names());
    let owners = names().fold(byte(), |held, owner| held.references(owner, [""; 0]));
    let variants = names().map(|n| Variant::new(n, 0, byte()));
    let sized = names().map(|n| SizedVariant::new(n, 0, byte()));
    vec![
        ("fields", Type::structure("s", names().map(field))),
        ("fields", Type::union("u", names().map(field))),
        ("variants", Type::enumeration("e", 1, variants)),
        ("variants", Type::sized_union("z", sized)),
        ("owners", owners),
        ("paths of an owner", byte().references("o", names())),
        ("segments of a path", Type::array("l", byte(), path)),
    ]
}

#[test]
fn a_list_above_65535_entries() {
    let count = 65_536;
    for (what, built) in listed(count) {
        assert_eq!(bytes_of(built), Err(Error::TooMany { what, count }));
    }
    let set: Set = (0..count).map(|_| byte()).collect();
    let what = "types";
    assert_eq!(set.to_bytes(), Err(Error::TooMany { what, count }));
    for (what, built) in listed(65_535) {
        let bytes = bytes_of(built).expect(what);
        let refusal = ciztarmo::read_set(&bytes).expect_err(what);
        assert_eq!(refusal.number(), Number::InputTooLong, "{what}");
    }
}

#[test]
fn a_list_that_the_reader_refuses() {
    for (what, built) in listed(65) {
        let bytes = bytes_of(built).expect(what);
        let refusal = ciztarmo::read_set(&bytes).expect_err(what);
        assert_eq!(refusal.number(), Number::AboveLimit, "{what}");
    }
    for (what, built) in listed(64) {
        let bytes = bytes_of(built).expect(what);
        assert_eq!(ciztarmo::read_set(&bytes), Ok(()), "{what}");
    }
}

#[test]
fn two_types_of_one_name() {
    let error = Set::new().with(byte()).with(byte()).build();
    let refusal = *error.expect_err("6").refusal().expect("a refusal");
    assert_eq!(refusal.number(), Number::NamesOutOfOrder);
}

/// An expression of any depth can be written and dropped; the reader refuses it.
#[test]
fn deep_expressions() {
    let mut deep = Expr::field("n");
    for _ in 0..5000 {
        deep = -deep;
    }
    let bytes = bytes_of(Type::array("l", byte(), deep)).expect("a set");
    let refusal = ciztarmo::read_set(&bytes).expect_err("too deep");
    assert_eq!(refusal.number(), Number::AboveLimit);
}

#[test]
fn a_value_twice() {
    let mut values = Values::of([("b", 1), ("a", 2)]).expect("two values");
    let before = values.clone();
    let twice = Error::ValueTwice { name: "b".into() };
    assert_eq!(values.insert("b", 3), Err(twice.clone()));
    assert_eq!(values, before);
    assert_eq!(Values::of([("b", 1), ("a", 2), ("b", 1)]), Err(twice));
}

#[test]
fn values_that_can_not_be_written() {
    let (longest, longer) = names();
    let too_long = Error::NameTooLong {
        start: "n".repeat(20),
        length: 65_536,
    };
    let mut values = Values::new();
    assert_eq!(values.insert(longer.as_str(), 1), Err(too_long.clone()));
    assert_eq!(values, Values::new());
    assert_eq!(values.insert(longest, 1), Ok(()));
    assert_eq!(values.to_bytes().len(), 6 + 2 + 2 + 65_535 + 8);
    assert_eq!(Run::new(longer, &values, 1), Err(too_long));

    let many = |count: u64| Values::of((0..count).map(|i| (i.to_string(), i)));
    let most = many(65_535).expect("as many as a count can say");
    assert_eq!(most.to_bytes()[6..8], [0xFF, 0xFF]);
    let (what, count) = ("values", 65_536);
    assert_eq!(many(65_536), Err(Error::TooMany { what, count }));
}

#[test]
fn what_errors_print() {
    let (_, longer) = names();
    let printed = |error: Error| error.to_string();
    assert_eq!(
        printed(bytes_of(Type::primitive(longer, 1)).expect_err("too long")),
        "a name has 65536 bytes, and a block can't hold more than 65,535: \"nnnnnnnnnnnnnnnnnnnn...\""
    );
    let (what, count) = ("fields", 70_000);
    assert_eq!(
        printed(Error::TooMany { what, count }),
        "there are 70000 fields, and a list can't hold more than 65,535"
    );
    assert_eq!(
        printed(Error::BlockTooLong),
        "a block would be longer than 4,294,967,295 bytes"
    );
    let name = "legs.n".to_string();
    assert_eq!(
        printed(Error::ValueTwice { name }),
        "the value \"legs.n\" is given twice"
    );
}
