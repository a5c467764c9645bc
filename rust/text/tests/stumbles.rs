//! What a refused build stumbled on, and what would help.

mod common;

use ciztarmo::Work;
use ciztarmo_text::commands;
use ciztarmo_text::model::{Block, Owner, Shape, Spot, Type};
use ciztarmo_text::parse::parse;
use ciztarmo_text::stumble;
use common::{blocks, stored_sets, unbuilt};

/// The message for a set with these lines, from line 2; the file's name is `t`.
fn told(types: &str, message: &str) {
    assert_eq!(unbuilt(&format!("set\n{types}")), format!("t:{message}"));
}

/// The same where an owner line helps: with it in the set, all is built.
fn owner_helps(types: &str, message: &str) {
    told(types, message);
    let help = message.split('`').nth(1).unwrap();
    let line: usize = message
        .rsplit("(line ")
        .next()
        .and_then(|rest| rest.split(')').next()?.parse().ok())
        .unwrap();
    let mut lines: Vec<String> = format!("set\n{types}").lines().map(String::from).collect();
    let old = lines[line - 1].clone();
    let indent = &old[..old.len() - old.trim_start().len()];
    match message.contains("in place of") {
        true => lines[line - 1] = format!("{indent}{help}"),
        false => lines.insert(line, format!("{indent}  {help}")),
    }
    let helped = lines.join("\n");
    let built = commands::check("t", helped.as_bytes());
    built.unwrap_or_else(|e| panic!("{e}\n{helped}"));
}

#[test]
fn counts_of_fields() {
    let path = "refused 12: a path names no parameter:";
    let trip = "  struct Trip variable\n";
    let legs = "    field legs array l variable count n + m\n      element primitive b size 4\n";
    owner_helps(
        &format!("{trip}{legs}"),
        &format!(
            "3: {path} the count of field legs of struct Trip asks for n, which owner legs does not \
             have (column 39); what would help: `owner legs paths m n` below struct Trip (line 2)"
        ),
    );
    owner_helps(
        &format!("{trip}    owner legs paths a n\n{legs}"),
        &format!(
            "4: {path} the count of field legs of struct Trip asks for m, which owner legs does not \
             have (column 43); what would help: `owner legs paths a m n` in place of owner legs (line 3)"
        ),
    );
    let inner = "    owner legs paths n\n    field legs array l variable count n\n      \
                 element array m variable count k\n        element primitive b size 4\n";
    owner_helps(
        &format!("{trip}{inner}"),
        &format!(
            "5: {path} the count of field legs of struct Trip asks for element.k, which owner legs \
             does not have (column 38); what would help: `owner legs paths element.k n` in place of \
             owner legs (line 3)"
        ),
    );
}

#[test]
fn arrays_by_themselves() {
    let element = "    element primitive b size 4\n";
    let owner = "has no owner, by which its count is told; what would help:";
    let refs = "refused 11: references that the layout needs are missing:";
    owner_helps(
        &format!("  array A variable count n / k\n{element}"),
        &format!("2: {refs} array A {owner} `owner array paths k n` below array A (line 2)"),
    );
    owner_helps(
        &format!("  array p::A variable count 3u8\n{element}"),
        &format!("2: {refs} array p::A {owner} `owner A` below array p::A (line 2)"),
    );
    owner_helps(
        &format!("  array A variable count n\n    owner x paths m\n{element}"),
        "2: refused 12: a path names no parameter: the count of array A asks for n, which owner x \
         does not have (column 26); what would help: `owner x paths m n` in place of owner x (line 3)",
    );
}

#[test]
fn tags() {
    let tag = "  enum Kind variable tag k\n    variant a tag 1 primitive b size 1\n";
    owner_helps(
        tag,
        "2: refused 12: a path names no parameter: the tag of enum Kind is k, which owner Kind does \
         not have (a tag is told under the type's name) (column 26); what would help: \
         `owner Kind paths k` below enum Kind (line 2)",
    );
    // The owner of the field's name, which an array would take, is not the tag's.
    let field =
        "  struct S variable\n    owner kind paths k\n    field kind enum Kind variable tag k\n";
    owner_helps(
        field,
        "4: refused 12: a path names no parameter: the tag of enum Kind is k, which owner Kind does \
         not have (a tag is told under the type's name) (column 39); what would help: \
         `owner Kind paths k` below enum Kind (line 4)",
    );
}

#[test]
fn sums() {
    let refs = "refused 11: references that the layout needs are missing:";
    let sum = "is variable and has no owner: its size is the sum of what an owner's paths say";
    let helps = "what would help: `owner v paths size`";
    owner_helps(
        "  struct S variable\n    field v primitive text variable\n",
        &format!("3: {refs} field v of struct S {sum}; {helps} below struct S (line 2)"),
    );
    owner_helps(
        "  union U variable\n    field v array a variable count n\n      element primitive b size 1\n",
        &format!("3: {refs} variant v of union U {sum}; {helps} below union U (line 2)"),
    );
    owner_helps(
        "  struct S variable\n    field f enum E variable tag 1u8\n      variant v tag 1 struct T variable\n",
        &format!("4: {refs} variant v of enum E {sum}; {helps} below enum E (line 3)"),
    );
    owner_helps(
        "  struct S variable\n    owner v\n    field v primitive text variable\n",
        &format!(
            "3: {refs} the owner of field v of struct S has no paths, which would be its size; \
             {helps} in place of owner v (line 3)"
        ),
    );
    told(
        "  struct S variable\n",
        &format!("2: {refs} struct S is variable and has no fields; what would help: a field, or a constant size"),
    );
}

#[test]
fn shapes() {
    let size = "refused 10: a type of this shape has no variable size:";
    told(
        "  primitive p variable\n",
        &format!(
            "2: {size} primitive p is variable; what would help: a size of its own (`size N`), or a \
             struct with it as a field"
        ),
    );
    told(
        "  struct S variable\n    field u sized-union u variable\n",
        &format!("3: {size} sized-union u has no variants; what would help: a `variant NAME size N TYPE`"),
    );
    let shape = "refused 13: an array can't have elements of this shape: the element of";
    let of = "an element of constant size, or";
    told(
        "  struct S variable\n    owner f paths n\n    field f array a variable count n\n      element array b variable count 1u8\n        element struct c variable\n",
        &format!("6: {shape} field f of struct S, struct c, is variable; what would help: {of} a variable array"),
    );
    told(
        "  array A variable jagged count 1u8\n    owner array\n    element array b variable count 1u8\n      element primitive c size 1\n",
        &format!(
            "4: {shape} array A, array b, is variable; what would help: {of} (refused with 24 where \
             it is counted) a variable reference"
        ),
    );
}

#[test]
fn expressions() {
    let set = |count: &str| {
        format!("  array A variable count 1u8 + ({count})\n    owner array paths n\n    element primitive b size 1\n")
    };
    let said = |shown: &str, help: &str| {
        format!(
            "2: refused 14: an expression of this kind can't be a size: `{shown}` in the count of \
             array A (column 33); what would help: {help}"
        )
    };
    let only = "only +, -, *, /, %, &, |, ^, << and >> of literals and paths";
    told(&set("n ** 2u8"), &said("n ** 2u8", only));
    told(&set("~n"), &said("~n", only));
    told(&set("n < n"), &said("n < n", only));
    told(&set("-1i8"), &said("-1i8", "a literal from 0 on"));
    told(
        &set("sizeof(b)"),
        &said("sizeof(b)", "the number itself as a literal"),
    );
}

#[test]
fn references() {
    let refers = "refused 15: a type that is referred to is not in the set:";
    told(
        "  reference R variable to Trp\n  primitive Trip size 1\n",
        &format!("2: {refers} reference R refers to Trp; what would help: one of the set's types: R, Trip"),
    );
    told(
        "  struct S variable\n    field n primitive u8 size 1\n    field r reference r variable to \"\"\n",
        &format!("4: {refers} field r of struct S refers to \"\"; what would help: one of the set's types: S"),
    );
}

#[test]
fn too_much() {
    told(
        "  struct S variable\n    field a at 1 primitive b size 18446744073709551615\n",
        "3: refused 16: a field's offset and size together reach 2^64: field a at 1 with a size of \
         18446744073709551615",
    );
    let owner = "x".repeat(200);
    let message = unbuilt(&format!(
        "set\n  union a variable\n    owner {owner} paths {owner}y\n"
    ));
    let name = "x".repeat(40);
    let end = format!("would be written: union a has {name}.. of 402 bytes");
    assert!(message.ends_with(&end), "{message}");
}

/// Of blocks, the byte of what it stumbled on is told, and that of the type.
#[test]
fn in_blocks() {
    let text = "run T length 1\nset\n  primitive p size 1\n  struct S variable\n    field v primitive t variable\n";
    let bytes = blocks(text);
    // The field's block, by its name.
    let field = bytes
        .windows(5)
        .position(|w| w == [33, 0, 1, 0, b'v'])
        .unwrap()
        - 4;
    let name = bytes
        .windows(5)
        .position(|w| w == [2, 0, 1, 0, b'S'])
        .unwrap()
        - 4;
    let message = commands::check("b", &bytes).unwrap_err();
    assert_eq!(
        message,
        format!(
            "b: byte {field}: refused 11: references that the layout needs are missing: field v of \
             struct S is variable and has no owner: its size is the sum of what an owner's paths \
             say; what would help: `owner v paths size` below struct S (byte {name})"
        )
    );
}

/// Puts an owner into the type of a set that stands at a spot, or in place of the owner there.
fn put(ty: &mut Type, spot: Spot, owner: &Owner) -> bool {
    if let Some(there) = ty.owners.iter_mut().find(|o| o.spot == spot) {
        *there = owner.clone();
        return true;
    }
    if ty.spot == spot {
        ty.owners.push(owner.clone());
        ty.owners.sort_by(|a, b| a.name.cmp(&b.name));
        return true;
    }
    match &mut ty.shape {
        Shape::Struct(fields) | Shape::Union(fields) => {
            fields.iter_mut().any(|f| put(&mut f.ty, spot, owner))
        }
        Shape::Enum(_, variants) | Shape::SizedUnion(variants) => {
            variants.iter_mut().any(|v| put(&mut v.ty, spot, owner))
        }
        Shape::Array(array) => put(&mut array.element, spot, owner),
        Shape::Primitive | Shape::Reference(_) => false,
    }
}

/// The owner of a line that a message shows.
fn owner_of(line: &str) -> Owner {
    let text = format!(
        "set\n  primitive a size 1\n    {}\n",
        line.trim_matches('`')
    );
    match parse(text.as_bytes()).unwrap().remove(0) {
        Block::Set(mut set) => set.types.remove(0).owners.remove(0),
        _ => panic!("{text}"),
    }
}

/// On every stored set that is refused for want of an owner: with the line that the message shows,
/// the build does not stumble there again.
#[test]
fn the_lines_that_help() {
    let mut helped = 0;
    for (_, mut types) in stored_sets() {
        let found = (0..types.len()).find_map(|i| Some((i, stumble::walk(&types, &types[i])?)));
        let Some((place, found)) = found else {
            continue;
        };
        let Some((_, spot)) = found.help.as_ref().and_then(|h| h.place.as_ref()) else {
            continue;
        };
        let owner = owner_of(&found.help.as_ref().unwrap().words);
        assert!(put(&mut types[place], *spot, &owner), "{found:?}");
        let again = stumble::walk(&types, &types[place]);
        let same = again.is_some_and(|a| a.number == found.number && a.spot == found.spot);
        assert!(!same, "{found:?}\n{types:?}");
        helped += 1;
    }
    assert!(helped > 100, "{helped}");
}

/// On every stored set the walk stops at the type where the proved build does, with its number.
#[test]
fn the_walk_and_the_build() {
    let mut work = Work::new();
    let (mut built, mut refused) = (0, [0; 18]);
    for (set, types) in stored_sets() {
        let walked = (0..).zip(&types).find_map(|(i, ty)| {
            let found = stumble::walk(&types, ty)?;
            Some((found.number, i))
        });
        let answer = match work.build_set(&set) {
            Ok(_) => None,
            Err(refusal) => refusal.place().map(|p| (refusal.number().code(), p)),
        };
        assert_eq!(walked, answer, "{types:?}");
        match answer {
            None => built += 1,
            Some((number, _)) => refused[usize::from(number)] += 1,
        }
    }
    println!("{built} {refused:?}");
    assert!(built > 500);
    assert!(refused[10..].iter().all(|count| *count > 0), "{refused:?}");
}
