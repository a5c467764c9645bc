//! What is drawn in a set and not counted. The rules are the builder's
//! (crates/builder/specs/Nodes.antt): a set that is built may still hold parts that no node comes
//! from, and offsets that no node keeps.

use crate::lines::written;
use crate::model::*;
use crate::parts::{aligned, children};
use crate::registry::canonical_name;
use crate::stumble::named;
use std::collections::BTreeSet;

/// Something drawn that is counted otherwise, and where it stands.
#[derive(Debug)]
pub struct Warning {
    pub spot: Spot,
    pub words: String,
}

/// Goes over a set that is built.
pub fn of_set(set: &Set) -> Vec<Warning> {
    let mut watch = Watch {
        types: &set.types,
        found: Vec::new(),
    };
    set.types.iter().for_each(|ty| watch.root(ty));
    watch.found
}

fn words(drawn: &str, counted: &str, rule: &str) -> String {
    format!("drawn: {drawn}; counted: {counted}; rule: {rule}")
}

struct Watch<'a> {
    types: &'a [Type],
    found: Vec<Warning>,
}

impl<'a> Watch<'a> {
    fn warn(&mut self, spot: Spot, drawn: String, counted: String, rule: &str) {
        self.found.push(Warning {
            spot,
            words: words(&drawn, &counted, rule),
        });
    }

    fn root(&mut self, ty: &'a Type) {
        match (&ty.shape, ty.size) {
            (Shape::Reference(target), Some(size)) => self.called(ty, target, size),
            (_, Some(size)) => self.constant(ty, size),
            (_, None) => self.variable(ty),
        }
    }

    /// A reference that is no part of another type is a call, whatever its size.
    fn called(&mut self, ty: &Type, target: &str, size: u64) {
        let called = self.types.iter().find(|t| t.name == target);
        if let Some(called) = called.filter(|t| t.size != Some(size)) {
            self.warn(
                ty.spot,
                format!("{} has the size {size}", named(ty)),
                format!("what {} counts", named(called)),
                "a reference by itself is a call",
            );
        }
    }

    /// A type of variable size that a node is built of.
    fn variable(&mut self, ty: &'a Type) {
        match &ty.shape {
            Shape::Struct(fields) => self.fields(ty, fields),
            Shape::Array(array) => self.elements(ty, array),
            Shape::Union(fields) => {
                self.same_names(ty, "fields", fields.iter().map(|f| (&*f.name, f.spot)));
                for field in fields {
                    self.alternative(ty, &field.name, field.spot, &field.ty);
                }
            }
            Shape::Enum(_, variants) => {
                self.same_tags(ty, variants);
                for variant in variants {
                    self.alternative(ty, &variant.name, variant.spot, &variant.ty);
                }
            }
            Shape::SizedUnion(variants) => {
                self.same_tags(ty, variants);
                variants.iter().for_each(|v| self.sized(v));
            }
            Shape::Primitive | Shape::Reference(_) => {}
        }
    }

    // Structs.

    fn fields(&mut self, ty: &'a Type, fields: &'a [Field]) {
        self.same_names(ty, "fields", fields.iter().map(|f| (&*f.name, f.spot)));
        self.places(fields);
        for field in fields {
            match (&field.ty.shape, field.ty.size) {
                (_, Some(size)) => self.constant(&field.ty, size),
                (Shape::Primitive | Shape::Struct(_) | Shape::Union(_), None) => {
                    let what = format!("field {}", written(&field.name));
                    self.summed(ty, &what, &field.name, field.spot, &field.ty, |_| true);
                    self.unaligned(&what, field);
                }
                (Shape::Enum(..), None) if has_payload(ty, field) => {
                    let what = format!("field {}", written(&field.name));
                    let of = |path: &str| path.ends_with(PAYLOAD);
                    self.summed(ty, &what, &field.name, field.spot, &field.ty, of);
                }
                (_, None) => self.variable(&field.ty),
            }
        }
    }

    /// Where fields with an offset are counted: behind all that was added before them.
    fn places(&mut self, fields: &[Field]) {
        // The place where the next field is counted, or the field of variable size before it.
        let mut at: Result<u64, &Field> = Ok(0);
        let mut end = 0u64;
        for (i, field) in fields.iter().enumerate() {
            if let Some(offset) = field.offset {
                let padding = offset.saturating_sub(end);
                at = at.map(|at| at.saturating_add(padding));
                self.place(field, offset, at, padding, &fields[..i]);
                if let Some(size) = field.ty.size {
                    end = offset.saturating_add(size);
                }
            }
            let size = field.ty.size.ok_or(field);
            let size = size.map(|size| aligned(size, field.ty.align).unwrap_or(u64::MAX));
            at = at.and_then(|at| Ok(at.saturating_add(size?)));
        }
    }

    fn place(
        &mut self,
        field: &Field,
        offset: u64,
        at: Result<u64, &Field>,
        padding: u64,
        before: &[Field],
    ) {
        let counted = match at {
            Ok(at) if at == offset => return,
            Ok(at) => format!("at {at}"),
            Err(variable) => {
                let behind = format!("behind field {}", written(&variable.name));
                match padding {
                    0 => behind,
                    _ => format!("{behind}, with a padding of {padding}"),
                }
            }
        };
        let name = written(&field.name);
        let size = field.ty.size.unwrap_or(1);
        let overlaps = before.iter().find(|f| meets(f, offset, size));
        let drawn = match overlaps {
            Some(other) => format!("field {name} at {offset} overlaps {}", extent(other)),
            None => format!("field {name} at {offset}"),
        };
        self.warn(
            field.spot,
            drawn,
            counted,
            "fields are added one behind the other, an offset only adds padding",
        );
    }

    /// A field that is a sum has no alignment around it.
    fn unaligned(&mut self, what: &str, field: &Field) {
        if field.ty.align > 1 {
            self.warn(
                field.spot,
                format!("{what} has the alignment {}", field.ty.align),
                "without it".to_string(),
                "a variable primitive, struct or union as a field is not aligned",
            );
        }
    }

    /// Something of variable size that counts as the sum of its owner's paths, whatever stands in
    /// it.
    fn summed(
        &mut self,
        ty: &Type,
        what: &str,
        name: &str,
        spot: Spot,
        part: &Type,
        of: impl Fn(&str) -> bool,
    ) {
        let Some(inside) = inside(part) else {
            return;
        };
        let owner = ty.owners.iter().find(|o| o.name == name);
        let paths = owner.iter().flat_map(|o| &o.paths);
        let names = paths.filter(|p| of(p));
        let names = names.map(|path| written(&canonical_name(name, path)));
        let names: Vec<String> = names.collect();
        let (of, names) = (named(ty), names.join(" + "));
        self.warn(
            spot,
            format!("{what} of {of} is variable, with {inside}"),
            names,
            "it is the sum of its owner's paths, and what is drawn in it is not asked",
        );
    }

    // Unions, enums, sized unions.

    fn alternative(&mut self, ty: &'a Type, name: &str, spot: Spot, part: &'a Type) {
        match part.size {
            Some(size) => self.constant(part, size),
            None => {
                let what = format!("variant {}", written(name));
                self.summed(ty, &what, name, spot, part, |_| true);
            }
        }
    }

    fn sized(&mut self, variant: &'a Variant) {
        let size = match variant.ty.size {
            Some(size) if size == variant.number => return self.constant(&variant.ty, size),
            Some(size) => size.to_string(),
            None => "variable size".to_string(),
        };
        let (name, number) = (written(&variant.name), variant.number);
        self.warn(
            variant.spot,
            format!("variant {name} of size {number} has a type of {size}"),
            number.to_string(),
            "a variant of a sized union counts as the size before its type",
        );
    }

    fn same_tags(&mut self, ty: &Type, variants: &[Variant]) {
        let word = match ty.shape {
            Shape::SizedUnion(_) => "size",
            _ => "tag",
        };
        for (i, variant) in variants.iter().enumerate() {
            let first = variants[..i].iter().find(|v| v.number == variant.number);
            if let Some(first) = first {
                let (first, second) = (written(&first.name), written(&variant.name));
                self.warn(
                    variant.spot,
                    format!(
                        "variant {second} of {} has the {word} {} of variant {first}",
                        named(ty),
                        variant.number
                    ),
                    format!("variant {first}"),
                    "the first case of a tag is taken",
                );
            }
        }
        self.same_names(ty, "variants", variants.iter().map(|v| (&*v.name, v.spot)));
    }

    fn same_names<'n>(
        &mut self,
        ty: &Type,
        what: &str,
        names: impl Iterator<Item = (&'n str, Spot)>,
    ) {
        let mut seen: Vec<&str> = Vec::new();
        for (name, spot) in names {
            if seen.contains(&name) {
                let shown = written(name);
                self.warn(
                    spot,
                    format!("two {what} of {} have the name {shown}", named(ty)),
                    "both".to_string(),
                    "an owner's paths are those of all that have its name",
                );
            }
            seen.push(name);
        }
    }

    // Arrays.

    fn elements(&mut self, ty: &'a Type, array: &'a Array) {
        let element = &array.element;
        match element.size {
            Some(size) => {
                if aligned(size, element.align) != Some(size) {
                    self.warn(
                        element.spot,
                        format!("elements of {size} with the alignment {}", element.align),
                        format!("{size} each"),
                        "elements are not aligned, the array is",
                    );
                }
                self.constant(element, size);
            }
            None if array.jagged => self.warn(
                ty.spot,
                format!("jagged {} of variable elements", named(ty)),
                "nothing, each record is refused with 24".to_string(),
                "a sum over an array can't be counted",
            ),
            None => self.variable(element),
        }
    }

    // Constants.

    /// A type of constant size counts as that size, whatever stands in it.
    fn constant(&mut self, ty: &'a Type, size: u64) {
        match &ty.shape {
            Shape::Primitive => {}
            Shape::Struct(fields) => self.constant_struct(ty, fields, size),
            Shape::Union(fields) => {
                self.same_names(ty, "fields", fields.iter().map(|f| (&*f.name, f.spot)));
                for field in fields {
                    self.fits(ty, size, &Member::field(field, 0));
                }
            }
            Shape::Enum(_, variants) | Shape::SizedUnion(variants) => {
                self.same_tags(ty, variants);
                for variant in variants {
                    self.fits(ty, size, &Member::variant(variant));
                }
            }
            Shape::Array(array) => self.constant_array(ty, array, size),
            Shape::Reference(target) => self.constant_reference(ty, target, size),
        }
    }

    fn constant_struct(&mut self, ty: &'a Type, fields: &'a [Field], size: u64) {
        self.same_names(ty, "fields", fields.iter().map(|f| (&*f.name, f.spot)));
        let mut end = 0u64;
        for (i, field) in fields.iter().enumerate() {
            let at = field.offset.unwrap_or(end);
            let length = field.ty.size.unwrap_or(0);
            let other = fields[..i].iter().find(|f| meets(f, at, length));
            if let (Some(other), Some(_)) = (other, field.offset) {
                let name = written(&field.name);
                self.warn(
                    field.spot,
                    format!("field {name} at {at} overlaps {}", extent(other)),
                    format!("{size} for {}", named(ty)),
                    CONSTANT,
                );
            }
            self.fits(ty, size, &Member::field(field, at));
            end = at.saturating_add(length);
        }
    }

    /// A part of a type of constant size.
    fn fits(&mut self, ty: &Type, size: u64, member: &Member<'a>) {
        let what = format!("{} of {}", member.what, named(ty));
        let counted = format!("{size} for {}", named(ty));
        let spot = member.spot;
        match member.ty.size {
            None => self.warn(spot, format!("{what} is variable"), counted, CONSTANT),
            Some(length) => {
                let end = member.at.saturating_add(length);
                if end > size {
                    let drawn = format!("{what} ends at {end}, behind the size {size}");
                    self.warn(spot, drawn, counted, CONSTANT);
                }
                self.constant(member.ty, length);
            }
        }
    }

    fn constant_array(&mut self, ty: &Type, array: &'a Array, size: u64) {
        let element = &array.element;
        if let (Form::Literal(_, count), Some(length)) = (&array.count.form, element.size) {
            let whole = count.checked_mul(length);
            let whole = whole.and_then(|w| aligned(w, ty.align));
            if whole != Some(size) {
                self.warn(
                    ty.spot,
                    format!("{} has {count} elements of {length}", named(ty)),
                    size.to_string(),
                    CONSTANT,
                );
            }
        }
        match element.size {
            Some(length) => self.constant(element, length),
            None => self.warn(
                element.spot,
                format!("the element of {} is variable", named(ty)),
                format!("{size} for {}", named(ty)),
                CONSTANT,
            ),
        }
    }

    fn constant_reference(&mut self, ty: &Type, target: &str, size: u64) {
        let shown = format!("{} to {}", named(ty), written(target));
        let drawn = match self.types.iter().find(|t| t.name == target) {
            None => format!("{shown}, which is not in the set"),
            Some(target) => match target.size {
                Some(other) if other == size => return,
                Some(other) => format!("{shown}, which has the size {other}"),
                None => format!("{shown}, which is variable"),
            },
        };
        self.warn(
            ty.spot,
            drawn,
            size.to_string(),
            "a constant reference is not looked up",
        );
    }
}

/// A field or variant of a type of constant size, and the place where it is drawn.
struct Member<'a> {
    what: String,
    spot: Spot,
    ty: &'a Type,
    at: u64,
}

impl<'a> Member<'a> {
    fn field(field: &'a Field, at: u64) -> Member<'a> {
        Member {
            what: format!("field {}", written(&field.name)),
            spot: field.spot,
            ty: &field.ty,
            at,
        }
    }

    fn variant(variant: &'a Variant) -> Member<'a> {
        Member {
            what: format!("variant {}", written(&variant.name)),
            spot: variant.spot,
            ty: &variant.ty,
            at: 0,
        }
    }
}

const CONSTANT: &str = "a constant size is counted as it stands";
const PAYLOAD: &str = ".payload_size";

fn has_payload(ty: &Type, field: &Field) -> bool {
    let owner = ty.owners.iter().find(|o| o.name == field.name);
    owner.is_some_and(|o| o.paths.iter().any(|p| p.ends_with(PAYLOAD)))
}

/// Whether a field with an offset and a constant size shares a byte with others.
fn meets(field: &Field, at: u64, length: u64) -> bool {
    let (Some(offset), Some(size)) = (field.offset, field.ty.size) else {
        return false;
    };
    let end = offset.saturating_add(size);
    offset.max(at) < end.min(at.saturating_add(length))
}

/// A field and the bytes that it is drawn over.
fn extent(field: &Field) -> String {
    let name = written(&field.name);
    match (field.offset, field.ty.size) {
        (Some(at), Some(size)) if size > 0 => {
            format!(
                "field {name} (bytes {at} to {})",
                at.saturating_add(size - 1)
            )
        }
        _ => format!("field {name}"),
    }
}

/// What is drawn in a type, if anything is.
fn inside(ty: &Type) -> Option<String> {
    let many = |count: usize, what: &str| match count {
        0 => None,
        1 => Some(format!("1 {what} in it")),
        _ => Some(format!("{count} {what}s in it")),
    };
    match &ty.shape {
        Shape::Primitive => None,
        Shape::Struct(fields) | Shape::Union(fields) => many(fields.len(), "field"),
        Shape::Enum(_, variants) | Shape::SizedUnion(variants) => many(variants.len(), "variant"),
        Shape::Array(_) => Some("an element and a count in it".to_string()),
        Shape::Reference(target) => Some(format!("a reference to {} in it", written(target))),
    }
}

/// The values of a run that no type of a layout asks for.
pub fn of_run(types: &[TypeTree], run: &Run) -> Vec<Warning> {
    let Some(tree) = types.iter().find(|t| t.name == run.name) else {
        return Vec::new();
    };
    let mut asked = Vec::new();
    asked_by(types, tree, &mut Vec::new(), &mut asked);
    let unasked = run.values.entries.iter();
    let unasked = unasked.filter(|v| !asked.contains(&v.name.as_str()));
    let warning = |value: &Value| Warning {
        spot: value.spot,
        words: words(
            &format!(
                "the value {}, which no parameter of {} has",
                written(&value.name),
                written(&run.name)
            ),
            "nothing",
            "a value that no node asks for is passed over",
        ),
    };
    unasked.map(warning).collect()
}

/// The names that a type's parameters, nodes and called types ask for.
fn asked_by<'t>(
    types: &'t [TypeTree],
    tree: &'t TypeTree,
    seen: &mut Vec<&'t str>,
    asked: &mut Vec<&'t str>,
) {
    if seen.contains(&tree.name.as_str()) {
        return;
    }
    seen.push(&tree.name);
    asked.extend(tree.parameters.iter().map(|p| p.name.as_str()));
    all_names(&tree.root, asked);
    for (called, _) in calls(types, &tree.root) {
        asked_by(types, called, seen, asked);
    }
}

/// Values that never reach a called type. Each type of a layout that calls another is gone over; a
/// called type sees the call's arguments and, of what its caller sees, what it lists itself.
pub fn of_calls(types: &[TypeTree], spot_of: impl Fn(&TypeTree) -> Spot) -> Vec<Warning> {
    let mut found = Vec::new();
    for tree in types {
        for (called, arguments) in calls(types, &tree.root) {
            let names = format!("{} calls {}", written(&tree.name), written(&called.name));
            for name in lost_in(called, arguments) {
                found.push(lost(spot_of(tree), &names, called, name));
            }
            for (last, name) in lost_below(types, called, arguments) {
                let names = format!("{names}, which calls {}", written(&last.name));
                found.push(lost(spot_of(tree), &names, last, name));
            }
        }
    }
    found.dedup_by(|a, b| a.spot == b.spot && a.words == b.words);
    found
}

fn lost(spot: Spot, calls: &str, called: &TypeTree, name: &str) -> Warning {
    let (called, name) = (written(&called.name), written(name));
    Warning {
        spot,
        words: words(
            &format!("{calls}, and {called} asks for {name}, which never reaches it"),
            "nothing, a record that asks for it is refused with 21",
            "a called type sees the call's arguments and what it lists itself",
        ),
    }
}

/// The types that a node's calls name, with the arguments, each once: a type may be called often.
fn calls<'t>(types: &'t [TypeTree], node: &'t Node) -> Vec<(&'t TypeTree, &'t [Argument])> {
    let mut all = Vec::new();
    all_calls(types, node, &mut all);
    let mut seen = BTreeSet::new();
    all.retain(|(called, arguments)| {
        let names: Vec<&str> = arguments.iter().map(|a| a.name.as_str()).collect();
        seen.insert((called.name.as_str(), names))
    });
    all
}

fn all_calls<'t>(
    types: &'t [TypeTree],
    node: &'t Node,
    all: &mut Vec<(&'t TypeTree, &'t [Argument])>,
) {
    if let Op::CallNested { name, arguments } = &node.op {
        let called = types.iter().find(|t| t.name == *name);
        all.extend(called.map(|t| (t, &arguments[..])));
    }
    for below in children(&node.op) {
        all_calls(types, below, all);
    }
}

/// Whether a called type can see a name.
fn sees(called: &TypeTree, arguments: &[Argument], name: &str) -> bool {
    let listed = called.parameters.iter().any(|p| p.name == name);
    listed || arguments.iter().any(|a| a.name == name)
}

/// What the nodes of a called type ask for and it can't see.
fn lost_in<'t>(called: &'t TypeTree, arguments: &[Argument]) -> Vec<&'t str> {
    let mut asked = own_names(&called.root);
    asked.retain(|name| !sees(called, arguments, name));
    asked
}

/// What the types that a called type calls list and ask for, and neither an argument nor what the
/// called type sees gives them.
fn lost_below<'t>(
    types: &'t [TypeTree],
    called: &'t TypeTree,
    arguments: &[Argument],
) -> Vec<(&'t TypeTree, &'t str)> {
    let mut lost = Vec::new();
    for (last, handed) in calls(types, &called.root) {
        for name in own_names(&last.root) {
            let listed = last.parameters.iter().any(|p| p.name == name);
            let given = handed.iter().any(|a| a.name == name);
            if listed && !given && !sees(called, arguments, name) {
                lost.push((last, name));
            }
        }
    }
    lost
}

/// The names that the nodes of one tree ask for, each once.
fn own_names(node: &Node) -> Vec<&str> {
    let mut names = Vec::new();
    all_names(node, &mut names);
    let mut seen = BTreeSet::new();
    names.retain(|name| seen.insert(*name));
    names
}

fn all_names<'n>(node: &'n Node, names: &mut Vec<&'n str>) {
    match &node.op {
        Op::FieldRef { path, parameter } => names.push(parameter.as_ref().unwrap_or(path)),
        Op::Switch { tag, .. } => names.push(tag),
        Op::CallNested { arguments, .. } => names.extend(arguments.iter().map(|a| &*a.value)),
        _ => {}
    }
    for below in children(&node.op) {
        all_names(below, names);
    }
}
