//! Where a build stumbles. The proved call gives a number and the place of a type; this walk goes
//! over the type as the builder does (crates/builder/specs/Nodes.antt), in the same order, and
//! stops where the builder would. It judges nothing: if it does not arrive at the call's number, it
//! is not asked further.

use crate::expr;
use crate::lines::{shortened, written};
use crate::model::*;
use crate::parse::TYPES;
use crate::registry::{self, Registry, TooMuch, MOST_BYTES, MOST_ENTRIES};

/// Where a build stumbles, at what, and what would help.
#[derive(Debug)]
pub struct Stumble {
    pub number: u8,
    pub spot: Spot,
    /// Whether the spot is that of an expression, many of which stand on one line.
    pub in_line: bool,
    pub words: String,
    pub help: Option<Help>,
}

/// What would help, and where it would stand: below a type, or in place of an owner.
#[derive(Debug)]
pub struct Help {
    pub words: String,
    pub place: Option<(String, Spot)>,
}

type Walked = Result<(), Box<Stumble>>;

/// Walks over one type of a set.
pub fn walk(types: &[Type], ty: &Type) -> Option<Stumble> {
    let mut walker = Walker {
        types,
        registry: Registry::default(),
    };
    walker.root(ty).err().map(|s| *s)
}

/// A type's word and name.
pub fn named(ty: &Type) -> String {
    let word = TYPES[usize::from(ty.shape.kind()) - 1];
    format!("{word} {}", written(&ty.name))
}

fn stumble(number: u8, spot: Spot, words: impl Into<String>) -> Box<Stumble> {
    Box::new(Stumble {
        number,
        spot,
        in_line: false,
        words: words.into(),
        help: None,
    })
}

impl Stumble {
    fn helped(mut self: Box<Self>, words: impl Into<String>) -> Box<Self> {
        self.help = Some(Help {
            words: words.into(),
            place: None,
        });
        self
    }

    /// An owner line below a type would help.
    fn owner_helps(mut self: Box<Self>, ty: &Type, owner: &str, paths: &[String]) -> Box<Self> {
        let place = match ty.owners.iter().find(|o| o.name == owner) {
            Some(there) => (format!("in place of owner {}", written(owner)), there.spot),
            None => (format!("below {}", named(ty)), ty.spot),
        };
        self.help = Some(Help {
            words: format!("`{}`", owner_line(ty, owner, paths)),
            place: Some(place),
        });
        self
    }
}

/// The line of an owner with the paths that it has in a type already and others.
fn owner_line(ty: &Type, owner: &str, paths: &[String]) -> String {
    let there = ty.owners.iter().find(|o| o.name == owner);
    let mut all: Vec<&String> = there.iter().flat_map(|o| &o.paths).collect();
    all.extend(paths);
    all.sort();
    all.dedup();
    let shown: Vec<String> = all.iter().map(|p| written(p)).collect();
    match shown.is_empty() {
        true => format!("owner {}", written(owner)),
        false => format!("owner {} paths {}", written(owner), shown.join(" ")),
    }
}

/// The array whose counts are walked: whose owner is asked, of which type, and what it is called.
struct Counted<'a> {
    holder: &'a Type,
    owner: &'a str,
    what: String,
}

struct Walker<'a> {
    types: &'a [Type],
    registry: Registry,
}

impl<'a> Walker<'a> {
    fn root(&mut self, ty: &'a Type) -> Walked {
        self.extend(ty)?;
        if let Shape::Reference(target) = &ty.shape {
            return self.call(&named(ty), ty.spot, target);
        }
        if ty.size.is_some() {
            return Ok(());
        }
        match &ty.shape {
            Shape::Primitive => Err(stumble(10, ty.spot, format!("{} is variable", named(ty)))
                .helped("a size of its own (`size N`), or a struct with it as a field")),
            Shape::Struct(fields) => self.fields(ty, fields),
            Shape::Union(_) | Shape::Enum(..) | Shape::SizedUnion(_) => self.switch(ty),
            Shape::Array(_) => self.root_array(ty),
            Shape::Reference(_) => Ok(()),
        }
    }

    /// Enters the references of a type.
    fn extend(&mut self, ty: &Type) -> Walked {
        let entered = self.registry.extend(&ty.owners);
        entered.map_err(|much| too_much(ty.spot, &named(ty), much))
    }

    // Arrays.

    fn root_array(&mut self, ty: &'a Type) -> Walked {
        match registry::array_owner(&ty.name, &ty.owners) {
            Some(owner) => self.array(ty, "", &counted(ty, &owner.name, named(ty))),
            None => {
                let key = registry::array_key(&ty.name);
                let paths = self.missing_paths(ty, key);
                let words = format!("{} has no owner, by which its count is told", named(ty));
                Err(stumble(11, ty.spot, words).owner_helps(ty, key, &paths))
            }
        }
    }

    fn array(&mut self, ty: &'a Type, prefix: &str, counted: &Counted) -> Walked {
        let Shape::Array(array) = &ty.shape else {
            return Ok(());
        };
        self.count(&array.count, prefix, counted)?;
        let element = &array.element;
        let (variable, shape) = (element.size.is_none(), &element.shape);
        if array.jagged && variable {
            return match shape {
                Shape::Reference(_) => Ok(()),
                _ => Err(self.element(counted, element, "jagged ")),
            };
        }
        self.extend(element)?;
        match (variable, shape) {
            (false, _) => Ok(()),
            (true, Shape::Array(_)) => self.array(element, &format!("{prefix}element."), counted),
            (true, _) => Err(self.element(counted, element, "")),
        }
    }

    fn element(&self, counted: &Counted, element: &Type, jagged: &str) -> Box<Stumble> {
        let what = format!(
            "the element of {}, {}, is variable",
            counted.what,
            named(element)
        );
        let may = match jagged {
            "" => "an element of constant size, or a variable array",
            _ => "an element of constant size, or (refused with 24 where it is counted) a variable reference",
        };
        stumble(13, element.spot, what).helped(may)
    }

    /// An expression that counts elements.
    fn count(&self, expr: &Expr, prefix: &str, counted: &Counted) -> Walked {
        match &expr.form {
            Form::Literal(code, number) if *code >= 4 && (*number as i64) < 0 => {
                Err(unsupported(expr, counted, "a literal from 0 on"))
            }
            Form::Literal(..) => Ok(()),
            Form::Path(segments) => self.counted_path(expr, &segments.join("."), prefix, counted),
            Form::Two(68..=72 | 74..=78, left, right) => {
                self.count(left, prefix, counted)?;
                self.count(right, prefix, counted)
            }
            Form::Named(..) => Err(unsupported(expr, counted, "the number itself as a literal")),
            Form::One(..) | Form::Two(..) => {
                let may = "only +, -, *, /, %, &, |, ^, << and >> of literals and paths";
                Err(unsupported(expr, counted, may))
            }
        }
    }

    fn counted_path(&self, expr: &Expr, raw: &str, prefix: &str, counted: &Counted) -> Walked {
        if raw == "__buffer_size" {
            return Ok(());
        }
        let path = registry::prefixed(prefix, raw);
        if self.registry.lookup(counted.owner, &path).is_some() {
            return match path.len() > MOST_BYTES {
                true => Err(long_name(expr.spot, &counted.what, &path)),
                false => Ok(()),
            };
        }
        let owner = written(counted.owner);
        let words = format!(
            "the count of {} asks for {}, which owner {owner} does not have",
            counted.what,
            written(&path)
        );
        let mut missing = self.missing_paths_of(counted);
        missing.retain(|p| *p != path);
        missing.push(path);
        let mut found = stumble(12, expr.spot, words);
        found.in_line = true;
        Err(found.owner_helps(counted.holder, counted.owner, &missing))
    }

    /// The paths that the counts of an array ask for and an owner does not have.
    fn missing_paths(&self, ty: &Type, owner: &str) -> Vec<String> {
        let mut asked = Vec::new();
        asked_by_array(ty, "", &mut asked);
        let missing = |path: &String| self.registry.lookup(owner, path).is_none();
        asked.into_iter().filter(missing).collect()
    }

    /// The same for the array that is walked: a field of its holder, or the holder itself.
    fn missing_paths_of(&self, counted: &Counted) -> Vec<String> {
        let array = match &counted.holder.shape {
            Shape::Struct(fields) => fields.iter().find(|f| f.name == counted.owner),
            _ => None,
        };
        let array = array.map_or(counted.holder, |field| &field.ty);
        self.missing_paths(array, counted.owner)
    }

    // Switches.

    fn switch(&mut self, ty: &'a Type) -> Walked {
        self.extend(ty)?;
        let (key, made) = match &ty.shape {
            Shape::Enum(tag, _) => match &tag.form {
                Form::Path(segments) => {
                    self.tag(ty, tag, &segments.join("."))?;
                    return self.alternatives(ty);
                }
                _ => ("__computed_tag", "computed_tag"),
            },
            Shape::SizedUnion(variants) if variants.is_empty() => {
                let words = format!("{} has no variants", named(ty));
                return Err(stumble(10, ty.spot, words).helped("a `variant NAME size N TYPE`"));
            }
            Shape::SizedUnion(_) => ("__payload_size", "payload_size"),
            _ => ("__variant", "variant"),
        };
        let name = format!("{}.{made}", ty.name);
        let entered = self.registry.add_made(&ty.name, key, name);
        entered.map_err(|much| too_much(ty.spot, &named(ty), much))?;
        self.alternatives(ty)
    }

    fn tag(&self, ty: &Type, tag: &Expr, path: &str) -> Walked {
        let qualified = registry::parent_path(&ty.name, path);
        let paths = [Some(path.to_string()), qualified];
        let mut paths = paths.iter().flatten();
        if paths.any(|p| self.registry.lookup(&ty.name, p).is_some()) {
            return Ok(());
        }
        let words = format!(
            "the tag of {} is {}, which owner {} does not have (a tag is told under the type's name)",
            named(ty),
            written(path),
            written(&ty.name)
        );
        let mut found = stumble(12, tag.spot, words);
        found.in_line = true;
        Err(found.owner_helps(ty, &ty.name, &[path.to_string()]))
    }

    fn alternatives(&mut self, ty: &Type) -> Walked {
        match &ty.shape {
            Shape::Union(fields) => {
                for field in fields.iter().filter(|f| f.ty.size.is_none()) {
                    self.sum(ty, "variant", &field.name, field.spot)?;
                }
            }
            Shape::Enum(_, variants) => {
                for variant in variants.iter().filter(|v| v.ty.size.is_none()) {
                    self.sum(ty, "variant", &variant.name, variant.spot)?;
                }
            }
            _ => {}
        }
        Ok(())
    }

    /// A field or variant whose size is the sum of what its owner's paths say.
    fn sum(&self, ty: &Type, part: &str, name: &str, spot: Spot) -> Walked {
        let shown = format!("{part} {} of {}", written(name), named(ty));
        let helps = |found: Box<Stumble>| found.owner_helps(ty, name, &["size".to_string()]);
        let Some(owner) = ty.owners.iter().find(|o| o.name == name) else {
            let words = format!(
                "{shown} is variable and has no owner: its size is the sum of what an owner's paths say"
            );
            return Err(helps(stumble(11, spot, words)));
        };
        self.owner_sum(owner, &owner.paths, &shown)?;
        match owner.paths.is_empty() {
            true => {
                let words = format!("the owner of {shown} has no paths, which would be its size");
                Err(helps(stumble(11, owner.spot, words)))
            }
            false => Ok(()),
        }
    }

    fn owner_sum(&self, owner: &Owner, paths: &[String], shown: &str) -> Walked {
        for path in paths {
            let text = format!("{}:{path}", owner.name);
            if text.len() > MOST_BYTES {
                return Err(long_name(owner.spot, shown, &text));
            }
        }
        Ok(())
    }

    // Structs.

    fn fields(&mut self, ty: &'a Type, fields: &'a [Field]) -> Walked {
        for field in fields {
            if let (Some(offset), Some(size)) = (field.offset, field.ty.size) {
                if offset.checked_add(size).is_none() {
                    let name = written(&field.name);
                    let words = format!("field {name} at {offset} with a size of {size}");
                    return Err(stumble(16, field.spot, words));
                }
            }
            self.field(ty, field)?;
        }
        match fields.is_empty() {
            true => Err(stumble(
                11,
                ty.spot,
                format!("{} is variable and has no fields", named(ty)),
            )
            .helped("a field, or a constant size")),
            false => Ok(()),
        }
    }

    fn field(&mut self, ty: &'a Type, field: &'a Field) -> Walked {
        let what = format!("field {} of {}", written(&field.name), named(ty));
        if field.ty.size.is_some() {
            return self.extend(&field.ty);
        }
        match &field.ty.shape {
            Shape::Array(_) => self.array(&field.ty, "", &counted(ty, &field.name, what))?,
            Shape::Reference(target) => return self.call(&what, field.spot, target),
            Shape::Enum(..) => {
                let owner = ty.owners.iter().find(|o| o.name == field.name);
                let payload = |p: &&String| p.ends_with(".payload_size");
                let paths = owner.iter().flat_map(|o| &o.paths);
                let paths: Vec<String> = paths.filter(payload).cloned().collect();
                if let (Some(owner), false) = (owner, paths.is_empty()) {
                    return self.owner_sum(owner, &paths, &what);
                }
                self.switch(&field.ty)?;
            }
            Shape::SizedUnion(_) => self.switch(&field.ty)?,
            Shape::Primitive | Shape::Struct(_) | Shape::Union(_) => {
                self.sum(ty, "field", &field.name, field.spot)?;
            }
        }
        self.extend(&field.ty)
    }

    // Type references.

    fn call(&mut self, what: &str, spot: Spot, target: &str) -> Walked {
        let Some(called) = self.types.iter().find(|t| t.name == target) else {
            let words = format!("{what} refers to {}", written(target));
            let names: Vec<String> = self.types.iter().map(|t| written(&t.name)).collect();
            let there = format!("one of the set's types: {}", names.join(", "));
            return Err(stumble(15, spot, words).helped(there));
        };
        let mut arguments = 0;
        for owner in &called.owners {
            for path in &owner.paths {
                let name = registry::canonical_name(&owner.name, path);
                if name.len() > MOST_BYTES {
                    return Err(long_name(spot, what, &name));
                }
                let entered = self.registry.ensure(&owner.name, path);
                entered.map_err(|much| too_much(spot, what, much))?;
                if arguments >= MOST_ENTRIES {
                    return Err(too_much(spot, what, TooMuch::Entries));
                }
                arguments += 1;
            }
        }
        Ok(())
    }
}

fn counted<'a>(holder: &'a Type, owner: &'a str, what: String) -> Counted<'a> {
    Counted {
        holder,
        owner,
        what,
    }
}

/// The paths that the counts of an array ask for, and of arrays that are its elements.
fn asked_by_array(ty: &Type, prefix: &str, asked: &mut Vec<String>) {
    let Shape::Array(array) = &ty.shape else {
        return;
    };
    asked_by(&array.count, prefix, asked);
    if ty.size.is_none() && array.element.size.is_none() {
        asked_by_array(&array.element, &format!("{prefix}element."), asked);
    }
}

fn asked_by(expr: &Expr, prefix: &str, asked: &mut Vec<String>) {
    match &expr.form {
        Form::Path(segments) => {
            let raw = segments.join(".");
            if raw != "__buffer_size" {
                asked.push(registry::prefixed(prefix, &raw));
            }
        }
        Form::Two(_, left, right) => {
            asked_by(left, prefix, asked);
            asked_by(right, prefix, asked);
        }
        Form::One(_, inner) => asked_by(inner, prefix, asked),
        Form::Literal(..) | Form::Named(..) => {}
    }
}

fn unsupported(expr: &Expr, counted: &Counted, may: &str) -> Box<Stumble> {
    let words = format!("`{}` in the count of {}", expr::show(expr), counted.what);
    let mut found = stumble(14, expr.spot, words).helped(may);
    found.in_line = true;
    found
}

fn too_much(spot: Spot, what: &str, much: TooMuch) -> Box<Stumble> {
    match much {
        TooMuch::Name(name) => long_name(spot, what, &name),
        TooMuch::Entries => stumble(17, spot, format!("one too many at {what}")),
    }
}

fn long_name(spot: Spot, what: &str, name: &str) -> Box<Stumble> {
    let words = format!("{what} has {} of {} bytes", shortened(name), name.len());
    stumble(17, spot, words)
}
